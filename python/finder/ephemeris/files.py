"""The text of JPL's files, read once: their header, and the blocks of a span. What is not one series is refused."""

from __future__ import annotations

import re
from collections.abc import Callable, Iterator
from dataclasses import dataclass
from pathlib import Path
from typing import TypeVar

import numpy as np

from .. import spans
from ..seen.vectors import Floats, floats
from .names import Files, some_names
from .order import J2000_DATE, WrongFiles

SIZE = re.compile(rb"^[ \t]*KSIZE=[ \t]*[0-9]+[ \t]+NCOEFF=[ \t]*([0-9]+)[ \t]*\r?\n")
HEAD_END = re.compile(rb"^[ \t]*GROUP[ \t]+1070[ \t]*\r?\n", re.MULTILINE)
BLOCK = re.compile(rb"^[ \t]*[0-9]+[ \t]+([0-9]+)[ \t]*\r?\n", re.MULTILINE)
# The same after the end of a line: that is found four times as fast.
NEXT_BLOCK = re.compile(rb"\n[ \t]*[0-9]+[ \t]+([0-9]+)[ \t]*\r?(?=\n)")
E_FOR_D = bytes.maketrans(b"Dd", b"EE")
# As many bytes of a block have its two dates.
DATES = 120
Dates = TypeVar("Dates", float, Floats)
# The series of a file that has JPL's name.
JPL_NAME = re.compile(r"(?:header|asc[pm][0-9]+)\.([0-9]+t?)(?:_[0-9]+)?")


@dataclass(frozen=True)
class Block:
    """A block: the file in which it begins, its days as Julian dates, and its numbers, as they are written."""

    file: str
    first: float
    last: float
    text: bytes


@dataclass(frozen=True)
class Contents:
    """What was read of files: the words of the header, the numbers of the blocks of a span, a row for each, and the
    span of all blocks, in seconds since J2000 (TDB)."""

    header: list[bytes]
    blocks: Floats
    start: float
    end: float


def number_of(word: str) -> float:
    """A number of a file, whose exponent may be written with D."""
    return float(word.upper().replace("D", "E"))


def seconds_of(date: Dates) -> Dates:
    """The seconds since J2000 of a Julian date, or of an array of them."""
    return (date - J2000_DATE) * spans.DAY


def read(files: Files, start: float, end: float) -> Contents:
    """Reads files, and keeps the blocks that reach into a span, in seconds since J2000 (TDB). `WrongFiles` where no
    header stands first, the files are of two series, not in order of time, or have no block of the span."""
    names = some_names(files)
    _refuse_names(names)
    texts = [Path(name).read_bytes() for name in names]
    text = b"\n".join(texts)
    begins = np.cumsum([0, *(len(each) + 1 for each in texts)])
    size, head = SIZE.match(text), HEAD_END.search(text)
    if size is None or head is None:
        raise WrongFiles(f"{names[0]} does not begin with a header: name that of the series, as header.405, before it")

    def file_at(place: int) -> str:
        return names[int(np.searchsorted(begins, place, side="right")) - 1]

    again = HEAD_END.search(text, head.end()) if text.find(b"GROUP", head.end()) >= 0 else None
    if again:
        raise WrongFiles(f"{file_at(again.start())} has a header of its own, as another series has: name one header")
    count = int(size[1])
    every: list[Block] = []
    for block in _blocks(text, head.end(), count, file_at):
        _append(every, block)
    if not every:
        raise WrongFiles(f"{names[-1]} has a header and no block: name the files of blocks after it")
    return Contents(text[: head.end()].split(), *_kept(every, count, start, end))


def _kept(every: list[Block], count: int, start: float, end: float) -> tuple[Floats, float, float]:
    """The numbers of the blocks that reach into a span, and the span of all."""
    low, high = seconds_of(every[0].first), seconds_of(every[-1].last)
    # (a block that only touches the span is none of it, but at the ends of the files)
    kept = [each for each in every if seconds_of(each.last) > start and seconds_of(each.first) < end]
    if not kept:
        raise nothing_of(low, high, start, end)
    # (a line has three numbers, and the last line is filled up)
    rows = [np.fromstring(each.text.translate(E_FOR_D), sep=" ")[:count] for each in kept]
    if {len(row) for row in rows} != {count}:
        raise WrongFiles("a block of the files is cut off: finder.check says where")
    return floats(rows), low, high


def nothing_of(low: float, high: float, start: float, end: float) -> WrongFiles:
    """The refusal of a span, the last two times in seconds since J2000, of which files of the first two have no block."""
    has, wanted = (" to ".join(_text(time) for time in ends) for ends in ((low, high), (start, end)))
    return WrongFiles(f"the files have {has} (TDB), and nothing of {wanted}")


def _text(seconds: float) -> str:
    """A time as a text."""
    return spans.time_text(int(seconds)) if np.isfinite(seconds) else str(seconds)


def _refuse_names(names: list[str]) -> None:
    """Refuses files whose names say that they are of two series."""
    series: dict[str, str] = {}
    for name in names:
        found = JPL_NAME.fullmatch(Path(name).name)
        if found:
            series.setdefault(found[1], name)
    if len(series) > 1:
        one, other = list(series.values())[:2]
        raise WrongFiles(f"{one} and {other} are of two series: name files of one")


def _blocks(text: bytes, after: int, count: int, file_at: Callable[[int], str]) -> Iterator[Block]:
    """The blocks of a text after its header, which has said how many numbers are in each."""
    heads = list(NEXT_BLOCK.finditer(text, after - 1))
    for found, stop in zip(heads, [later.start() + 1 for later in heads[1:]] + [len(text)]):
        name, begin = file_at(found.start() + 1), found.end() + 1
        if int(found[1]) != count:
            raise WrongFiles(
                f"{name} has blocks of {int(found[1])} numbers, and the header says {count}: they are of two series"
            )
        dates = [number_of(word.decode()) for word in text[begin : begin + DATES].split()[:2]]
        if len(dates) < 2:
            raise WrongFiles(f"a block of {name} is cut off: finder.check says where")
        yield Block(name, dates[0], dates[1], text[begin:stop])


def _append(every: list[Block], block: Block) -> None:
    """Appends a block to those before it, of which a file may begin with the last one again."""
    have = every[-1] if every else None
    if have is None or block.first == have.last:
        every.append(block)
    elif block.first > have.first:
        raise WrongFiles(
            f"{block.file} does not go on where {have.file} ends: name all files of one series, in order of time"
        )
    elif block.first < every[0].first:
        raise WrongFiles(
            f"{block.file} begins before {every[0].file}, which is named before it: name files in order of time"
        )
    elif block.first == have.first and block.text.split() != have.text.split():
        raise WrongFiles(f"{have.file} and {block.file} have other numbers of the same days: they are of two series")

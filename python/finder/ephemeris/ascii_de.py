"""JPL's ASCII files of DE, in any order: their header, and the blocks of a span, letter for letter."""

from __future__ import annotations

import re
from collections.abc import Iterator
from dataclasses import dataclass
from typing import Any, Optional

from .files import BLOCK, DATES, HEAD_END, SIZE, number_of, seconds_of
from .sources import SourceFile, WrongSource
from .text import COLUMNS, MAX_BLOCKS, span_text
from .writing import MAX_BYTES, date_text, title_lines

SPAN_GROUP = re.compile(rb"(GROUP[ \t]+1030[ \t]*\r?\n\s*)(\S+[ \t]+\S+)")
TITLE_GROUP = re.compile(rb"GROUP[ \t]+1010[ \t]*\r?\n(.*?)\n(?=[ \t]*(?:\r?\n[ \t]*)*GROUP[ \t]+1030)", re.DOTALL)


@dataclass(frozen=True)
class Block:
    """A block of a file: where its text begins and ends, and its span in seconds since J2000 (TDB)."""

    file: SourceFile
    begin: int
    stop: int
    start: int
    end: int

    @property
    def text(self) -> bytes:
        """Its lines."""
        return bytes(self.file.data[self.begin : self.stop])


@dataclass(frozen=True)
class AsciiSource:
    """The header of a series, the file that it stands in, and the blocks of all files in order of time."""

    header: bytes
    header_file: SourceFile
    headers: int
    blocks: tuple[Block, ...]

    @property
    def start(self) -> int:
        """The start of the first block, in seconds since J2000 (TDB)."""
        return self.blocks[0].start

    @property
    def end(self) -> int:
        """The end of the last block."""
        return self.blocks[-1].end

    @property
    def titles(self) -> tuple[str, ...]:
        """The lines of the header's title."""
        found = TITLE_GROUP.search(self.header)
        lines = found[1].decode("ascii", "replace").splitlines() if found else []
        return tuple(line.strip() for line in lines if line.strip())

    @property
    def names(self) -> dict[str, str]:
        """The bodies of the columns that are there, the Earth where both of its columns are, and the barycentre."""
        words = self.header.split()
        first = words.index(b"1050") + 1
        table = words[first : words.index(b"GROUP", first)]
        width = len(table) // 3
        counts = [(int(table[width + at]), int(table[2 * width + at])) for at in range(len(COLUMNS))]
        made = [name for name, count in zip(COLUMNS, counts) if 0 not in count]
        if "emb" in made and "moon" in made:
            made.append("earth")
        else:
            made = [name for name in made if name != "moon"]
        return {name: name for name in (*made, "ssb")}

    def clipped(self, start: Optional[float], end: Optional[float]) -> AsciiSource:
        """The source with the blocks that reach into a span."""
        low = self.start if start is None else start
        high = self.end if end is None else end
        kept = tuple(block for block in self.blocks if block.end > low and block.start < high)
        return AsciiSource(self.header, self.header_file, self.headers, kept)

    def checked(self) -> AsciiSource:
        """The source itself, where its blocks follow one another: else `WrongSource`."""
        for before, after in zip(self.blocks, self.blocks[1:]):
            if before.end != after.start:
                raise WrongSource(
                    f"between {before.file.name} and {after.file.name} blocks are missing, "
                    f"{span_text(before.end, after.start)}: "
                    "name the files that have them, or start= and end= on one side"
                )
        if len(self.blocks) > MAX_BLOCKS:
            raise WrongSource(
                f"{span_text(self.start, self.end)} has {len(self.blocks)} blocks, and a search reads {MAX_BLOCKS} at "
                "most: name start= and end= nearer to each other"
            )
        return self

    def files(self, titles: tuple[str, ...]) -> Iterator[bytes]:
        """The texts of these blocks, after the header with their dates and with more lines of its title: one, or the
        header alone and then several, each of which begins with the last block of the one before."""
        header = self._header(titles)
        if len(header) + sum(block.stop - block.begin for block in self.blocks) <= MAX_BYTES:
            yield header + b"".join(block.text for block in self.blocks)
            return
        yield header
        kept: list[bytes] = []
        for block in self.blocks:
            if sum(map(len, kept)) + block.stop - block.begin > MAX_BYTES:
                yield b"".join(kept)
                kept = kept[-1:]
            kept.append(block.text)
        yield b"".join(kept)

    def _header(self, titles: tuple[str, ...]) -> bytes:
        dates = f"{date_text(self.start)}  {date_text(self.end)}".encode()
        made = SPAN_GROUP.sub(lambda found: found[1] + dates, self.header, count=1)
        found = TITLE_GROUP.search(made)
        if found is None:
            raise WrongSource(f"{self.header_file.name} has a header without groups 1010 and 1030: copy it anew")
        lines = "".join(f"\n{line}" for line in title_lines(titles)).encode()
        return made[: found.end(1)].rstrip() + lines + b"\n" + made[found.end(1) :].lstrip(b"\r")


def read(files: list[SourceFile]) -> AsciiSource:
    """The source of files, each of which has a header, or blocks, or both."""
    header: Optional[tuple[bytes, SourceFile]] = None
    headers = 0
    bodies: list[tuple[SourceFile, int]] = []
    for file in files:
        found = _header_of(file)
        if found and header and _numbers(found) != _numbers(header[0]):
            raise WrongSource(f"{header[1].name} and {file.name} are of two series: name files of one")
        if found:
            header, headers = header or (found, file), headers + 1
        bodies.append((file, len(found)))
    if header is None:
        raise WrongSource(f"{files[0].name} has blocks and no header: name the header of its series too, as header.405")
    count = int(SIZE.match(header[0])[1])  # type: ignore[index]
    every = [block for file, after in bodies for block in _blocks(file, after, count)]
    if not every:
        raise WrongSource(f"{header[1].name} is a header without blocks: name the files of blocks too, as ascp2000.405")
    return AsciiSource(*header, headers, tuple(_in_order(every)))


def _header_of(file: SourceFile) -> bytes:
    """The header of a file, or nothing."""
    if not SIZE.match(file.data):
        return b""
    end = HEAD_END.search(file.data)
    if end is None:
        raise WrongSource(f"{file.name} ends within its header: copy it anew")
    return bytes(file.data[: end.end()])


def _numbers(header: bytes) -> tuple[list[bytes], list[bytes]]:
    """What the headers of one series agree in: the first line, the constants and the columns."""
    words = header.split()
    return words[:4], words[words.index(b"1040") :] if b"1040" in words else words


def _blocks(file: SourceFile, after: int, count: int) -> Iterator[Block]:
    """The blocks of a file. Most have one length, so that the next one is where the last one ends."""
    data: Any = file.data
    begin = BLOCK.search(data, after)
    length = 0
    while begin:
        if int(begin[1]) != count:
            raise WrongSource(
                f"{file.name} has blocks of {int(begin[1])} numbers, and the header says {count}: they are of two "
                "series"
            )
        near = BLOCK.match(data, begin.start() + length) if length else None
        after_this = near or BLOCK.search(data, begin.end())
        stop = after_this.start() if after_this else len(data)
        dates = bytes(data[begin.end() : begin.end() + DATES]).split()[:2]
        numbers = bytes(data[begin.end() : stop]).count(b".") if near is None else count
        if len(dates) < 2 or numbers < count:
            raise WrongSource(f"{file.name} is cut off within its block {begin[0].split()[0].decode()}: copy it anew")
        yield Block(file, begin.start(), stop, *(_seconds(word, file) for word in dates))
        length = stop - begin.start()
        begin = after_this


def _seconds(word: bytes, file: SourceFile) -> int:
    """The seconds since J2000 of a Julian date of a block."""
    try:
        return round(seconds_of(number_of(word.decode("ascii", "replace"))))
    except ValueError:
        raise WrongSource(f"{file.name} has a block that begins with {word!r} and no date: copy it anew") from None


def _in_order(every: list[Block]) -> Iterator[Block]:
    """Blocks in order of time, each once: two of one span have to be the same."""
    last: Optional[Block] = None
    for block in sorted(every, key=lambda each: (each.start, each.end)):
        if last is not None and block.start < last.end:
            if (block.start, block.end) != (last.start, last.end) or block.text.split()[1:] != last.text.split()[1:]:
                raise WrongSource(
                    f"{last.file.name} and {block.file.name} have other numbers of "
                    f"{span_text(block.start, block.end)}: they are of two series, so name files of one"
                )
            continue
        yield block
        last = block

"""Parts of a text for the searches that need no more of it: some columns, and the blocks of a span.

Most of the time of a short search is that of reading its text. The numbers of an excerpt are those of the text, letter
for letter, and a search looks at no others, so that it finds the same windows by the same pieces: the certificates of
both are equal (`python/tests/test_ephemeris_excerpts.py`).
"""

from __future__ import annotations

import math
import os
import threading
from collections.abc import Iterable, Sequence
from dataclasses import dataclass, replace
from pathlib import Path
from typing import Optional

import numpy as np

from ..process import scratch
from . import writing
from .files import HEAD_END, number_of, seconds_of
from .text import AXES, COLUMNS, Column, EphemerisText

# The columns that are read for the place of a body: that of the Earth is of two, and so is the Moon's.
OF_TWO = {"earth": ("emb", "moon"), "moon": ("emb", "moon"), "ssb": ()}
# A text of fewer bytes is read in a millisecond, so that an excerpt of it saves nothing. An excerpt of more bytes than
# the second number would fill the disk, and its search takes much longer than its reading.
SHORT, LONG = 200_000, 8_000_000
# The header of a text is within so many bytes.
LONGEST_HEADER = 1_000_000


@dataclass(frozen=True)
class _Whole:
    """A text that one file holds: its numbers as they are written, by block, number and byte, and its columns without
    them."""

    numbers: writing.Bytes
    shape: EphemerisText

    def blocks(self, first: float, last: float) -> tuple[int, int]:
        """The first block of a span of seconds since J2000 (TDB), and the one after the last. A time at which one block
        ends and another begins is of the later one."""
        low, high = (math.floor((end - self.shape.start) / self.shape.block) for end in (first, last))
        return max(0, low), min(self.shape.blocks, high + 1)

    def bytes_of(self, columns: Iterable[str], first: int, last: int) -> int:
        """The bytes of the blocks of an excerpt."""
        return writing.length_of_block(2 + sum(self.shape.columns[name].numbers for name in columns)) * (last - first)

    def excerpt(self, columns: Iterable[str], first: int, last: int) -> bytes:
        """The text of some columns in the blocks from one number up to another."""
        wanted = set(columns)
        places, place = [0, 1], 2
        for name, column in self.shape.columns.items():
            places += range(place, place + column.numbers) if name in wanted else ()
            place += column.numbers
        start = self.shape.start + first * self.shape.block
        kept = {name: column for name, column in self.shape.columns.items() if name in wanted}
        text = replace(self.shape, start=start, blocks=last - first, columns=kept)
        return writing.header(text) + writing.lines_of(self.numbers[first:last, places], 0)


@dataclass(frozen=True)
class Excerpt:
    """The files of an excerpt, or of the text itself. They are in order, as what has `files` says."""

    files: tuple[str, ...]


class Excerpts:
    """The excerpts of a text, whose files are removed with it."""

    def __init__(self, files: Sequence[str]) -> None:
        self._all = Excerpt(tuple(files))
        self._lock = threading.Lock()
        self._whole: Optional[_Whole] = None
        self._is_read = False
        self._folder = ""
        self._made: dict[tuple[frozenset[str], int, int], Excerpt] = {}

    def files(self, bodies: Iterable[str], first: float, last: float) -> Excerpt:
        """The files for a search of some bodies in a span of seconds since J2000 (TDB): an excerpt, or those of the
        text itself if it is short, in another form than `writing` gives, or outside of the span, if the excerpt is long,
        or if it cannot be written."""
        with self._lock:
            if not self._is_read:
                self._whole, self._is_read = _whole_of(self._all.files), True
            if self._whole is None:
                return self._all
            columns = frozenset(column for body in bodies for column in OF_TWO.get(body, (body,)))
            low, high = self._whole.blocks(first, last)
            known = columns <= set(self._whole.shape.columns)
            if not known or low >= high or not self._is_inside(first, last):
                return self._all
            if self._whole.bytes_of(columns, low, high) > LONG:
                return self._all
            try:
                return self._written(self._whole, columns, low, high)
            except OSError:
                return self._all

    def _is_inside(self, first: float, last: float) -> bool:
        """Whether the text holds a span: the program refuses another."""
        assert self._whole is not None
        return self._whole.shape.start <= first < last <= self._whole.shape.end

    def _written(self, whole: _Whole, columns: frozenset[str], low: int, high: int) -> Excerpt:
        """An excerpt, which is written once."""
        key = columns, low, high
        if key not in self._made:
            if not self._folder:
                self._folder = scratch.new_folder()
                scratch.remove_with(self, self._folder)
            path = Path(self._folder, f"{len(self._made):04}.asc")
            try:
                path.write_bytes(whole.excerpt(columns, low, high))
            except OSError:
                path.unlink(missing_ok=True)
                raise
            self._made[key] = Excerpt((str(path),))
        return self._made[key]


def _whole_of(files: Sequence[str]) -> Optional[_Whole]:
    """The text of a file, if it is one that `writing` wrote; else None."""
    if len(files) != 1 or os.path.getsize(files[0]) < SHORT:
        return None
    with open(files[0], "rb") as file:
        found = HEAD_END.search(file.read(LONGEST_HEADER))
        shape = None if found is None else _shape_of(found.string[: found.end()].split())
        if found is None or shape is None:
            return None
        # (a blank line is behind the header)
        head, length = found.end() + 1, writing.length_of_block(shape.numbers)
        if os.fstat(file.fileno()).st_size - head != shape.blocks * length:
            return None
        file.seek(head)
        lines = np.frombuffer(file.read(), np.uint8).reshape(shape.blocks, length)
    return _Whole(writing.fields_of(lines, shape.numbers), shape)


def _shape_of(words: list[bytes]) -> Optional[EphemerisText]:
    """The columns of a header, whose numbers are all 0, its span and its ratio of masses; None of another header than
    `writing` writes."""
    try:
        return _shape_of_groups(words)
    except (KeyError, ValueError, IndexError, ZeroDivisionError):
        return None


def _shape_of_groups(words: list[bytes]) -> EphemerisText:
    groups = {words[place + 1]: place + 2 for place, word in enumerate(words) if word == b"GROUP"}
    start, end, days = (number_of(word.decode()) for word in words[groups[b"1030"] : groups[b"1030"] + 3])
    table = np.array(words[groups[b"1050"] : words.index(b"GROUP", groups[b"1050"])]).astype(int).reshape(3, -1)
    first = round(seconds_of(start))
    block = round(days * 86_400)
    blocks = round((seconds_of(end) - seconds_of(start)) / block)
    columns = {
        name: Column(np.broadcast_to(0.0, (blocks * granules, AXES, count)), granules)
        for name, count, granules in zip(COLUMNS, *table[1:].tolist())
        if count
    }
    names = words[groups[b"1040"] + 1 : groups[b"1040"] + 1 + int(words[groups[b"1040"]])]
    ratio = number_of(words[groups[b"1041"] + 1 + names.index(b"EMRAT")].decode())
    return EphemerisText(first, block, blocks, columns, ratio)

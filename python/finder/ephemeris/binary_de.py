"""JPL's binary files of DE, in either byte order: their columns, as doubles."""

from __future__ import annotations

import struct
from dataclasses import dataclass
from typing import Optional

import numpy as np

from ..reports.calendar import DAY
from ..seen.vectors import Floats
from .order import J2000_DATE
from .sources import DATES_AT, SourceFile, WrongSource, byte_order
from .text import AXES, COLUMNS, Column, EphemerisText, span_text

# The layout of the first record (JPL's `asc2eph.f`): three titles of 84 letters, 400 names of constants of six letters,
# the dates, the number of constants, AU, EMRAT, twelve columns of three numbers, DENUM, and the column of librations.
TITLE, TITLES = 84, 3
NAME, NAMES = 6, 400
COUNT_AT = DATES_AT + 24
CONSTANTS_AT = COUNT_AT + 4
COLUMNS_AT = CONSTANTS_AT + 16
KEPT_CONSTANTS = ("DENUM", "LENUM", "CLIGHT", "AU")
DOUBLE = 8
# A record has at most so many numbers; JPL's longest has 1,652.
MAX_RECORD = 8_192


@dataclass(frozen=True)
class BinaryFile:
    """A binary file: its records as rows of doubles, its columns, and what its first records say."""

    file: SourceFile
    records: Floats
    places: tuple[tuple[int, int, int], ...]
    block: int
    mass_ratio: float
    titles: tuple[str, ...]
    constants: dict[str, float]

    @property
    def dates(self) -> Floats:
        """The first second of each record, since J2000 (TDB)."""
        return np.round((self.records[:, 0] - J2000_DATE) * DAY)


def read(files: list[SourceFile], start: Optional[float], end: Optional[float]) -> tuple[EphemerisText, int, int]:
    """The text of the blocks of files that reach into a span in seconds since J2000 (TDB), of all where none is named;
    and the span of all files."""
    every = [_file(file) for file in files]
    first = every[0]
    for other in every[1:]:
        if (other.places, other.block, other.mass_ratio) != (first.places, first.block, first.mass_ratio):
            raise WrongSource(f"{first.file.name} and {other.file.name} are of two series: name files of one")
    dates = np.concatenate([each.dates for each in every])
    owner = np.repeat(np.arange(len(every)), [len(each.records) for each in every])
    row = np.concatenate([np.arange(len(each.records)) for each in every])
    order = np.argsort(dates, kind="stable")
    low, high = int(dates[order[0]]), int(dates[order[-1]]) + first.block
    kept = [
        at for at in order if (end is None or dates[at] < end) and (start is None or dates[at] + first.block > start)
    ]
    if not kept:
        return _text(first, np.empty((0, first.records.shape[1])), low), low, high
    rows: list[Floats] = []
    last = dates[kept[0]]
    for at in kept:
        record = every[owner[at]].records[row[at]]
        if dates[at] == last:
            rows.append(record)
            last = last + first.block
        elif dates[at] > last or not np.array_equal(record, rows[-1]):
            what = "blocks are missing" if dates[at] > last else "are other numbers"
            where = span_text(last, dates[at]) if dates[at] > last else span_text(dates[at], dates[at] + first.block)
            raise WrongSource(f"in {every[owner[at]].file.name} {what} of {where}: name the files of one series, whole")
    return _text(first, np.array(rows), int(dates[kept[0]])), low, high


def _file(file: SourceFile) -> BinaryFile:
    """The contents of a file, by its first two records."""
    order = byte_order(file.data[: DATES_AT + 24])
    head = bytes(file.data[: COLUMNS_AT + 13 * 12])
    numbers = struct.unpack_from(f"{order}36i", head, COLUMNS_AT)
    places = tuple(zip(numbers[0:33:3], numbers[1:33:3], numbers[2:33:3]))
    days = struct.unpack_from(f"{order}3d", head, DATES_AT)[2]
    count, _, mass_ratio = struct.unpack_from(f"{order}i2d", head, COUNT_AT)
    size = _record_size(file, order, days, max(start + AXES * n * granules - 1 for start, n, granules in places if n))
    data = np.frombuffer(file.data, f"{order}f8", count=len(file.data) // (DOUBLE * size) * size)
    records = data.reshape(-1, size)
    names = [head[at : at + NAME].decode("ascii", "replace").strip() for at in range(TITLE * TITLES, DATES_AT, NAME)]
    values = dict(zip(names[: min(count, NAMES)], records[1].tolist()))
    titles = [head[at : at + TITLE].decode("ascii", "replace").strip() for at in range(0, TITLE * TITLES, TITLE)]
    constants = {name: values[name] for name in KEPT_CONSTANTS if name in values}
    return BinaryFile(file, records[2:], places, round(days * DAY), mass_ratio, tuple(titles), constants)


def _record_size(file: SourceFile, order: str, days: float, least: int) -> int:
    """The numbers of a record, of which the header says those of bodies alone: the third and the fourth record begin
    with dates that follow one another."""
    for size in range(least, MAX_RECORD + 1):
        if len(file.data) < 3 * DOUBLE * size:
            break
        first = struct.unpack_from(f"{order}2d", file.data, 2 * DOUBLE * size)
        if first[1] - first[0] != days or not -1e7 < first[0] < 1e7:
            continue
        if (
            len(file.data) < 4 * DOUBLE * size
            or struct.unpack_from(f"{order}d", file.data, 3 * DOUBLE * size)[0] == first[1]
        ):
            return size
    raise WrongSource(f"{file.name} has no records of {days:g} days after its header: copy it anew")


def _text(first: BinaryFile, rows: Floats, start: int) -> EphemerisText:
    """The text of records."""
    columns = {}
    for name, (place, count, granules) in zip(COLUMNS, first.places):
        if count and granules:
            numbers = rows[:, place - 1 : place - 1 + AXES * count * granules]
            columns[name] = Column(numbers.reshape(-1, AXES, count).astype(float), granules)
    return EphemerisText(start, first.block, len(rows), columns, first.mass_ratio, first.titles, first.constants)

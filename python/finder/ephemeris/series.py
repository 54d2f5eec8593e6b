"""Places of bodies in doubles, out of the same files that are searched: nothing is proved of them."""

from __future__ import annotations

import math
from typing import Any

import numpy as np
from numpy.polynomial.chebyshev import chebder

from .. import spans
from ..public import public
from ..searches.words import one_of
from ..seen.vectors import Floats, floats, many
from . import writing
from .cache import numbers_of
from .chebyshev import columns_at, sums
from .files import number_of, read, seconds_of
from .names import Files

COLUMNS = "mercury venus emb mars jupiter saturn uranus neptune pluto moon sun".split()
BODIES = (*COLUMNS, "earth", "ssb")
# The obliquity of the ecliptic of J2000 is 84381.448 arc seconds.
OBLIQUITY = np.radians(84_381.448 / 3_600)


@public
class Series:
    """The Chebyshev series of JPL's files, read once, for places of bodies in km and km/s, in doubles and unproved.

    The files are those that `finder check` accepts. Of their blocks those are kept that reach into the span from
    `start` to `end`, in seconds since J2000 (TDB). `seen`, `values` and the others that read files take one in place of
    reading them again: `series=finder.Series(files)`. `start` and `end` are those of the blocks that are kept, outside
    of which there are no places, but NaN; `files_start` and `files_end` those of the files. `WrongFiles`, a ValueError,
    names the file where no header stands first, files are of two series or not in order of time, or have nothing of the
    span.

    >>> import finder
    >>> series = finder.Series("examples/de405-2000.asc")
    >>> series.body("moon", 0.0).round().ravel().tolist()
    [-27858242.0, 132094712.0, 57342544.0]
    """

    start: float
    end: float

    def __init__(self, files: Files, start: float = -math.inf, end: float = math.inf) -> None:
        numbers = numbers_of(files)
        contents = read(files, start, end) if numbers is None else writing.contents(numbers, start, end)
        self._read_header(contents.header)
        self._blocks = contents.blocks
        self._length = (self._blocks[0, 1] - self._blocks[0, 0]) * spans.DAY
        self.start = seconds_of(self._blocks[0, 0])
        self.end = seconds_of(self._blocks[-1, 1])
        self.files_start, self.files_end = contents.start, contents.end
        self._tables: dict[str, Floats] = {}
        self._rates: dict[str, Floats] = {}

    def _read_header(self, words: list[bytes]) -> None:
        """Keeps the columns of a header, and the ratio of the masses of Earth and Moon."""
        groups = {words[place + 1]: place + 2 for place, word in enumerate(words) if word == b"GROUP"}
        names, values = (
            words[groups[number] + 1 : groups[number] + 1 + int(words[groups[number]])] for number in (b"1040", b"1041")
        )
        first = groups[b"1050"]
        # (three rows, each with as many columns: 13 in most series, 15 where there are librations and TT less TDB)
        table = np.array([int(word) for word in words[first : words.index(b"GROUP", first)]]).reshape(3, -1)
        self._columns = table[:, :13]
        self._mass_ratio = number_of(values[names.index(b"EMRAT")].decode())
        #: The number of JPL's series, as 405, or None where the header has none.
        self.number = round(number_of(values[names.index(b"DENUM")].decode())) if b"DENUM" in names else None

    def _table(self, name: str) -> Floats:
        """The series of a column: by coefficient, axis and granule."""
        if name not in self._tables:
            start, coefficients, granules = self._columns[:, COLUMNS.index(name)]
            if coefficients == 0:
                raise ValueError(f"the files have no column of {name}")
            rows = self._blocks[:, start - 1 : start - 1 + 3 * coefficients * granules]
            self._tables[name] = np.ascontiguousarray(rows.reshape(-1, 3, coefficients).transpose(2, 1, 0))
        return self._tables[name]

    def _table_of_rates(self, name: str) -> Floats:
        """The series of the rates of a column in km/s."""
        if name not in self._rates:
            rates = chebder(self._table(name))  # type: ignore[no-untyped-call]
            self._rates[name] = np.ascontiguousarray(rates * (2 * self.granules(name) / self._length))
        return self._rates[name]

    @property
    def block(self) -> float:
        """The length of a block in seconds."""
        return float(self._length)

    def granules(self, name: str) -> int:
        """How many granules of a column are in a block."""
        return int(self._columns[2, COLUMNS.index(name)])

    def coefficients(self, name: str) -> Floats:
        """The coefficients of a column in km: by granule, axis and coefficient."""
        return floats(self._table(name).transpose(2, 1, 0))

    def _column(self, name: str, times: Floats, rates: bool) -> Floats:
        """Positions of a column in km, an array of three rows; with rates, in km/s, six rows. NaN outside."""
        table, granules = self._table(name), self.granules(name)
        inside = (times >= self.start) & (times <= self.end)
        place = np.where(inside, (times - self.start) / self._length * granules, 0.0)
        # (the end of the files is in the last granule)
        granule = np.minimum(place.astype(int), len(self._blocks) * granules - 1)
        at = 2 * (place - granule) - 1
        made = sums(columns_at(table, granule), at)
        if rates:
            made = np.concatenate([made, sums(columns_at(self._table_of_rates(name), granule), at)])
        if not inside.all():
            made[:, ~inside] = np.nan
        return floats(made)

    def body(self, name: str, times: Any, rates: bool = False) -> Floats:
        """Places of a body from the barycentre of the solar system, on the axes of the file, at seconds since J2000
        (TDB): three rows in km; with `rates` six, km and km/s. NaN at times outside of the blocks that are kept."""
        one_of("body", name, BODIES)
        at = many(times)
        if name == "ssb":
            return np.zeros((6 if rates else 3, len(at)))
        if name in ("earth", "moon"):
            moon = self._column("moon", at, rates)
            earth = self._column("emb", at, rates) - moon / (1 + self._mass_ratio)
            return earth + moon if name == "moon" else earth
        return self._column(name, at, rates)

    def from_origin(self, name: str, times: Any) -> Floats:
        """Places of a column's own in km, at seconds since J2000 (TDB): of the text of a sky those from the observer, who
        is at its origin, the Moon's among them. NaN outside."""
        at = many(times)
        return np.zeros((3, len(at))) if name in ("earth", "ssb") else self._column(name, at, False)

    def seen(self, target: str, observer: str, frame: str, times: Any) -> Floats:
        """Geometric places of a body from an observer in km, on the axes `eq` or `ecl` of J2000, at seconds since J2000
        (TDB): an array of three rows."""
        at = many(times)
        return self.turned(frame, self.body(target, at) - self.body(observer, at))

    @staticmethod
    def turned(frame: str, places: Floats) -> Floats:
        """Places of the file's axes, on the axes `eq` or `ecl` of J2000."""
        one_of("frame", frame, ("eq", "ecl"))
        x, y, z = places
        if frame == "eq":
            return np.array([x, y, z])
        cosine, sine = np.cos(OBLIQUITY), np.sin(OBLIQUITY)
        return np.array([x, cosine * y + sine * z, cosine * z - sine * y])

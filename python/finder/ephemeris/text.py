"""The text of an ephemeris in memory: Chebyshev series of bodies over blocks of one length, and the format's limits."""

from __future__ import annotations

from collections.abc import Mapping
from dataclasses import dataclass, field, replace

import numpy as np

from ..public import public
from ..reports.calendar import DAY, time_text as calendar_text
from ..seen.vectors import Floats

# The columns of bodies in their order, and the two others, which are never written.
COLUMNS = ("mercury", "venus", "emb", "mars", "jupiter", "saturn", "uranus", "neptune", "pluto", "moon", "sun")
OTHER_COLUMNS = 2
AXES = 3
# The limits of the format (`docs/guide/formats.md`). The dates of a block are decimals, so that its ends are multiples of 27
# seconds from J2000: 27 / 86,400 = 0.0003125.
MAX_COEFFICIENTS = 32
MAX_NUMBERS = 4_096
MAX_BLOCKS = 16_384
MAX_DAYS = 32
MAX_KILOMETRES = 2.0**36
DATE_STEP = 27
MIN_MASS_RATIO, MAX_MASS_RATIO = 1.0, 1_000.0
# Julian dates from 0 to 5,000,000, as seconds since J2000.
FIRST_SECOND = -2_451_545 * DAY
LAST_SECOND = (5_000_000 - 2_451_545) * DAY


@public
class WrongText(ValueError):
    """A motion that the format cannot hold: the body or the span is named, and what to do.

    >>> import finder
    >>> issubclass(finder.WrongText, ValueError)
    True
    """


def time_text(seconds: float) -> str:
    """A time as a text of TDB, to the second, or the number where the calendar of the format does not reach it."""
    if not np.isfinite(seconds) or not FIRST_SECOND <= seconds <= LAST_SECOND:
        return f"{seconds:g} seconds since J2000"
    return calendar_text(int(np.floor(seconds)))


def span_text(start: float, end: float) -> str:
    """A span as a text of TDB."""
    return f"{time_text(start)} to {time_text(end)} (TDB)"


@dataclass(frozen=True)
class Column:
    """The series of one column over all blocks: coefficients in km, of which the first axis counts granules, the second
    the components x, y, z and the third T_0, T_1 and so on; and how many granules are in a block."""

    coefficients: Floats
    granules: int

    @property
    def count(self) -> int:
        """The coefficients of a component in a granule."""
        return int(self.coefficients.shape[2])

    @property
    def numbers(self) -> int:
        """The places that the column takes in a block."""
        return AXES * self.count * self.granules


@dataclass(frozen=True)
class EphemerisText:
    """Blocks of `block` seconds each, from `start` on, in seconds of TDB since J2000, with the series of columns.

    `mass_ratio` is EMRAT: the Earth's place is that of `emb` less the `moon` column over 1 + EMRAT, and the Moon's
    place is the Earth's and the `moon` column. The other columns are places from the origin. `titles` are lines of the
    header.
    """

    start: int
    block: int
    blocks: int
    columns: Mapping[str, Column]
    mass_ratio: float = 81.30056
    titles: tuple[str, ...] = field(default=())
    constants: Mapping[str, float] = field(default_factory=dict)

    @property
    def end(self) -> int:
        """The end of the last block, in seconds since J2000."""
        return self.start + self.block * self.blocks

    @property
    def numbers(self) -> int:
        """NCOEFF: the numbers of a block, its two dates among them."""
        return 2 + sum(column.numbers for column in self.columns.values())

    def clipped(self, start: float, end: float) -> EphemerisText:
        """The text of the blocks that reach into a span in seconds since J2000, of which there is at least one."""
        first = max(0, int((start - self.start) // self.block))
        last = min(self.blocks, int(-((self.start - end) // self.block)))
        columns = {
            name: replace(column, coefficients=column.coefficients[first * column.granules : last * column.granules])
            for name, column in self.columns.items()
        }
        return replace(self, start=self.start + first * self.block, blocks=last - first, columns=columns)

    def checked(self) -> EphemerisText:
        """The text itself, where the format can hold it: else `WrongText`."""
        span = span_text(self.start, self.end)
        if self.start % DATE_STEP or self.block % DATE_STEP:
            raise WrongText(f"the blocks of {span} begin at no multiple of {DATE_STEP} seconds from J2000")
        if not 0 < self.block <= MAX_DAYS * DAY:
            raise WrongText(f"a block has {self.block} seconds, and the format at most {MAX_DAYS} days: fit the motion")
        if not FIRST_SECOND <= self.start < self.end <= LAST_SECOND:
            raise WrongText(
                f"{span} is outside of the format's {span_text(FIRST_SECOND, LAST_SECOND)}: name a shorter span"
            )
        if self.blocks > MAX_BLOCKS:
            longest = MAX_BLOCKS * self.block // DAY
            raise WrongText(
                f"{span} has {self.blocks} blocks of {self.block / DAY:g} days, and a search reads at most "
                f"{MAX_BLOCKS}: name start= and end= at most {longest} days apart"
            )
        if self.numbers > MAX_NUMBERS:
            raise WrongText(
                f"a block has {self.numbers} numbers, and the format at most {MAX_NUMBERS}: name fewer bodies"
            )
        if not MIN_MASS_RATIO <= self.mass_ratio <= MAX_MASS_RATIO:
            raise WrongText(
                f"EMRAT is {self.mass_ratio:g}, and the format takes {MIN_MASS_RATIO:g} to {MAX_MASS_RATIO:g}"
            )
        for name, column in self.columns.items():
            self._check_column(name, column)
        return self

    def _check_column(self, name: str, column: Column) -> None:
        """Refuses a column that the format cannot hold."""
        if column.count > MAX_COEFFICIENTS or self.block % column.granules:
            raise WrongText(
                f"{name} has {column.count} coefficients and {column.granules} granules in a block of {self.block} "
                "seconds, "
                f"and the format takes {MAX_COEFFICIENTS} coefficients and granules of whole seconds: fit the motion"
            )
        length = self.block // column.granules
        with np.errstate(invalid="ignore"):
            wrong = ~(np.abs(column.coefficients) < MAX_KILOMETRES).all(axis=(1, 2))
        if wrong.any():
            at = self.start + int(np.argmax(wrong)) * length
            what = "no number" if np.isnan(column.coefficients[np.argmax(wrong)]).any() else "2^36 km or more"
            raise WrongText(
                f"{name} has {what} in {span_text(at, at + length)}: the format takes numbers below 2^36 "
                "(68,719,476,736 km, 459 au); for what is farther give a direction, at a distance of your own"
            )

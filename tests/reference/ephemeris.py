"""What the files hold once they are accepted: a header, blocks of numbers, and the granules and borders in them.

Times are whole ticks of TDB since J2000: seconds, or with 1,000 ticks to a second milliseconds. Lengths are in km.
"""

from __future__ import annotations

from dataclasses import dataclass
from functools import cached_property
from typing import Iterable, NamedTuple, Optional

from .decimals import Decimal

BODY_COLUMNS = 11
"""Columns 1 to 11 hold bodies: the planets, the Earth-Moon barycentre, the Moon and the Sun."""
KNOWN_COLUMNS = 13
"""Columns 1 to 13 have a meaning; those after it are not looked at."""
NUTATIONS = 12
"""The one column of two components; the others have three."""


class Column(NamedTuple):
    """A column: the place of its first number in a block, from 1, its coefficients per component and its granules."""

    start: int
    coefficients: int
    granules: int

    @property
    def is_present(self) -> bool:
        """A column with no coefficients or no granules is absent."""
        return self.coefficients != 0 and self.granules != 0


class Header(NamedTuple):
    """The facts of a header: the numbers of a block, its seconds, EMRAT, and 13 to 15 columns."""

    ncoeff: int
    block_seconds: int
    emrat: Decimal
    columns: tuple[Column, ...]


def component_count(column: int) -> int:
    """How many components a column has, by its number from 1."""
    return 2 if column == NUTATIONS else 3


def places_of(number: int, column: Column) -> range:
    """The places in a block, from 1, that a column takes."""
    return range(column.start, column.start + component_count(number) * column.coefficients * column.granules)


@dataclass(eq=False)
class Granule:
    """The polynomials of a column over `length` ticks from `start` on, one for each component.

    Component i is the sum of c_k T_k(x), c_k = components[i][k], where x goes from -1 to 1 over the granule.
    """

    start: int
    length: int
    components: tuple[tuple[Decimal, ...], ...]

    @property
    def count(self) -> int:
        """How many coefficients each component has."""
        return len(self.components[0])

    @cached_property
    def pairs(self) -> tuple[tuple[tuple[int, int], ...], ...]:
        """Each coefficient, rounded down and up to a whole number of units of 2^-24 km."""
        return tuple(tuple(_pair(number) for number in component) for component in self.components)

    @cached_property
    def rate_pairs(self) -> tuple[tuple[tuple[int, int], ...], ...]:
        """k times the pair of c_k, for k from 1 on."""
        return tuple(tuple((k * low, k * high) for k, (low, high) in enumerate(row) if k) for row in self.pairs)


def _pair(number: Decimal) -> tuple[int, int]:
    value = number.value() * 2**24
    return value.numerator // value.denominator, -(-value.numerator // value.denominator)


class Ephemeris:
    """A header and the numbers of accepted blocks, one after the other, counted in ticks."""

    def __init__(self, header: Header, start: int, tick: int = 1) -> None:
        self.header = header
        self.start = start
        self.tick = tick
        self.block_length = header.block_seconds * tick
        self.blocks: list[tuple[Decimal, ...]] = []
        self._granules: dict[tuple[int, int], Granule] = {}
        self._in_ticks: dict[int, Ephemeris] = {}

    @property
    def end(self) -> int:
        """The tick at which the last block ends."""
        return self.start + len(self.blocks) * self.block_length

    def in_ticks(self, tick: int) -> Ephemeris:
        """The same ephemeris with so many ticks to a second; its granules are made once."""
        if tick not in self._in_ticks:
            ticks = Ephemeris(self.header, self.start * tick, tick)
            ticks.blocks = self.blocks
            self._in_ticks[tick] = ticks
        return self._in_ticks[tick]

    def has_column(self, number: int) -> bool:
        """Whether a column, by its number from 1, is present."""
        return number <= len(self.header.columns) and self.header.columns[number - 1].is_present

    def granule_length(self, number: int) -> int:
        """The ticks of one granule of a column."""
        return self.block_length // self.header.columns[number - 1].granules

    def granule_count(self, number: int) -> int:
        """How many granules a column has over all blocks."""
        return len(self.blocks) * self.header.columns[number - 1].granules

    def granule(self, number: int, time: int) -> Granule:
        """The granule of a column at a tick from the start to the end.

        It is the last one that begins at the tick or before it. The end of the last block belongs to the last granule.
        """
        if not self.start <= time <= self.end:
            raise ValueError(f"tick {time} is not within {self.start} to {self.end}")
        index = min((time - self.start) // self.granule_length(number), self.granule_count(number) - 1)
        key = number, index
        if key not in self._granules:
            self._granules[key] = self._make_granule(number, index)
        return self._granules[key]

    def _make_granule(self, number: int, index: int) -> Granule:
        column = self.header.columns[number - 1]
        block, inner = divmod(index, column.granules)
        count, components = column.coefficients, component_count(number)
        first = column.start - 1 + inner * components * count
        starts = range(first, first + components * count, count)
        length = self.granule_length(number)
        parts = tuple(self.blocks[block][at : at + count] for at in starts)
        return Granule(self.start + index * length, length, parts)

    def nearest_border(self, columns: Iterable[int], first: int, last: int) -> Optional[int]:
        """The border in (first, last] that is nearest to the middle, the earlier of two, or None.

        A border is a tick at which a granule of one of the columns begins, the first granule of each column aside.
        """
        borders = [border for number in columns for border in self._near_borders(number, first, last)]
        if not borders:
            return None
        return min(borders, key=lambda border: (abs(2 * border - first - last), border))

    def _near_borders(self, number: int, first: int, last: int) -> list[int]:
        """The borders of a column in (first, last] that are next to the middle, at most two."""
        length = self.granule_length(number)
        least = max(1, (first - self.start) // length + 1)
        most = min(self.granule_count(number) - 1, (last - self.start) // length)
        if least > most:
            return []
        before = (first + last - 2 * self.start) // (2 * length)
        return [self.start + min(max(index, least), most) * length for index in (before, before + 1)]

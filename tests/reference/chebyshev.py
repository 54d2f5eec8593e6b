"""The rows of four bases over an interval of arguments, and the motion of a granule made of them.

The bases are the Chebyshev polynomials of both kinds, T_k and U_k, and their divided differences: Q_k is
(T_k(y) - T_k(x)) / (y - x) for arguments x and y, and R_k is that of U_k. A row is a list of pairs of whole numbers: a
low end and a high end for each k from 0 on.
"""

from __future__ import annotations

from functools import cached_property, lru_cache
from typing import Sequence

from . import intervals
from .enclosures import Span
from .ephemeris import Granule
from .intervals import ZERO, Interval, products, shift_down, shift_up

Pair = tuple[int, int]

# The rows are in units of 2 to the power of less these.
ARGUMENT_BITS = T_BITS = 60
U_BITS = 50
Q_BITS = 46
R_BITS = 44
COEFFICIENT_BITS = 24

REMEMBERED = 1 << 12
"""How many motions are remembered."""


def argument(first: int, last: int, length: int) -> Pair:
    """The arguments from first / length to last / length in units of 2^-60, rounded outward."""
    return (first << ARGUMENT_BITS) // length, -((-last << ARGUMENT_BITS) // length)


def argument_of(granule: Granule, span: Span) -> Pair:
    """The arguments of a granule, from -1 at its start to 1 at its end, that belong to a span within it."""
    end = granule.start + granule.length
    if not granule.start <= span.first <= span.last <= end:
        raise ValueError(f"{span} is not within {granule.start} to {end}")
    first, last = (2 * (time - granule.start) - granule.length for time in span)
    return argument(first, last, granule.length)


def _next_entry(x: Pair, row: Sequence[Pair], limit: int, extra: Pair = (0, 0)) -> Pair:
    """2 x e + extra - before, of the last two entries e and before, rounded outward and cut to a magnitude."""
    low, high = products(x, row[-1])
    # x is in units of 2^-60, so the doubled product is 2^59 times too large.
    low, high = shift_down(low, ARGUMENT_BITS - 1), shift_up(high, ARGUMENT_BITS - 1)
    low, high = low + extra[0] - row[-2][1], high + extra[1] - row[-2][0]
    return max(low, -limit), min(high, limit)


def _coarser(pair: Pair, bits: int) -> Pair:
    """A pair in a unit that is 2^bits times as large, rounded outward."""
    return shift_down(pair[0], bits), shift_up(pair[1], bits)


def row_t(x: Pair, count: int) -> list[Pair]:
    """T_0 and on, in units of 2^-60. T_k is at most 1 in magnitude."""
    one = 1 << T_BITS
    row = [(one, one), x]
    while len(row) < count:
        row.append(_next_entry(x, row, one))
    return row[:count]


def row_u(x: Pair, count: int) -> list[Pair]:
    """U_0 and on, in units of 2^-50. U_k is at most k + 1 in magnitude."""
    one = 1 << U_BITS
    low, high = _coarser(x, ARGUMENT_BITS - U_BITS - 1)
    row = [(one, one), (max(low, -2 * one), min(high, 2 * one))]
    while len(row) < count:
        row.append(_next_entry(x, row, (len(row) + 1) * one))
    return row[:count]


def row_q(x: Pair, count: int, t: Sequence[Pair]) -> list[Pair]:
    """Q_0 and on, in units of 2^-46, by the row of T. Q_k is at most k^2 in magnitude; its extra is 2 T_(k-1)."""
    one = 1 << Q_BITS
    row = [(0, 0), (one, one)]
    while len(row) < count:
        k = len(row)
        row.append(_next_entry(x, row, k * k * one, _coarser(t[k - 1], T_BITS - Q_BITS - 1)))
    return row[:count]


def row_r(x: Pair, count: int, u: Sequence[Pair]) -> list[Pair]:
    """R_0 and on, in units of 2^-44, by the row of U. R_k is at most k (k+1) (k+2) / 3; its extra is 2 U_(k-1)."""
    one = 1 << R_BITS
    row = [(0, 0), (2 * one, 2 * one)]
    while len(row) < count:
        k = len(row)
        limit = k * (k + 1) * (k + 2) // 3 * one
        row.append(_next_entry(x, row, limit, _coarser(u[k - 1], U_BITS - R_BITS - 1)))
    return row[:count]


def _sum_of_products(factors: Sequence[Pair], row: Sequence[Pair]) -> Pair:
    low = high = 0
    for factor, entry in zip(factors, row):
        least, greatest = products(factor, entry)
        low += least
        high += greatest
    return low, high


class Motion:
    """A granule over a span of ticks within it: positions in km and velocities in km per tick, with their steps."""

    def __init__(self, granule: Granule, span: Span) -> None:
        self.granule, self.span = granule, span
        self.argument = argument_of(granule, span)

    @cached_property
    def _t(self) -> list[Pair]:
        return row_t(self.argument, self.granule.count)

    @cached_property
    def _u(self) -> list[Pair]:
        return row_u(self.argument, self.granule.count - 1)

    @cached_property
    def _q(self) -> list[Pair]:
        return row_q(self.argument, self.granule.count, self._t)

    @cached_property
    def _r(self) -> list[Pair]:
        return row_r(self.argument, self.granule.count - 1, self._u)

    def position(self, axis: int) -> Interval:
        """The sum of c_k T_k."""
        low, high = _sum_of_products(self.granule.pairs[axis], self._t)
        return intervals.normalize(low, high, -COEFFICIENT_BITS - T_BITS)

    def position_step(self, axis: int) -> Interval:
        """How a position changes in a tick: the sum of c_k Q_k over half the length."""
        if self.span.is_single:
            return ZERO
        low, high = _sum_of_products(self.granule.pairs[axis], self._q)
        return intervals.scale(low, high, -COEFFICIENT_BITS - Q_BITS, self.granule.length)

    def velocity(self, axis: int) -> Interval:
        """The sum of k c_k U_(k-1) over half the length."""
        low, high = _sum_of_products(self.granule.rate_pairs[axis], self._u)
        return intervals.scale(low, high, -COEFFICIENT_BITS - U_BITS, self.granule.length)

    def velocity_step(self, axis: int) -> Interval:
        """How a velocity changes in a tick: the sum of k c_k R_(k-1), twice over half the length."""
        if self.span.is_single:
            return ZERO
        low, high = _sum_of_products(self.granule.rate_pairs[axis], self._r)
        low, high = intervals.half_ratio(low, high, self.granule.length)
        return intervals.scale(low, high, -COEFFICIENT_BITS - R_BITS, self.granule.length)


@lru_cache(maxsize=REMEMBERED)
def motion_of(granule: Granule, span: Span) -> Motion:
    """The motion of a granule over a span; the last ones are remembered."""
    return Motion(granule, span)

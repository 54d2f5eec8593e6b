"""Intervals of numbers with whole ends in a unit that is a power of 2, and their outward rounding.

    >>> add(Interval(-3, 5, 0), Interval(1, 2, 4))
    Interval(low=13, high=37, exponent=0)
"""

from __future__ import annotations

from enum import Enum
from fractions import Fraction
from functools import lru_cache
from typing import NamedTuple

from .decimals import Decimal

MAX_END = 2**62
"""The greatest magnitude of an end."""
MAX_SHIFT = 60
"""How far an end is brought to a finer unit before the other interval is rounded to a coarser one."""
LENGTH_EXPONENT = -24
"""A length in km is rounded to units of 2^-24."""
RATIO_EXPONENT = -60
"""A cosine, a sine or a share is rounded to units of 2^-60."""


class Sign(Enum):
    """Whether numbers are at least 0."""

    YES = "yes"
    NO = "no"
    OPEN = "open"


class Interval(NamedTuple):
    """The numbers from low * 2^exponent to high * 2^exponent."""

    low: int
    high: int
    exponent: int

    @property
    def sign(self) -> Sign:
        """Yes if all numbers are at least 0, no if all are below 0, else open."""
        if self.low >= 0:
            return Sign.YES
        return Sign.NO if self.high < 0 else Sign.OPEN

    @property
    def is_zero(self) -> bool:
        """Whether 0 is its only number."""
        return self.low == 0 and self.high == 0

    def lower(self) -> Fraction:
        """Its least number."""
        return self.low * Fraction(2) ** self.exponent

    def upper(self) -> Fraction:
        """Its greatest number."""
        return self.high * Fraction(2) ** self.exponent

    def holds(self, number: Fraction) -> bool:
        """Whether a number lies in it."""
        return self.lower() <= number <= self.upper()


ZERO = Interval(0, 0, 0)


def shift_down(number: int, shift: int) -> int:
    """The number over 2^shift, rounded down."""
    return number >> shift


def shift_up(number: int, shift: int) -> int:
    """The number over 2^shift, rounded up."""
    return -(-number >> shift)


def products(one: tuple[int, int], other: tuple[int, int]) -> tuple[int, int]:
    """The least and the greatest product of an end of the one and an end of the other."""
    (a, b), (c, d) = one, other
    if a >= 0:
        return (a if c >= 0 else b) * c, (b if d >= 0 else a) * d
    if b <= 0:
        return (a if d >= 0 else b) * d, (b if c >= 0 else a) * c
    return min(a * d, b * c), max(a * c, b * d)


def normalize(low: int, high: int, exponent: int) -> Interval:
    """The interval in the finest unit, from this one on, in which no end is past 2^62 in magnitude.

    Low ends are rounded down and high ends up. The interval of 0 alone has the exponent 0.
    """
    if low > high:
        raise ValueError(f"{low} is above {high}")
    if -MAX_END <= low and high <= MAX_END:
        return Interval(low, high, exponent) if low or high else ZERO
    # With one shift less the greater magnitude would have more than 63 bits.
    shift = max(1, max(-low, high).bit_length() - 63)
    if low >> shift < -MAX_END or -(-high >> shift) > MAX_END:
        shift += 1
    return Interval(low >> shift, -(-high >> shift), exponent + shift)


def _align(x: Interval, y: Interval) -> tuple[int, int, int, int, int]:
    """The ends of x, those of y, and the one unit in which they are.

    It is the finer of both units. If the coarser is more than 2^60 times as large, it is the coarser over 2^60.
    """
    if x.exponent > y.exponent:
        y_low, y_high, x_low, x_high, exponent = _align(y, x)
        return x_low, x_high, y_low, y_high, exponent
    apart = y.exponent - x.exponent
    if apart <= MAX_SHIFT:
        return x.low, x.high, y.low << apart, y.high << apart, x.exponent
    rest = apart - MAX_SHIFT
    low, high = shift_down(x.low, rest), shift_up(x.high, rest)
    return low, high, y.low << MAX_SHIFT, y.high << MAX_SHIFT, y.exponent - MAX_SHIFT


def add(x: Interval, y: Interval) -> Interval:
    """The sums. If one interval is 0 alone, the result is the other one unchanged."""
    if x.is_zero:
        return y
    if y.is_zero:
        return x
    x_low, x_high, y_low, y_high, exponent = _align(x, y)
    return normalize(x_low + y_low, x_high + y_high, exponent)


def subtract(x: Interval, y: Interval) -> Interval:
    """The differences. If one interval is 0 alone, the result is the other one unchanged, or its opposite."""
    if x.is_zero:
        return Interval(-y.high, -y.low, y.exponent)
    if y.is_zero:
        return x
    x_low, x_high, y_low, y_high, exponent = _align(x, y)
    return normalize(x_low - y_high, x_high - y_low, exponent)


def multiply(x: Interval, y: Interval) -> Interval:
    """The products."""
    low, high = products((x.low, x.high), (y.low, y.high))
    return normalize(low, high, x.exponent + y.exponent)


def signed_square(x: Interval) -> Interval:
    """The numbers r |r|, which grow with r."""
    return normalize(x.low * abs(x.low), x.high * abs(x.high), 2 * x.exponent)


def intersection(x: Interval, y: Interval) -> Interval:
    """The numbers of both. Raises ValueError if there are none."""
    x_low, x_high, y_low, y_high, exponent = _align(x, y)
    return normalize(max(x_low, y_low), min(x_high, y_high), exponent)


def hull(x: Interval, y: Interval) -> Interval:
    """The numbers from the least of either to the greatest of either."""
    x_low, x_high, y_low, y_high, exponent = _align(x, y)
    return normalize(min(x_low, y_low), max(x_high, y_high), exponent)


def half_ratio(low: int, high: int, length: int) -> tuple[int, int]:
    """Both ends over half a length, rounded outward."""
    return 2 * low // length, -(-2 * high // length)


def scale(low: int, high: int, exponent: int, length: int) -> Interval:
    """The numbers over half a length: what changes by them over half a granule changes so much in a tick."""
    return normalize(*half_ratio(low, high, length), exponent)


def of_fraction(number: Fraction, exponent: int) -> Interval:
    """A number, rounded down and up to whole numbers of a unit."""
    units = number * Fraction(2) ** -exponent
    return Interval(units.numerator // units.denominator, -(-units.numerator // units.denominator), exponent)


@lru_cache(maxsize=1024)
def of_length(length: Decimal) -> Interval:
    """A length in km."""
    return of_fraction(length.value(), LENGTH_EXPONENT)


@lru_cache(maxsize=1024)
def of_cosine(cosine: Decimal) -> Interval:
    """A cosine."""
    return of_fraction(cosine.value(), RATIO_EXPONENT)

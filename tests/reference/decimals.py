"""Numbers as words: decimals of at most 18 digits, and whole numbers.

    >>> read_decimal(b"0.230542450000000000D+07")
    Decimal(mantissa=230542450000000000, exponent=-11)
    >>> read_decimal(b"1d")
    <NumberFault.NOT_NUMBER: 1>
"""

from __future__ import annotations

import re
from enum import IntEnum
from fractions import Fraction
from functools import lru_cache
from typing import NamedTuple, Optional, Union

MAX_WORD = 40
"""The most bytes of a decimal."""
MAX_DIGITS = 18
"""The most digits of a decimal, from the first that is not 0."""
MAX_EXPONENT = 99
"""The greatest magnitude of an exponent as it is written."""

_FORM = re.compile(rb"([+-]?)(?:([0-9]+)(?:\.([0-9]*))?|\.([0-9]+))(?:[DdEe]([+-]?[0-9]+))?")
_WHOLE = re.compile(rb"[0-9]{1,9}")


class NumberFault(IntEnum):
    """Why a word is no decimal: the first of these that applies."""

    NOT_NUMBER = 1
    TOO_MANY_DIGITS = 2
    EXPONENT_RANGE = 3


class Decimal(NamedTuple):
    """The number mantissa * 10^exponent; 0 has the exponent 0."""

    mantissa: int
    exponent: int

    def value(self) -> Fraction:
        """The exact number."""
        numerator, denominator = self.ratio()
        return Fraction(numerator, denominator)

    def ratio(self) -> tuple[int, int]:
        """A whole number and a power of 10, of which the number is the ratio."""
        power: int = 10 ** abs(self.exponent)
        return (self.mantissa * power, 1) if self.exponent >= 0 else (self.mantissa, power)

    def has_magnitude(self, limit: int) -> bool:
        """Whether the number is at least `limit` in magnitude."""
        numerator, denominator = self.ratio()
        return abs(numerator) >= limit * denominator


@lru_cache(maxsize=1 << 16)
def read_decimal(word: bytes) -> Union[Decimal, NumberFault]:
    """The number that a word writes, or its first fault.

    The form is an optional sign; digits with at most one point before, among or after them, at least one digit in all;
    and perhaps one of `D d E e`, an optional sign and at least one digit.
    """
    form = _FORM.fullmatch(word) if len(word) <= MAX_WORD else None
    if form is None:
        return NumberFault.NOT_NUMBER
    sign, before, after, after_only, exponent_word = form.groups()
    fraction: bytes = after or after_only or b""
    digits = ((before or b"") + fraction).lstrip(b"0")
    if len(digits) > MAX_DIGITS:
        return NumberFault.TOO_MANY_DIGITS
    written = int(exponent_word or b"0")
    if abs(written) > MAX_EXPONENT:
        return NumberFault.EXPONENT_RANGE
    if not digits:
        return Decimal(0, 0)
    magnitude = int(digits)
    return Decimal(-magnitude if sign == b"-" else magnitude, written - len(fraction))


def read_whole(word: bytes) -> Optional[int]:
    """The number of a word of 1 to 9 digits, or None."""
    return int(word) if _WHOLE.fullmatch(word) else None

"""Numbers as the command takes them: decimals of at most 18 digits."""

from __future__ import annotations

import decimal
import math
import numbers
from decimal import Decimal
from fractions import Fraction
from typing import Any, Union

from ..public import public

Number = Union[int, float, str, Decimal, Any]
PLACES = 18
# The angles of a whole fraction of a turn whose cosine is a fraction: no others have one.
EXACT = {0: "1", 60: "0.5", 90: "0", 120: "-0.5", 180: "-1"}


def decimal_text(value: Number, unit: str = "km") -> str:
    """A number as a decimal: an int or a text as it is, a float by the shortest decimal that is it, an astropy quantity
    by its value in the unit."""
    if isinstance(value, str):
        return value
    if hasattr(value, "to_value"):
        value = value.to_value(unit)
    if isinstance(value, (bool, Fraction)) or not isinstance(value, (numbers.Real, Decimal)):
        raise TypeError(f"no number: {value!r}; write an int, a decimal as a text, a Decimal, a float or a quantity")
    if isinstance(value, numbers.Integral):
        return str(int(value))
    if not math.isfinite(value):
        raise ValueError(f"no finite number: {value!r}")
    return str(value) if isinstance(value, Decimal) else repr(float(value))


def _pi() -> Decimal:
    """pi, to the digits of the context, by Machin's formula: 16 arctan(1/5) - 4 arctan(1/239)."""

    def arctan_of_inverse(number: int) -> Decimal:
        power = total = Decimal(1) / number
        term, count = power, 1
        while abs(term) > Decimal(10) ** -decimal.getcontext().prec:
            power /= -number * number
            count += 2
            term = power / count
            total += term
        return total

    return 16 * arctan_of_inverse(5) - 4 * arctan_of_inverse(239)


def _cosine(angle: Decimal) -> Decimal:
    """The cosine of an angle in radians, to about the digits of the context, by its series."""
    term = total = Decimal(1)
    count = 0
    while abs(term) > Decimal(10) ** -decimal.getcontext().prec:
        count += 2
        term *= -angle * angle / (count * (count - 1))
        total += term
    return total


@public
def cosine_of_degrees(degrees: Number, *, up: bool = False) -> str:
    """The cosine of an angle from 0 to 180 degrees, as a decimal of at most 18 places, rounded down: the greatest one
    that is not above it. So the angle whose cosine it is, is the given one or a greater one, by about 10^-18 radians
    over the sine of the angle at most: that is below 10^-10 arc seconds from a quarter of a degree to 179.75 degrees,
    and below 10^-7 from one arc second on. With `up` it is the least decimal that is not below it, and its angle the
    given one or a smaller one. Both are the cosine itself at 0, 60, 90, 120 and 180 degrees, and at no others. A float
    is taken as the shortest decimal that is it.

    >>> import finder
    >>> finder.cosine_of_degrees(30), finder.cosine_of_degrees(60)
    ('0.866025403784438646', '0.5')
    """
    try:
        angle = degrees if isinstance(degrees, Fraction) else Fraction(decimal_text(degrees, "deg"))
    except (ValueError, ZeroDivisionError):
        raise ValueError(f"no angle: {degrees!r}") from None
    if not 0 <= angle <= 180:
        raise ValueError(f"an angle is from 0 to 180 degrees: {degrees!r}")
    if angle in EXACT:
        return EXACT[int(angle)]
    # (it is no decimal, so it lies between this one and the next)
    units = _floor_of_cosine(angle) + up
    whole, places = divmod(abs(units), 10**PLACES)
    return f"{'-' if units < 0 else ''}{whole}.{places:0{PLACES}}".rstrip("0").rstrip(".")


def _floor_of_cosine(angle: Fraction) -> int:
    """The cosine of degrees, in units of the last place and rounded down."""
    digits = 60
    while True:
        with decimal.localcontext(decimal.Context(prec=digits)):
            radians = _pi() * angle.numerator / (180 * angle.denominator)
            scaled = _cosine(radians).scaleb(PLACES)
            # (the last ten digits are not trusted)
            slack = Decimal(10) ** (PLACES + 10 - digits)
            low, high = ((scaled + way).to_integral_value(decimal.ROUND_FLOOR) for way in (-slack, slack))
        if low == high:
            return int(low)
        digits *= 2

"""Formulas over coordinates: what they are made of, and how large they may be."""

from __future__ import annotations

from dataclasses import dataclass
from typing import Literal, Optional, Union

from .decimals import Decimal

MAX_NODES = 128
MAX_DEGREE = 16
MAX_LENGTH = 2**36
"""Lengths are below this number of km in magnitude."""


Quantity = Literal["position", "velocity"]
"""What a coordinate is of: a position in km, or a velocity in km per tick."""


@dataclass(frozen=True, eq=False)
class Coordinate:
    """A coordinate of target 0 or 1 along axis 0, 1 or 2."""

    quantity: Quantity
    target: int
    axis: int


@dataclass(frozen=True, eq=False)
class Length:
    """A constant in km."""

    value: Decimal


@dataclass(frozen=True, eq=False)
class Cosine:
    """A constant from -1 to 1."""

    value: Decimal


@dataclass(frozen=True, eq=False)
class Sum:
    """left + right."""

    left: Expression
    right: Expression


@dataclass(frozen=True, eq=False)
class Difference:
    """left - right."""

    left: Expression
    right: Expression


@dataclass(frozen=True, eq=False)
class Product:
    """left right."""

    left: Expression
    right: Expression


@dataclass(frozen=True, eq=False)
class SignedSquare:
    """x |x| of the operand x."""

    operand: Expression


Expression = Union[Coordinate, Length, Cosine, Sum, Difference, Product, SignedSquare]


def parts_of(expression: Expression) -> tuple[Expression, ...]:
    """What an expression is made of, in order."""
    if isinstance(expression, (Sum, Difference, Product)):
        return expression.left, expression.right
    return (expression.operand,) if isinstance(expression, SignedSquare) else ()


def node_count(expression: Expression) -> int:
    """How many nodes an expression has."""
    return 1 + sum(node_count(part) for part in parts_of(expression))


def degree(expression: Expression) -> int:
    """1 of a coordinate or constant; a product adds, a signed square doubles, and a sum takes the greater."""
    degrees = [degree(part) for part in parts_of(expression)]
    if isinstance(expression, Product):
        return sum(degrees)
    if isinstance(expression, SignedSquare):
        return 2 * degrees[0]
    return max(degrees, default=1)


def has_bad_constant(expression: Expression) -> bool:
    """Whether a length is 2^36 km or more in magnitude, or a cosine past 1."""
    if isinstance(expression, Length):
        return expression.value.has_magnitude(MAX_LENGTH)
    if isinstance(expression, Cosine):
        return abs(expression.value.value()) > 1
    return any(has_bad_constant(part) for part in parts_of(expression))


def passed_limit(expression: Expression) -> Optional[str]:
    """The first limit of formulas that an expression passes, `nodes`, `degree` or `constant`, or None."""
    if node_count(expression) > MAX_NODES:
        return "nodes"
    if degree(expression) > MAX_DEGREE:
        return "degree"
    return "constant" if has_bad_constant(expression) else None

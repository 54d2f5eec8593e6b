"""The kinds of events: of each its function, its conditions, and what can be wrong with a query.

Let a and b be the places of target and second body seen from the observer in the frame, A and B their squares, D their
dot product, and a', b' and D' the rates of change.
"""

from __future__ import annotations

from typing import NamedTuple, Optional

from .bodies import needed_columns
from .decimals import Decimal
from .ephemeris import Ephemeris
from .expressions import MAX_LENGTH, Coordinate, Cosine, Difference, Expression, Length, Product, Quantity
from .expressions import SignedSquare, Sum
from .faults import EventError, Fault

SHADOWS = ("any", "full", "annular")
KINDS = ("coord", "radius", "apsis", "conj", "oppo", "station", "sep", "sepext", *SHADOWS)
WITH_SECOND = ("conj", "oppo", "sep", "sepext", *SHADOWS)
"""The kinds of two bodies."""
WITH_REFERENCE = ("coord", "radius", "sep")
"""The kinds of one number: a coordinate or a distance in km, or the cosine of an angle."""
NOTHING = Decimal(0, 0)


class Query(NamedTuple):
    """What is searched for. The values are a reference, or the radii of target and second body, or nothing."""

    kind: str
    target: str
    second: Optional[str] = None
    observer: str = "ssb"
    frame: str = "eq"
    axis: int = 0
    value1: Decimal = NOTHING
    value2: Decimal = NOTHING
    direction: str = "any"

    @property
    def targets(self) -> tuple[str, str]:
        """Both targets; if there is no second body, both are one."""
        return self.target, self.second or self.target


class Condition(NamedTuple):
    """A function that has to be at least 0 at the tick of an event, or below 0."""

    function: Expression
    is_at_least: bool


class Event(NamedTuple):
    """The ticks at which a function turns from below 0 to at least 0, or back, and the conditions hold."""

    function: Expression
    conditions: tuple[Condition, ...]


Vector = tuple[Expression, Expression, Expression]


def vector(quantity: Quantity, target: int) -> Vector:
    """The three coordinates of a position or a velocity."""
    return Coordinate(quantity, target, 0), Coordinate(quantity, target, 1), Coordinate(quantity, target, 2)


def dot(u: Vector, v: Vector) -> Expression:
    """(u0 v0 + u1 v1) + u2 v2."""
    return Sum(Sum(Product(u[0], v[0]), Product(u[1], v[1])), Product(u[2], v[2]))


def cross(u: Vector, v: Vector) -> Expression:
    """u0 v1 - u1 v0."""
    return Difference(Product(u[0], v[1]), Product(u[1], v[0]))


def square(x: Expression) -> Expression:
    """x x."""
    return Product(x, x)


A, B = vector("position", 0), vector("position", 1)
A_RATE, B_RATE = vector("velocity", 0), vector("velocity", 1)
AA, BB, AB = dot(A, A), dot(B, B), dot(A, B)


def _longitudes(kind: str) -> Event:
    """a0 b1 - a1 b0, with a0 b0 + a1 b1 at least 0 for a conjunction and below 0 for an opposition."""
    alignment = Sum(Product(A[0], B[0]), Product(A[1], B[1]))
    return Event(cross(A, B), (Condition(alignment, kind == "conj"),))


def _separation(cosine: Expression) -> Expression:
    """D|D| - C|C| A B, C the cosine."""
    return Difference(SignedSquare(AB), Product(SignedSquare(cosine), Product(AA, BB)))


def _separation_rate() -> Expression:
    """D'(A B) - D((a.a')B + A(b.b'))."""
    rate = Sum(dot(A_RATE, B), dot(A, B_RATE))
    squares_rate = Sum(Product(dot(A, A_RATE), BB), Product(AA, dot(B, B_RATE)))
    return Difference(Product(rate, Product(AA, BB)), Product(AB, squares_rate))


def _occultation(kind: str, radius1: Expression, radius2: Expression) -> Event:
    """(D + r s)|D + r s| - (A - r^2)(B - s^2), r and s the radii; D - r s if one disc lies within the other.

    B - A has to be at least 0, and r^2 B - s^2 A at least 0 (`full`) or below 0 (`annular`).
    """
    both = Product(radius1, radius2)
    inner: Expression = Sum(AB, both) if kind == "any" else Difference(AB, both)
    tangents = Product(Difference(AA, square(radius1)), Difference(BB, square(radius2)))
    conditions = [Condition(Difference(BB, AA), True)]
    if kind != "any":
        discs = Difference(Product(square(radius1), BB), Product(square(radius2), AA))
        conditions.append(Condition(discs, kind == "full"))
    return Event(Difference(SignedSquare(inner), tangents), tuple(conditions))


def _function_of_one(query: Query) -> Expression:
    """The function of a kind without a second body or with a separation, which have no conditions."""
    if query.kind == "coord":
        return Difference(A[query.axis], Length(query.value1))
    if query.kind == "radius":
        return Difference(AA, square(Length(query.value1)))
    if query.kind == "apsis":
        return dot(A, A_RATE)
    if query.kind == "station":
        return cross(A, A_RATE)
    return _separation(Cosine(query.value1)) if query.kind == "sep" else _separation_rate()


def _meaning(query: Query) -> Event:
    if query.kind in ("conj", "oppo"):
        return _longitudes(query.kind)
    if query.kind in SHADOWS:
        return _occultation(query.kind, Length(query.value1), Length(query.value2))
    return Event(_function_of_one(query), ())


def _is_out_of_range(query: Query) -> bool:
    """Whether a number that the kind uses is one that it cannot be."""
    if query.kind == "sep":
        return abs(query.value1.value()) > 1
    if query.kind not in ("coord", "radius", *SHADOWS):
        return False
    lengths = [query.value1, query.value2] if query.kind in SHADOWS else [query.value1]
    may_be_negative = query.kind == "coord"
    return any(length.has_magnitude(MAX_LENGTH) or (length.mantissa < 0 and not may_be_negative) for length in lengths)


def event_of(ephemeris: Ephemeris, query: Query) -> Event:
    """The event that a query means.

    Raises `EventError` with the first of: a needed column absent; two of target, second body and observer one; a number
    out of range.
    """
    bodies = [query.target, query.observer] + ([query.second] if query.second else [])
    if not all(ephemeris.has_column(column) for body in bodies for column in needed_columns(body)):
        raise EventError(Fault.BodyAbsent)
    if len(set(bodies)) < len(bodies):
        raise EventError(Fault.SameBody)
    if _is_out_of_range(query):
        raise EventError(Fault.ReferenceRange)
    return _meaning(query)

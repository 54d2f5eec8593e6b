"""Bodies: the columns that they are read in, and enclosures of their coordinates seen from an observer in a frame."""

from __future__ import annotations

from functools import lru_cache, partial
from typing import Callable, Optional

from . import enclosures, intervals
from .chebyshev import motion_of
from .decimals import Decimal
from .enclosures import Enclosure, Span
from .ephemeris import Ephemeris, Granule
from .expressions import Coordinate, Cosine, Difference, Expression, Length, Product, Quantity, SignedSquare, Sum

EMB, MOON = 3, 10
"""The columns of the Earth-Moon barycentre, and of the Moon seen from the Earth."""
OWN_COLUMNS = {
    "mercury": 1,
    "venus": 2,
    "emb": EMB,
    "mars": 4,
    "jupiter": 5,
    "saturn": 6,
    "uranus": 7,
    "neptune": 8,
    "pluto": 9,
    "sun": 11,
}
"""The bodies that are read in a column of their own."""
PAIR = ("earth", "moon")
"""The bodies that are read in the columns of the barycentre and of the Moon."""
BODIES = (*OWN_COLUMNS, *PAIR)
ORIGIN = "ssb"
"""The barycentre of the solar system, which is read in no column."""
REMEMBERED = 32
"""Over how many spans it is remembered what is seen: those of a node, its ends and its middle among them."""
REMEMBERED_OF_COLUMNS = 1 << 15
"""How many coordinates of columns are remembered over a span, for other searches of the same file too."""

ECLIPTIC_COSINE = Decimal(917_482_062_069_182, -15)
ECLIPTIC_SINE = Decimal(397_777_155_931_914, -15)
"""Of the obliquity of the ecliptic of J2000, 84381.448 arc seconds, with 15 places."""


def needed_columns(body: str) -> list[int]:
    """The columns that a body needs."""
    if body in PAIR:
        return [EMB, MOON]
    return [] if body == ORIGIN else [OWN_COLUMNS[body]]


def columns_in_use(target: str, observer: str) -> list[int]:
    """The columns in use when a body is seen from another: of Earth and Moon the Moon's alone, else those of both."""
    if {target, observer} == set(PAIR):
        return [MOON]
    return needed_columns(target) + needed_columns(observer)


@lru_cache(maxsize=REMEMBERED_OF_COLUMNS)
def coordinate_of(granule: Granule, quantity: Quantity, axis: int, span: Span) -> Enclosure:
    """A coordinate of a granule over a span within it, along the axes of the file."""
    motion = motion_of(granule, span)
    if quantity == "position":
        plain, step = motion.position(axis), motion.position_step(axis)
    else:
        plain, step = motion.velocity(axis), motion.velocity_step(axis)
    middle = Span(span.middle, span.middle)
    mid = plain if span.is_single else coordinate_of(granule, quantity, axis, middle).range
    return enclosures.enclosed(mid, plain, step, span)


class View:
    """Two targets, which may be one body, seen from an observer in a frame, `eq` or `ecl`."""

    def __init__(self, ephemeris: Ephemeris, targets: tuple[str, str], observer: str, frame: str) -> None:
        self.ephemeris, self.targets, self.observer, self.frame = ephemeris, targets, observer, frame
        self.columns = sorted({column for target in targets for column in columns_in_use(target, observer)})
        share = 1 / (1 + ephemeris.header.emrat.value())
        self.moon_share = intervals.of_fraction(share, intervals.RATIO_EXPONENT)
        self.over: Callable[[Span], Sight] = lru_cache(maxsize=REMEMBERED)(partial(Sight, self))
        """What is seen over a span; the last ones are remembered."""

    def border(self, span: Span) -> Optional[int]:
        """The border of the columns in use in the span, its first tick aside, that is nearest to its middle."""
        return self.ephemeris.nearest_border(self.columns, span.first, span.last)


class Sight:
    """What is seen of a view over a span in which no granule of the columns in use ends, its last tick aside."""

    def __init__(self, view: View, span: Span) -> None:
        self.view, self.span = view, span
        self._known: dict[Expression, Enclosure] = {}
        self._bodies: dict[tuple[str, Quantity, int], Enclosure] = {}

    def enclosure(self, expression: Expression) -> Enclosure:
        """The enclosure of an expression, by the rule of each of its operations."""
        if expression not in self._known:
            self._known[expression] = self._made(expression)
        return self._known[expression]

    def _made(self, expression: Expression) -> Enclosure:
        if isinstance(expression, Coordinate):
            return self._coordinate(expression)
        if isinstance(expression, Length):
            return enclosures.constant(intervals.of_length(expression.value), self.span)
        if isinstance(expression, Cosine):
            return enclosures.constant(intervals.of_cosine(expression.value), self.span)
        if isinstance(expression, SignedSquare):
            return enclosures.signed_square(self.enclosure(expression.operand), self.span)
        rules = {Sum: enclosures.add, Difference: enclosures.subtract, Product: enclosures.multiply}
        rule = rules[type(expression)]
        return rule(self.enclosure(expression.left), self.enclosure(expression.right), self.span)

    def _coordinate(self, coordinate: Coordinate) -> Enclosure:
        """A coordinate in the frame. The ecliptic one turns y and z: c y + s z, and c z - s y."""
        body, quantity, axis = self.view.targets[coordinate.target], coordinate.quantity, coordinate.axis
        if self.view.frame == "eq" or axis == 0:
            return self._seen(body, quantity, axis)
        y, z = self._seen(body, quantity, 1), self._seen(body, quantity, 2)
        cosine = enclosures.constant(intervals.of_cosine(ECLIPTIC_COSINE), self.span)
        sine = enclosures.constant(intervals.of_cosine(ECLIPTIC_SINE), self.span)
        if axis == 1:
            return enclosures.add(self._times(cosine, y), self._times(sine, z), self.span)
        return enclosures.subtract(self._times(cosine, z), self._times(sine, y), self.span)

    def _times(self, one: Enclosure, other: Enclosure) -> Enclosure:
        return enclosures.multiply(one, other, self.span)

    def _seen(self, body: str, quantity: Quantity, axis: int) -> Enclosure:
        """A coordinate of a body less that of the observer, along the axes of the file."""
        observer = self.view.observer
        if (body, observer) == ("moon", "earth"):
            return self._column(MOON, quantity, axis)
        if (body, observer) == ("earth", "moon"):
            nothing = enclosures.constant(intervals.ZERO, self.span)
            return enclosures.subtract(nothing, self._column(MOON, quantity, axis), self.span)
        own = self._barycentric(body, quantity, axis)
        if observer == ORIGIN:
            return own
        return enclosures.subtract(own, self._barycentric(observer, quantity, axis), self.span)

    def _barycentric(self, body: str, quantity: Quantity, axis: int) -> Enclosure:
        """What `_computed` returns, which is computed once."""
        key = body, quantity, axis
        if key not in self._bodies:
            self._bodies[key] = self._computed(body, quantity, axis)
        return self._bodies[key]

    def _computed(self, body: str, quantity: Quantity, axis: int) -> Enclosure:
        """A coordinate from the barycentre of the solar system.

        The Earth is the barycentre of Earth and Moon less the Moon's share of the Moon's column. The Moon is the Earth
        plus that column.
        """
        if body not in PAIR:
            return self._column(OWN_COLUMNS[body], quantity, axis)
        moon = self._column(MOON, quantity, axis)
        share = self._times(enclosures.constant(self.view.moon_share, self.span), moon)
        earth = enclosures.subtract(self._column(EMB, quantity, axis), share, self.span)
        return earth if body == "earth" else enclosures.add(earth, moon, self.span)

    def _column(self, number: int, quantity: Quantity, axis: int) -> Enclosure:
        """A coordinate of a column, along the axes of the file, by the granule of the first tick."""
        return coordinate_of(self.view.ephemeris.granule(number, self.span.first), quantity, axis, self.span)

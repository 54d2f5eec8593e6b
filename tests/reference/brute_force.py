"""The definitions by brute force: exact values at each tick, as fractions, and the events among them.

Nothing of the search is used here: no interval, no enclosure, no expression and no list of columns. So a search can be
compared with it. Each tick is evaluated, so it is for spans of some thousands.
"""

from __future__ import annotations

from fractions import Fraction
from typing import NamedTuple, Sequence

from .ephemeris import Ephemeris
from .kinds import Query
from .searches import Leaf, Window
from .verdicts import Verdict

COSINE = Fraction("0.917482062069182")
SINE = Fraction("0.397777155931914")
"""Of the obliquity of the ecliptic, with 15 places."""
PLACES = "mercury venus emb mars jupiter saturn uranus neptune pluto moon sun".split()
"""The bodies of columns 1 to 11."""

Vector = tuple[Fraction, Fraction, Fraction]


class Turn(NamedTuple):
    """An event: the first tick of the new side, and whether it is a rise or a fall."""

    time: int
    verdict: Verdict


class State(NamedTuple):
    """A position in km, and a velocity in km per tick."""

    position: Vector
    velocity: Vector


class Values(NamedTuple):
    """A function at a tick, and its conditions: each a number, and whether it has to be at least 0 or below 0."""

    function: Fraction
    conditions: Sequence[tuple[Fraction, bool]] = ()

    def hold(self) -> bool:
        """Whether every condition holds."""
        return all((number >= 0) == at_least for number, at_least in self.conditions)


def polynomial(coefficients: Sequence[Fraction], x: Fraction) -> tuple[Fraction, Fraction]:
    """The sum of c_k T_k(x), and its derivative by x, by the recurrence of T and its derivative."""
    value = slope = Fraction(0)
    t, t_slope = (Fraction(1), x), (Fraction(0), Fraction(1))
    for coefficient in coefficients:
        value += coefficient * t[0]
        slope += coefficient * t_slope[0]
        t, t_slope = (t[1], 2 * x * t[1] - t[0]), (t_slope[1], 2 * t[1] + 2 * x * t_slope[1] - t_slope[0])
    return value, slope


def dot(u: Vector, v: Vector) -> Fraction:
    """u0 v0 + u1 v1 + u2 v2."""
    return u[0] * v[0] + u[1] * v[1] + u[2] * v[2]


def combined(u: Vector, factor: Fraction, v: Vector) -> Vector:
    """u + factor v."""
    return u[0] + factor * v[0], u[1] + factor * v[1], u[2] + factor * v[2]


class ExactEvents:
    """The function, the conditions and the events of a query over an ephemeris, exactly."""

    def __init__(self, ephemeris: Ephemeris, query: Query) -> None:
        self.ephemeris, self.query = ephemeris, query
        self.share = 1 / (1 + ephemeris.header.emrat.value())
        self._signs: dict[int, tuple[bool, bool]] = {}

    def column(self, number: int, time: int) -> State:
        """A column at a tick, by the block and the granule that begin last, at the tick or before it."""
        column = self.ephemeris.header.columns[number - 1]
        block_length = self.ephemeris.header.block_seconds * self.ephemeris.tick
        passed = time - self.ephemeris.start
        block = min(passed // block_length, len(self.ephemeris.blocks) - 1)
        length = block_length // column.granules
        granule = min((passed - block * block_length) // length, column.granules - 1)
        x = Fraction(2 * (passed - block * block_length - granule * length), length) - 1
        place = column.start - 1 + 3 * column.coefficients * granule
        values = []
        for axis in range(3):
            start = place + axis * column.coefficients
            words = self.ephemeris.blocks[block][start : start + column.coefficients]
            values.append(polynomial([word.value() for word in words], x))
        (x0, v0), (x1, v1), (x2, v2) = values
        per_tick = Fraction(2, length)
        return State((x0, x1, x2), (v0 * per_tick, v1 * per_tick, v2 * per_tick))

    def barycentric(self, body: str, time: int) -> State:
        """A body from the barycentre of the solar system, along the axes of the file."""
        if body == "ssb":
            nothing = (Fraction(0), Fraction(0), Fraction(0))
            return State(nothing, nothing)
        if body not in ("earth", "moon"):
            return self.column(1 + PLACES.index(body), time)
        centre, moon = self.column(3, time), self.column(10, time)
        factor = -self.share if body == "earth" else 1 - self.share
        return State(*(combined(u, factor, v) for u, v in zip(centre, moon)))

    def state(self, body: str, time: int) -> State:
        """A body from the observer, in the frame."""
        own, observer = self.barycentric(body, time), self.barycentric(self.query.observer, time)
        seen = [combined(u, Fraction(-1), v) for u, v in zip(own, observer)]
        if self.query.frame == "ecl":
            seen = [(x, COSINE * y + SINE * z, COSINE * z - SINE * y) for x, y, z in seen]
        return State(*seen)

    def values(self, time: int) -> Values:
        """The function of the kind at a tick, and its conditions."""
        a, a_rate = self.state(self.query.target, time)
        value = self.query.value1.value()
        if self.query.kind == "coord":
            return Values(a[self.query.axis] - value)
        if self.query.kind == "radius":
            return Values(dot(a, a) - value**2)
        if self.query.kind == "apsis":
            return Values(dot(a, a_rate))
        if self.query.kind == "station":
            return Values(a[0] * a_rate[1] - a[1] * a_rate[0])
        return self._values_of_two(State(a, a_rate), self.state(self.query.targets[1], time))

    def _values_of_two(self, target: State, second: State) -> Values:
        (a, a_rate), (b, b_rate) = target, second
        kind, value = self.query.kind, self.query.value1.value()
        if kind in ("conj", "oppo"):
            return Values(a[0] * b[1] - a[1] * b[0], [(a[0] * b[0] + a[1] * b[1], kind == "conj")])
        aa, bb, ab = dot(a, a), dot(b, b), dot(a, b)
        if kind == "sep":
            return Values(ab * abs(ab) - value * abs(value) * aa * bb)
        if kind == "sepext":
            rate = dot(a_rate, b) + dot(a, b_rate)
            return Values(rate * aa * bb - ab * (dot(a, a_rate) * bb + aa * dot(b, b_rate)))
        other = self.query.value2.value()
        inner = ab + (value * other if kind == "any" else -value * other)
        function = inner * abs(inner) - (aa - value**2) * (bb - other**2)
        conditions = [(bb - aa, True)]
        if kind != "any":
            conditions.append((value**2 * bb - other**2 * aa, kind == "full"))
        return Values(function, conditions)

    def is_at_least_zero(self, time: int) -> bool:
        """Whether the function is at least 0 at a tick."""
        return self._signs_at(time)[0]

    def _signs_at(self, time: int) -> tuple[bool, bool]:
        if time not in self._signs:
            values = self.values(time)
            self._signs[time] = values.function >= 0, values.hold()
        return self._signs[time]

    def events(self, first: int, last: int) -> list[Turn]:
        """The events at the ticks after the first and up to the last."""
        turns = []
        for time in range(first + 1, last + 1):
            before, (now, conditions_hold) = self.is_at_least_zero(time - 1), self._signs_at(time)
            verdict = Verdict.RISE if now else Verdict.FALL
            is_wanted = self.query.direction in ("any", verdict.name.lower())
            if before != now and is_wanted and conditions_hold:
                turns.append(Turn(time, verdict))
        return turns


def window_faults(first: int, last: int, windows: Sequence[Window], events: Sequence[Turn]) -> list[str]:
    """What windows of a span promise and do not keep.

    They lie in the span, in order; each certain one holds exactly one event, in its direction; and no event is outside.
    """
    faults = []
    end = first
    for window in windows:
        if not end < window.first <= window.last <= last:
            faults.append(f"{window} is out of order or out of the span")
        end = window.last
        inside = [event.verdict for event in events if window.first <= event.time <= window.last]
        if window.verdict is not Verdict.UNDECIDED and inside != [window.verdict]:
            faults.append(f"{window} holds {inside}")
    for event in events:
        if not any(window.first <= event.time <= window.last for window in windows):
            faults.append(f"{event} is in no window")
    return faults


def leaf_faults(
    first: int, last: int, leaves: Sequence[Leaf], events: Sequence[Turn], width: int, depth: int
) -> list[str]:
    """What leaves of a span promise and do not keep.

    They follow one another from the first to the last tick. A clear one holds no event, and one with a turn exactly
    that. An undecided one is no wider than the width, or as deep as the depth.
    """
    faults = []
    end = first
    for node, verdict in leaves:
        if node.first != end:
            faults.append(f"{node} does not begin at {end}")
        end = node.last
        inside = [event.verdict for event in events if node.first < event.time <= node.last]
        if verdict is Verdict.UNDECIDED:
            if node.width > width and node.depth != depth:
                faults.append(f"{node} is undecided above the limits")
        elif inside != ([] if verdict is Verdict.CLEAR else [verdict]):
            faults.append(f"{node} is marked {verdict.value} and holds {inside}")
    return faults if end == last else [*faults, f"the leaves end at {end}"]

"""What is known of a function over the ticks from a first to a last, and one rule for each operation on functions."""

from __future__ import annotations

from typing import NamedTuple

from . import intervals
from .intervals import ZERO, Interval


class Span(NamedTuple):
    """The ticks from `first` to `last`, both of them too."""

    first: int
    last: int

    @property
    def middle(self) -> int:
        """The tick in the middle, the earlier of two."""
        return (self.first + self.last) // 2

    @property
    def is_single(self) -> bool:
        """Whether it is one tick."""
        return self.first == self.last


class Enclosure(NamedTuple):
    """Three intervals: of the value in the middle, of the values at all ticks, and of the changes between neighbours.

    A step is the value at the next tick less that at a tick. Over a single tick there is none, and the step is 0.
    """

    mid: Interval
    range: Interval
    step: Interval


def enclosed(mid: Interval, plain: Interval, step: Interval, span: Span) -> Enclosure:
    """The enclosure by a plain range and the steps: the range is what the plain and the centred range both hold.

    The centred range is mid + step * (the distances from the middle). Over a single tick the range is the mid.
    """
    if span.is_single:
        return Enclosure(mid, mid, ZERO)
    distances = intervals.normalize(span.first - span.middle, span.last - span.middle, 0)
    centred = intervals.add(mid, intervals.multiply(step, distances))
    return Enclosure(mid, intervals.intersection(plain, centred), step)


def constant(value: Interval, span: Span) -> Enclosure:
    """A function that does not change."""
    return enclosed(value, value, ZERO, span)


def add(f: Enclosure, g: Enclosure, span: Span) -> Enclosure:
    """f + g."""
    mid, step = intervals.add(f.mid, g.mid), intervals.add(f.step, g.step)
    return enclosed(mid, intervals.add(f.range, g.range), step, span)


def subtract(f: Enclosure, g: Enclosure, span: Span) -> Enclosure:
    """f - g."""
    mid, step = intervals.subtract(f.mid, g.mid), intervals.subtract(f.step, g.step)
    return enclosed(mid, intervals.subtract(f.range, g.range), step, span)


def multiply(f: Enclosure, g: Enclosure, span: Span) -> Enclosure:
    """f g. A product changes by f times the change of g, and the next g times the change of f."""
    mid = intervals.multiply(f.mid, g.mid)
    step = intervals.add(intervals.multiply(f.range, g.step), intervals.multiply(g.range, f.step))
    return enclosed(mid, intervals.multiply(f.range, g.range), step, span)


def signed_square(f: Enclosure, span: Span) -> Enclosure:
    """f |f|. Between two values it changes by their difference times a number from 0 to twice the greater magnitude."""
    mid, plain = intervals.signed_square(f.mid), intervals.signed_square(f.range)
    low, high, exponent = f.range
    slope = intervals.normalize(0, 2 * max(abs(low), abs(high)), exponent)
    return enclosed(mid, plain, intervals.multiply(slope, f.step), span)

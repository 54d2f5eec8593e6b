"""Discs that cover one another: their contacts as moments, and how much is covered, in doubles."""

from __future__ import annotations

import math
from collections.abc import Sequence
from dataclasses import dataclass
from typing import Any, Optional

import numpy as np

from ..reports.windows import Window, Windows
from ..seen.vectors import Floats, angle, disc
from .moments import Moment, moments_of
from .searching import MILLISECOND, SECOND, Searches, Span, TextOfSky

# Passages begin and end so many seconds apart at most: one that is in progress at an end of the span has one end alone.
LONGEST = 12 * 3_600


@dataclass(frozen=True)
class Pair:
    """Two bodies whose discs pass: the nearer `front` one and the other, and their radii in km."""

    front: str
    back: str
    radii: tuple[float, float]
    observer: str = "earth"

    @property
    def words(self) -> tuple[str, str]:
        """The bodies, as a search takes them."""
        return self.front, self.back


@dataclass(frozen=True)
class Passage:
    """The contacts of one passage: of the outer edges, of the inner ones, with the search `full` or `annular` that has
    them, and the least angle between the centres."""

    outer: tuple[Moment, ...]
    inner: tuple[Moment, ...]
    inner_kind: str
    least: Optional[Moment]

    @property
    def span(self) -> tuple[float, float]:
        """The first and the last contact in seconds since J2000 (TDB)."""
        return self.outer[0].seconds, self.outer[-1].seconds


def radius_text(radius: float) -> str:
    """A radius in km for a request, to ten digits: a sum of radii has float dirt in its last ones.

    >>> radius_text(6442.4 + 1737.4)
    '8179.8'
    """
    return f"{radius:.10g}"


def passages(searches: Searches, pair: Pair, span: Span, precise: bool, about: str) -> list[Passage]:
    """The passages of a pair in a span, in order. `about` is the body whose altitude and azimuth the contacts have."""
    radii = tuple(map(radius_text, pair.radii))
    found = searches.windows("any", *pair.words, span, SECOND, radii=radii, observer=pair.observer)
    return [_passage(searches, pair, group, span, precise, about) for group in _grouped(found)]


def _grouped(found: Windows) -> list[list[Window]]:
    """The windows of each passage: a rise with the fall after it, and what is undecided with what is near it."""
    made: list[list[Window]] = []
    for window in found:
        starts = not made or window.first - made[-1][-1].last > LONGEST or made[-1][-1].turn == "fall"
        if starts:
            made.append([window])
        else:
            made[-1].append(window)
    return made


def _passage(
    searches: Searches, pair: Pair, group: Sequence[Window], span: Span, precise: bool, about: str
) -> Passage:
    """The contacts of one passage, of searches about it."""
    start = max(span[0], group[0].first - 2) if group[0].turn != "fall" else max(span[0], group[0].first - LONGEST)
    end = min(span[1], group[-1].last + 2) if group[-1].turn != "rise" else min(span[1], group[-1].last + LONGEST)
    near = start, end

    def contacts(kind: str, named: tuple[str, str], **more: str) -> list[Moment]:
        words: dict[str, Any] = {"observer": pair.observer, **more}
        if kind != "sepext":
            words["radii"] = tuple(map(radius_text, pair.radii))
        windows = [
            searches.windows(kind, *pair.words, near, tick, **words)
            for tick in ((SECOND, MILLISECOND) if precise else (SECOND,))
        ]
        names = dict(zip(("rise", "fall"), named))
        made = moments_of(about, windows[0], windows[1] if precise else None, lambda turn: names.get(turn or "", kind))
        return searches.placed(about, made)

    outer = contacts("any", ("begins", "ends"))
    least = contacts("sepext", ("", "greatest"), dir="fall")
    for kind in ("full", "annular") if pair.radii[1] else ():
        inner = contacts(kind, ("begins within", "ends within"))
        if inner:
            return Passage(tuple(outer), tuple(inner), kind, least[0] if least else None)
    return Passage(tuple(outer), (), "", least[0] if least else None)


@dataclass(frozen=True)
class Cover:
    """How two discs lie at a time, in doubles: their semi-diameters and the angle between their centres, in degrees."""

    front: float
    back: float
    apart: float

    @property
    def magnitude(self) -> float:
        """The part of the diameter of the disc behind that is covered; where one lies within the other, the ratio of
        the front disc to it.

        >>> round(Cover(0.25, 0.25, 0.25).magnitude, 3), Cover(0.26, 0.25, 0.0).magnitude
        (0.5, 1.04)
        """
        if self.apart <= abs(self.front - self.back):
            return self.front / self.back
        return (self.front + self.back - self.apart) / (2 * self.back)

    @property
    def obscuration(self) -> float:
        """The part of the area of the disc behind that is covered, of flat discs.

        >>> round(Cover(0.25, 0.25, 0.25).obscuration, 3), Cover(0.2, 0.25, 0.0).obscuration
        (0.391, 0.6400000000000001)
        """
        front, back, apart = self.front, self.back, self.apart
        if apart >= front + back:
            return 0.0
        if apart <= abs(front - back):
            return min(1.0, (front / back) ** 2)
        of_front = (apart**2 + front**2 - back**2) / (2 * apart * front)
        of_back = (apart**2 + back**2 - front**2) / (2 * apart * back)
        one, other = (2 * math.acos(max(-1.0, min(1.0, each))) for each in (of_front, of_back))
        area = (front**2 * (one - math.sin(one)) + back**2 * (other - math.sin(other))) / 2
        return area / (math.pi * back**2)


def cover_at(text: TextOfSky, pair: Pair, seconds: float) -> Cover:
    """How the discs of a pair lie at seconds since J2000 (TDB), as they are seen from the place of the text."""
    at = np.array([seconds])
    front, back = (text.places(body, at) for body in pair.words)
    sizes = [float(disc(place, radius)[0]) for place, radius in zip((front, back), pair.radii)]
    return Cover(sizes[0], sizes[1], float(angle(front, back)[0]))


def elongation(text: TextOfSky, body: str, seconds: Floats) -> Floats:
    """The angles between a body and the Sun in degrees."""
    return angle(text.places(body, seconds), text.places("sun", seconds))

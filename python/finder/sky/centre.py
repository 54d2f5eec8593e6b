"""What is asked of the Earth's centre: phases, seasons, and meetings in right ascension, which a place has too."""

from __future__ import annotations

from collections.abc import Mapping, Sequence
from dataclasses import dataclass, fields
from itertools import combinations

import numpy as np

from ..public import public
from ..seen.vectors import Floats, angle, latitude
from .bodies import short_title
from .moments import Moment
from .searching import Naming, Searches, Span, TextOfSky

# The seasons by the axis of the Sun's coordinate that is 0 on the ecliptic of date, and by its turn.
SEASONS = {
    "y": {"rise": "March equinox", "fall": "September equinox"},
    "x": {"fall": "June solstice", "rise": "December solstice"},
}
QUARTERS = {"rise": "last quarter", "fall": "first quarter"}


def seasons(searches: Searches, span: Span, precise: bool) -> list[Moment]:
    """The equinoxes and solstices: the Sun's longitude on the ecliptic of date is a multiple of 90 degrees."""
    made = []
    for axis, names in SEASONS.items():
        made += searches.moments("sun", _by_turn(names), "coord", "sun", None, span, precise, axis=axis, ref=0)
    return made


def _by_turn(names: Mapping[str, str]) -> Naming:
    """A name for each turn, and both where it is not known."""
    return lambda turn: names.get(turn or "", " or ".join(names.values()))


def syzygies(searches: Searches, span: Span, precise: bool) -> list[Moment]:
    """The new and full moons: the longitudes of the Moon and the Sun on the ecliptic of date are equal, or opposite."""
    made = []
    for kind, name in (("conj", "new moon"), ("oppo", "full moon")):
        made += searches.moments("moon", _always(name), kind, "moon", "sun", span, precise)
    return made


def quarters(searches: Searches, span: Span, precise: bool) -> list[Moment]:
    """The quarters of the Moon: in the flat text it is 90 degrees from the Sun."""
    return searches.moments("moon", _by_turn(QUARTERS), "sep", "moon", "sun", span, precise, ref=0)


def _always(name: str) -> Naming:
    """A name that does not depend on the turn."""
    return lambda turn: name


@public
@dataclass(frozen=True)
class Meeting(Moment):
    """Two bodies at one right ascension of date: `body` and the `second` one, `separation` degrees apart, and the
    second one is north of the other where `is_north`.

    >>> import finder
    >>> eph = finder.Ephemeris.open("examples/de405-2000.asc")
    >>> sky = eph.sky(start="2000-05-20", end="2000-06-10")
    >>> [meeting.name for meeting in sky.meetings() if "Saturn" in meeting.name]
    ['Jupiter meets Saturn']
    """

    second: str = ""
    separation: float = float("nan")
    is_north: bool = False


def meetings(
    text: TextOfSky, searches: Searches, bodies: Sequence[str], span: Span, precise: bool
) -> list[Moment]:
    """The moments at which two of some bodies have one right ascension of date."""
    made: list[Moment] = []
    for one, other in combinations(bodies, 2):
        name = f"{short_title(one)} meets {short_title(other)}"
        found = searches.moments(one, _always(name), "conj", one, other, span, precise)
        if found:
            at = np.array([each.seconds for each in found])
            made += _with_numbers(found, other, text.places(one, at), text.places(other, at))
    return made


def _with_numbers(found: Sequence[Moment], second: str, first: Floats, other: Floats) -> list[Moment]:
    """Meetings with the angle between both bodies, and which is north."""
    known = [each.name for each in fields(Moment)]
    rows = zip(found, angle(first, other).tolist(), (latitude(other) > latitude(first)).tolist())
    return [
        Meeting(**{name: getattr(each, name) for name in known}, second=second, separation=apart, is_north=north)
        for each, apart, north in rows
    ]

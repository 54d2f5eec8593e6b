"""What the Moon covers at a place: planets by their discs, and stars as points."""

from __future__ import annotations

from collections.abc import Iterable, Mapping
from dataclasses import dataclass, replace

import numpy as np

from ..public import public
from .bodies import DIRECTIONS, short_title
from .discs import Pair, elongation, passages
from .moments import Moment, Moments
from .searching import Searches, Span, TextOfSky

# The contacts of a disc: it begins to be covered, it is covered, it begins to come out, it is out; and those of a star.
DISC = (("disappearance begins", "reappearance ends"), ("disappearance ends", "reappearance begins"))
STAR = ("disappears", "reappears")


@public
@dataclass(frozen=True)
class Occultation:
    """The Moon covers a body, as a place sees it. `contacts` are its moments in order; each has the altitude of the
    body and says whether it `is_up`; `sun_altitudes` are those of the Sun then, in degrees. `elongation` is the angle
    from the Sun in degrees at the middle. Of a graze, in which a disc is not wholly covered, there are the outer
    contacts.

    >>> import finder
    >>> eph = finder.Ephemeris.open("examples/de405-2000.asc")
    >>> sky = eph.sky("51.4769 N 0 E 46 m", "2000-07-01", "2000-07-31")
    >>> [(each.body, len(each.contacts)) for each in sky.occultations()]
    [('mercury', 4)]
    """

    body: str
    contacts: Moments
    sun_altitudes: tuple[float, ...]
    elongation: float

    @property
    def name(self) -> str:
        """What it is called: `The Moon covers Venus`."""
        return f"The Moon covers {short_title(self.body)}"

    @property
    def seconds(self) -> float:
        """The time of the first contact in seconds since J2000 (TDB)."""
        return self.contacts[0].seconds

    @property
    def visible(self) -> Moments:
        """The contacts at which the body is above the horizon."""
        return self.contacts.above_horizon()

    @property
    def is_visible(self) -> bool:
        """Whether the body is above the horizon at a contact."""
        return bool(self.visible)


def _named(moments: Iterable[Moment], names: tuple[str, str]) -> list[Moment]:
    by_turn = dict(zip(("rise", "fall"), names))
    made = []
    for moment in moments:
        turn = moment.window.turn if moment.window is not None else None
        made.append(replace(moment, name=by_turn.get(turn or "", " or ".join(names))))
    return made


def occultations_of(
    text: TextOfSky, searches: Searches, bodies: Iterable[str], span: Span, precise: bool, radii: Mapping[str, float]
) -> tuple[Occultation, ...]:
    """The occultations of some bodies in a span, in order of time. What has no radius is a point."""
    made = []
    for body in bodies:
        is_disc = body in radii
        pair = Pair("moon", body, (radii["moon"], radii.get(body, 0.0)))
        for passage in passages(searches, pair, span, precise, body):
            contacts = _named(passage.outer, DISC[0] if is_disc else STAR)
            if passage.inner_kind == "full":
                contacts += _named(passage.inner, DISC[1])
            made.append(_occultation(text, searches, body, Moments(contacts)))
    return tuple(sorted(made, key=lambda each: each.seconds))


def _occultation(text: TextOfSky, searches: Searches, body: str, contacts: Moments) -> Occultation:
    seconds = contacts.seconds
    altitudes = (float("nan"),) * len(contacts)
    if "zenith" in text.names and "sun" in text.names:
        altitudes = tuple(searches.altaz("sun", seconds)[0].tolist())
    middle = np.array([seconds.mean()])
    away = float(elongation(text, body, middle)[0]) if "sun" in text.names else float("nan")
    return Occultation(body, contacts, altitudes, away)


def bodies_to_cover(bodies: Iterable[str]) -> list[str]:
    """The bodies that the Moon can cover: those of a text but itself, the Sun and directions."""
    others = ("moon", "sun", "earth", "ssb", *DIRECTIONS)
    return [body for body in bodies if body not in others]

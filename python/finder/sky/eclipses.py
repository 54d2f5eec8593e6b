"""Eclipses at a place: the contacts that are seen there of those of the Sun and of the Moon, and transits of
planets."""

from __future__ import annotations

from collections.abc import Iterable, Mapping, Sequence
from dataclasses import dataclass, replace
from enum import Enum
from typing import TYPE_CHECKING, Optional

import numpy as np

from ..almanac.shadows import SHADOW, moon_sizes
from ..public import public
from .bodies import INNER, RADII, short_title
from .discs import Cover, Pair, Passage, cover_at, passages, radius_text
from .moments import Moment, Moments, moments_of
from .searching import MILLISECOND, SECOND, Searches, Span, TextOfSky

if TYPE_CHECKING:
    from .sky import Sky


class Sort(Enum):
    """The sorts of eclipses."""

    SOLAR = "solar eclipse"
    LUNAR = "lunar eclipse"
    TRANSIT = "transit"


@public
@dataclass(frozen=True)
class LocalEclipse:
    """An eclipse, or a transit, as a place sees it.

    `kind` is `partial`, `total` or `annular`, of the Moon also `penumbral`, and of a transit the planet. `contacts` are
    its moments in order, the greatest among them: `C1` to `C4` of the Sun, `P1` to `P4` of the Moon, `I` to `IV` of a
    transit. Each has the altitude of the Sun or the Moon, and says whether it `is_up`. `magnitude` is the part of a
    diameter that is covered at the greatest, of the Moon that in the umbra, or for a penumbral one in the penumbra;
    `obscuration` is the part of the Sun's disc. Both are doubles.

    >>> import finder
    >>> eph = finder.Ephemeris.open("examples/de405-2000.asc")
    >>> sky = eph.sky("51.4769 N 0 E 46 m", "2000-01-20", "2000-01-23")
    >>> eclipse = sky.eclipses()[0]
    >>> eclipse.sort.value, eclipse.kind, len(eclipse.contacts)
    ('lunar eclipse', 'total', 7)
    """

    sort: Sort
    kind: str
    body: str
    contacts: Moments
    magnitude: float
    obscuration: float

    @property
    def name(self) -> str:
        """What it is called: `Solar eclipse, partial`."""
        if self.sort is Sort.TRANSIT:
            return f"Transit of {self.kind}"
        return f"{self.sort.value.capitalize()}, {self.kind}"

    @property
    def greatest(self) -> Moment:
        """The moment at which it is greatest."""
        return self.contacts.named("greatest")[0]

    @property
    def seconds(self) -> float:
        """The time of the greatest in seconds since J2000 (TDB)."""
        return self.greatest.seconds

    @property
    def visible(self) -> Moments:
        """The contacts at which the body is above the horizon."""
        return self.contacts.above_horizon()

    @property
    def is_visible(self) -> bool:
        """Whether any part of it is above the horizon: a contact is, or the body rises and sets between two."""
        return bool(self.visible)


# The contacts of an eclipse of the Sun and of a transit, in order.
SOLAR_NAMES = ("C1", "C2", "C3", "C4")
TRANSIT_NAMES = ("I", "II", "III", "IV")


def _named(passage: Passage, names: Sequence[str]) -> list[Moment]:
    """The contacts with their usual names, and the greatest."""
    made = []
    for moments, (first, last) in ((passage.outer, (names[0], names[3])), (passage.inner, (names[1], names[2]))):
        for moment in moments:
            turn = moment.window.turn if moment.window is not None else None
            made.append(replace(moment, name={"rise": first, "fall": last}.get(turn or "", f"{first} or {last}")))
    return made + ([passage.least] if passage.least else [])


def _with_greatest(made: list[Moment], passage: Passage, body: str) -> list[Moment]:
    """The contacts, and where the least angle is outside of what is searched, the contact that is nearest to it."""
    if passage.least is not None:
        return made
    nearest = passage.outer[0] if passage.outer[0].window is not None else made[0]
    return [*made, replace(nearest, name="greatest", window=None, fine=None, request="")]


def solar(
    text: TextOfSky, searches: Searches, span: Span, precise: bool, radii: Mapping[str, float]
) -> list[LocalEclipse]:
    """The eclipses of the Sun at the place of a text."""
    pair = Pair("moon", "sun", (radii["moon"], radii["sun"]))
    made = []
    for passage in passages(searches, pair, span, precise, "sun"):
        contacts = Moments(_with_greatest(_named(passage, SOLAR_NAMES), passage, "sun"))
        cover = cover_at(text, pair, contacts.named("greatest")[0].seconds)
        kind = {"full": "total", "annular": "annular"}.get(passage.inner_kind, "partial")
        made.append(LocalEclipse(Sort.SOLAR, kind, "sun", contacts, cover.magnitude, cover.obscuration))
    return made


def transits_of_planets(
    text: TextOfSky, searches: Searches, span: Span, precise: bool, radii: Mapping[str, float], planets: Iterable[str]
) -> list[LocalEclipse]:
    """The transits of Mercury and Venus before the Sun."""
    made = []
    for planet in planets:
        pair = Pair(planet, "sun", (radii[planet], radii["sun"]))
        for passage in passages(searches, pair, span, precise, "sun"):
            contacts = Moments(_with_greatest(_named(passage, TRANSIT_NAMES), passage, "sun"))
            cover = cover_at(text, pair, contacts.named("greatest")[0].seconds)
            made.append(
                LocalEclipse(Sort.TRANSIT, short_title(planet), "sun", contacts, cover.magnitude, cover.obscuration)
            )
    return made


# The contacts of an eclipse of the Moon: the kind of the search, the sign with which the Moon's radius goes to that of
# the Earth's shadow, the one with which it goes to the Sun's, and the names (docs/guide/recipes.md).
LUNAR = (
    ("any", 1, -1, ("P1", "P4")),
    ("full", 1, 1, ("U1", "U4")),
    ("full", -1, -1, ("U2", "U3")),
)


def lunar(
    centre: Sky, place: Searches, span: Span, precise: bool, radii: Mapping[str, float]
) -> list[LocalEclipse]:
    """The eclipses of the Moon: their contacts are those of the Earth's centre, where the Sun and the Moon are as they
    are seen from there, and the Moon's altitude is that at the place."""
    made = []
    pair = Pair("earth", "sun", (radii["shadow"] + radii["moon"], radii["sun"] - radii["moon"]), "moon")
    for passage in passages(centre.searches, pair, span, precise, "moon"):
        near = max(span[0], int(passage.span[0]) - 5), min(span[1], int(passage.span[1]) + 5)
        contacts = [each for row in LUNAR for each in _lunar_contacts(centre.searches, row, near, precise, radii)]
        if passage.least is not None:
            contacts.append(passage.least)
        else:
            contacts = _with_greatest(contacts, passage, "moon")
        moments = Moments(place.placed("moon", [replace(each, body="moon") for each in contacts]))
        made.append(_lunar_eclipse(centre, moments, radii))
    return made


def _lunar_contacts(
    searches: Searches,
    row: tuple[str, int, int, tuple[str, str]],
    span: Span,
    precise: bool,
    radii: Mapping[str, float],
) -> list[Moment]:
    kind, of_shadow, of_sun, names = row
    shadow, sun = (radii[body] + sign * radii["moon"] for body, sign in (("shadow", of_shadow), ("sun", of_sun)))
    words = radius_text(shadow), radius_text(sun)
    found = [
        searches.windows(kind, "earth", "sun", span, tick, radii=words, observer="moon")
        for tick in ((SECOND, MILLISECOND) if precise else (SECOND,))
    ]
    named = dict(zip(("rise", "fall"), names))
    fine = found[1] if precise else None
    return moments_of("moon", found[0], fine, lambda turn: named.get(turn or "", " or ".join(names)))


def _lunar_eclipse(centre: Sky, contacts: Moments, radii: Mapping[str, float]) -> LocalEclipse:
    have = {each.name for each in contacts}
    kind = "total" if have & {"U2", "U3"} else "partial" if have & {"U1", "U4"} else "penumbral"
    at = np.array([contacts.named("greatest")[0].seconds])
    places = centre.places("moon", at), centre.places("sun", at)
    sizes = moon_sizes(*places, radii["shadow"], radii["sun"], radii["moon"])
    magnitude = sizes.penumbral if kind == "penumbral" else sizes.umbral
    return LocalEclipse(Sort.LUNAR, kind, "moon", contacts, magnitude, float("nan"))


def radii_of(given: Optional[Mapping[str, float]]) -> dict[str, float]:
    """The radii of eclipses in km, with those that are given in place of the usual ones: of bodies, and `shadow`, that
    of the Earth for its shadow."""
    made = {**RADII, "shadow": SHADOW}
    for body, radius in (given or {}).items():
        if body not in made:
            raise ValueError(f"no radius is of {body!r}: there are {', '.join(made)}")
        if not 0 <= float(radius) < 1e9:
            raise ValueError(f"a radius is in km and at least 0, and that of {body} is not {radius!r}")
        made[body] = float(radius)
    return made


def eclipses_of(
    text: TextOfSky, searches: Searches, centre: Sky, span: Span, precise: bool, radii: Optional[Mapping[str, float]]
) -> tuple[LocalEclipse, ...]:
    """All eclipses and transits of a span, in order of time."""
    sizes = radii_of(radii)
    inner = [planet for planet in INNER if planet in text.names]
    found = solar(text, searches, span, precise, sizes)
    found += lunar(centre, searches, span, precise, sizes)
    found += transits_of_planets(text, searches, span, precise, sizes, inner)
    return tuple(sorted(found, key=lambda each: each.seconds))


__all__ = ["Cover", "LocalEclipse", "Sort", "eclipses_of", "radii_of"]

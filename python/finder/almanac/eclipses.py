"""The events of an almanac that several windows belong to: eclipses, transits, and what the Moon covers.

The Moon's sphere touches a cone of the Earth's shadow where its centre is on the cone that lies a radius farther out,
or farther in. A cone that is tangent to two spheres on one side of its axis each, as the umbra, moves outward by a
length where both radii grow by it; one that is tangent to them on opposite sides, as the penumbra, where that of the
nearer body grows and that of the Sun shrinks. So the radii of these searches are those of a sphere that touches.
"""

from __future__ import annotations

from collections.abc import Callable, Sequence
from dataclasses import dataclass, replace

import numpy as np

from .. import spans
from ..seen.roots import illinois
from ..seen.vectors import Floats, angle
from ..sky.bodies import RADII
from ..sky.discs import radius_text
from .entries import PLANETS, Contact, EclipseKind, Entry, Event, Group, Numbers
from .names import INNER, Pair
from .shadows import EARTH, MOON, SHADOW, SUN, moon_shadow, moon_sizes, shadow_axis
from .texts import Found, Recipe, Search, Text, Texts

# What is said of a moment without a search.
COMPUTED = "computed in doubles"
# The radius in km within which the axis of the Moon's shadow meets the Earth (docs/guide/recipes.md).
CENTRAL = 6_350.0
# Contacts of one event are less than half a day apart; the greatest is within an hour of them, or two where there is
# one contact alone.
APART = spans.DAY / 2
AROUND = 3_600.0
# The seconds on each side by which a change is taken, and how many times are looked at for a least value.
STEP = 30.0
GRID = 241


def _touches(
    target: str, second: str, radii: tuple[float, float], names: Pair, observer: str = "earth", kind: str = "any"
) -> Search:
    options = {"observer": observer, "radii": tuple(map(radius_text, radii))}
    return Search(Text.EQUATOR, kind, target, second, options, names)


def _least(target: str, observer: str) -> Search:
    """The least angles between a body and the Sun."""
    return Search(Text.EQUATOR, "sepext", target, "sun", {"observer": observer, "dir": "fall"}, ("", "greatest"))


def _groups(contacts: list[Contact]) -> list[list[Contact]]:
    """The contacts of each event, in order of time."""
    made: list[list[Contact]] = []
    for contact in sorted(contacts, key=lambda each: each.seconds):
        if made and contact.seconds - made[-1][0].seconds < APART:
            made[-1].append(contact)
        else:
            made.append([contact])
    return made


def _ordered(group: list[Contact], greatest: Contact) -> tuple[Contact, ...]:
    return tuple(sorted([*group, greatest], key=lambda each: each.seconds))


def _around(texts: Texts, group: list[Contact]) -> tuple[float, float]:
    """The times about an event, within the texts; half of it may be missing at their end."""
    low, high = group[0].seconds - AROUND, group[-1].seconds + AROUND
    if len(group) < 2:
        low, high = low - AROUND, high + AROUND
    return max(low, texts.span[0] + STEP), min(high, texts.span[1] - STEP)


def _lowest(function: Callable[[Floats], Floats], low: float, high: float) -> float:
    """The time at which a function of times is least, between two; one of the two where it is least there."""
    times = np.linspace(low, high, GRID)
    place = int(function(times).argmin())
    if place in (0, GRID - 1):
        return float(times[place])

    def change(at: Floats) -> Floats:
        return function(at + STEP) - function(at - STEP)

    ends = times[place - 1 : place], times[place + 1 : place + 2]
    return float(illinois(change, *ends, *(change(end) for end in ends))[0])


def _greatest(texts: Texts, least: list[Contact], group: list[Contact], body: str) -> Contact:
    """The least angle between a body and the Sun: of its window, or where it has none in the span, in doubles."""
    low, high = _around(texts, group)
    inside = [each for each in least if low <= each.seconds <= high]
    if inside:
        return inside[0]

    def apart(at: Floats) -> Floats:
        return angle(texts.places(body, at), texts.places("sun", at))

    return Contact("greatest", None, "", _lowest(apart, low, high), COMPUTED)


def _moon_greatest(texts: Texts, least: list[Contact], group: list[Contact]) -> Contact:
    """The greatest of a lunar eclipse: the least angle between Earth and Sun from the Moon, of its window or in
    doubles."""
    low, high = _around(texts, group)
    inside = [each for each in least if low <= each.seconds <= high]
    if inside:
        return inside[0]

    def apart(at: Floats) -> Floats:
        moon = texts.places("moon", at)
        return angle(-moon, texts.places("sun", at) - moon)

    return Contact("greatest", None, "", _lowest(apart, low, high), COMPUTED)


@dataclass(frozen=True)
class LunarEclipses:
    """Lunar eclipses, of what is seen from the Moon: the Earth before the Sun, at times at which it is seen here."""

    group: Group = Group.ECLIPSES

    @property
    def searches(self) -> tuple[Search, ...]:
        """The penumbra, the umbra, totality, and the least angle."""
        return (
            _touches("earth", "sun", (SHADOW + MOON, SUN - MOON), ("P1", "P4"), "moon"),
            _touches("earth", "sun", (SHADOW + MOON, SUN + MOON), ("U1", "U4"), "moon", "full"),
            _touches("earth", "sun", (SHADOW - MOON, SUN - MOON), ("U2", "U3"), "moon", "full"),
            _least("earth", "moon"),
        )

    def entries(self, texts: Texts, found: Sequence[Found]) -> list[Entry]:
        """An entry for each eclipse."""
        of_search = [each.contacts for each in found]
        least = of_search.pop()
        groups = _groups([contact for contacts in of_search for contact in contacts])
        return [self._entry(texts, group, _moon_greatest(texts, least, group)) for group in groups]

    def _entry(self, texts: Texts, group: list[Contact], greatest: Contact) -> Entry:
        have = {each.name for each in group}
        total, partial = bool(have & {"U2", "U3"}), bool(have & {"U1", "U4"})
        kind = EclipseKind.TOTAL if total else EclipseKind.PARTIAL if partial else EclipseKind.PENUMBRAL
        at = np.array([greatest.seconds])
        sizes = moon_sizes(texts.places("moon", at), texts.places("sun", at))
        numbers = Numbers(
            kind=kind, magnitude=round(sizes.umbral, 4), penumbral_magnitude=round(sizes.penumbral, 4)
        )
        size = sizes.penumbral if kind is EclipseKind.PENUMBRAL else sizes.umbral
        every = _ordered(group, greatest)
        name = f"Lunar eclipse, {kind.value}"
        text = f"{'penumbral ' if kind is EclipseKind.PENUMBRAL else ''}magnitude {size:.3f}"
        return Entry(self.group, Event.LUNAR_ECLIPSE, name, ("moon",), greatest.seconds, every, numbers, text)


@dataclass(frozen=True)
class SolarEclipses:
    """Solar eclipses, somewhere on Earth. Their kind, magnitude and greatest are of the shadow's axis, in doubles."""

    group: Group = Group.ECLIPSES

    @property
    def searches(self) -> tuple[Search, ...]:
        """The penumbra on the Earth, and the axis of the shadow."""
        return (
            _touches("moon", "sun", (MOON + EARTH, SUN - EARTH), ("P1", "P4")),
            _touches("moon", "sun", (CENTRAL, 0.0), ("central begins", "central ends")),
        )

    def entries(self, texts: Texts, found: Sequence[Found]) -> list[Entry]:
        """An entry for each eclipse."""
        return [self._entry(texts, group) for group in _groups([each for rows in found for each in rows.contacts])]

    def _entry(self, texts: Texts, group: list[Contact]) -> Entry:
        def off(at: Floats) -> Floats:
            return shadow_axis(texts.places("moon", at), texts.places("sun", at)).off

        time = _lowest(off, *_around(texts, group))
        at = np.array([time])
        made = moon_shadow(shadow_axis(texts.places("moon", at), texts.places("sun", at)))
        is_partial = made.kind is EclipseKind.PARTIAL
        numbers = Numbers(
            kind=made.kind,
            gamma=round(made.gamma, 5),
            umbra_radii=round(made.umbra, 6),
            magnitude=round(made.magnitude, 4) if is_partial else None,
        )
        text = (f"magnitude {made.magnitude:.3f}, " if is_partial else "") + f"gamma {made.gamma:+.3f}"
        every = _ordered(group, Contact("greatest", None, "", time, COMPUTED))
        name = f"Solar eclipse, {made.kind.value}"
        return Entry(self.group, Event.SOLAR_ECLIPSE, name, ("sun", "moon"), time, every, numbers, text)


@dataclass(frozen=True)
class Transits:
    """Transits of an inner planet before the Sun, as the Earth's centre sees them."""

    planet: str
    group: Group = Group.ECLIPSES

    @property
    def searches(self) -> tuple[Search, ...]:
        """Outer touches, inner touches, and the least angle."""
        radii = RADII[self.planet], SUN
        outer = _touches(self.planet, "sun", radii, ("I", "IV"))
        inner = _touches(self.planet, "sun", radii, ("II", "III"), kind="annular")
        return outer, inner, _least(self.planet, "earth")

    def entries(self, texts: Texts, found: Sequence[Found]) -> list[Entry]:
        """An entry for each transit."""
        of_search = [each.contacts for each in found]
        least = of_search.pop()
        groups = _groups([contact for contacts in of_search for contact in contacts])
        return [self._entry(texts, group, _greatest(texts, least, group, self.planet)) for group in groups]

    def _entry(self, texts: Texts, group: list[Contact], greatest: Contact) -> Entry:
        at = np.array([greatest.seconds])
        away = float(angle(texts.places(self.planet, at), texts.places("sun", at))[0]) * 3_600
        name, text = f"Transit of {self.planet.capitalize()}", f"{away:.0f}″ from the Sun's centre"
        numbers, every = Numbers(least_angle_arcsec=round(away, 2)), _ordered(group, greatest)
        return Entry(self.group, Event.TRANSIT, name, (self.planet,), greatest.seconds, every, numbers, text)


@dataclass(frozen=True)
class Occultations:
    """Times at which the Moon covers a planet, or a star, somewhere on Earth."""

    body: str
    text: Text = Text.EQUATOR
    group: Group = Group.MOON_MEETINGS

    @property
    def searches(self) -> tuple[Search, ...]:
        """A Moon that has the Earth's radius added."""
        touches = _touches("moon", self.body, (MOON + EARTH, RADII.get(self.body, 0.0)), ("begins", "ends"))
        return (replace(touches, text=self.text),)

    def entries(self, texts: Texts, found: Sequence[Found]) -> list[Entry]:
        """An entry for each."""
        return [self._entry(texts, group) for group in _groups(found[0].contacts)]

    def _entry(self, texts: Texts, group: list[Contact]) -> Entry:
        time = sum(contact.seconds for contact in group) / len(group)
        at = np.array([time])
        away = float(angle(texts.places(self.body, at, self.text), texts.places("sun", at, self.text))[0])
        name, text = f"Moon covers {self.body.capitalize()}", f"somewhere on Earth, {away:.0f}° from the Sun"
        numbers = Numbers(elongation_deg=round(away, 4))
        return Entry(self.group, Event.OCCULTATION, name, ("moon", self.body), time, tuple(group), numbers, text)


def eclipses(bodies: Sequence[str] = PLANETS, stars: Sequence[str] = ()) -> list[Recipe]:
    """All recipes of eclipses, transits, and planets and stars that the Moon covers."""
    made: list[Recipe] = [LunarEclipses(), SolarEclipses()]
    made += [Transits(planet) for planet in INNER]
    made += [Occultations(planet) for planet in bodies]
    return made + [Occultations(star, Text.STARS) for star in stars]

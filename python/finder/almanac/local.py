"""The parts of an almanac that are of a place: the Sun and the Moon by day, planets by week, and what is seen there of
eclipses and occultations."""

from __future__ import annotations

from collections.abc import Iterable, Sequence
from dataclasses import replace
from typing import Optional

import numpy as np

from ..process.program import Runs
from ..reports.calendar import DAY
from ..seen.vectors import Floats, angle
from ..sky.earth_rotation import earth_rotation
from ..sky.eclipses import LocalEclipse, Sort
from ..sky.moments import Moment, Moments
from ..sky.occultations import Occultation
from ..sky.place import Place
from ..sky.sky import Sky
from .entries import Contact, EclipseKind, Entry, Event, Group, LocalYear, Numbers
from .texts import STARS, Texts

# The groups that an almanac has of a place alone.
LOCAL = (Group.DAYS, Group.WEEKS)
TWILIGHTS = ("civil", "nautical", "astronomical")
# Two entries are of one eclipse where their greatest are less than so many seconds apart.
SAME = DAY / 2
# The seconds before and after the contacts somewhere on Earth between which a place has its own.
AROUND = 3_600.0


def local_year(
    texts: Texts, place: Place, delta_t: Optional[float], runs: Runs, span: tuple[float, float], groups: Iterable[Group]
) -> LocalYear:
    """What a place sees, of searches over the text of its sky, of the groups that are wanted."""
    wanted = set(groups)
    rotation = earth_rotation(delta_t=delta_t)
    sky = _sky(texts, place, delta_t, runs, None).beside(texts.equator)
    sun = moon = Moments([])
    planets: dict[str, Moments] = {}
    if Group.DAYS in wanted:
        sun, moon = _sun(sky), _moon(sky)
    if Group.WEEKS in wanted:
        planets = {body: _planet(sky, body) for body in texts.planets if body in sky.names}
    said = tuple(dict.fromkeys(each.said for each in (sun, moon, *planets.values()) if each.said))
    times = np.arange(span[0], span[1] + DAY, DAY)
    inside = np.clip(times, sky.start, sky.end)
    lit = _lit(sky, inside)
    return LocalYear(place, rotation.sentence(*span), sun, moon, planets, said, times, lit, sky.searches.count, (sky,))


def _sky(texts: Texts, place: Place, delta_t: Optional[float], runs: Runs, bodies: Optional[Sequence[str]]) -> Sky:
    first, last = map(float, texts.span)
    made: Sky = texts.source.sky(place, first, last, delta_t=delta_t, bodies=bodies, cache=texts.cache)
    return made.run_by(runs)


def _sun(sky: Sky) -> Moments:
    """Its risings, transits and settings, and the twilights, at a tick of a second: they are shown to the minute."""
    made = sky.rises("sun", precise=False) + sky.sets("sun", precise=False).without_said()
    made = made + sky.transits("sun", precise=False) if _has_meridian(sky) else made
    for kind in TWILIGHTS:
        made = made + sky.twilight(kind, precise=False).without_said()
    return made


def _moon(sky: Sky) -> Moments:
    made = sky.rises("moon", precise=False) + sky.sets("moon", precise=False).without_said()
    return made + sky.transits("moon", precise=False) if _has_meridian(sky) else made


def _planet(sky: Sky, body: str) -> Moments:
    made = sky.rises(body, precise=False) + sky.sets(body, precise=False).without_said()
    return made + sky.transits(body, precise=False) if _has_meridian(sky) else made


def _has_meridian(sky: Sky) -> bool:
    return sky.place is not None and abs(sky.place.latitude) < 90


def _lit(sky: Sky, times: Floats) -> Floats:
    """The part of the Moon's disc that is lit: (1 + cos i) / 2, i being the angle at the Moon between Sun and Earth (J.
    Meeus, Astronomical Algorithms, chapter 48)."""
    moon, sun = (sky.places(body, times) for body in ("moon", "sun"))
    phase = angle(-moon, sun - moon)
    return np.asarray((1 + np.cos(np.radians(phase))) / 2)


def lit_of(sky: Sky, seconds: float) -> float:
    """The part of the Moon's disc that is lit at seconds since J2000 (TDB)."""
    return float(_lit(sky, np.array([seconds]))[0])


def local_entries(
    texts: Texts, local: LocalYear, entries: Sequence[Entry], groups: Iterable[Group]
) -> list[Entry]:
    """The entries of an almanac with what the place sees of eclipses and occultations in their place."""
    wanted = set(groups)
    (sky,) = local.skies
    made = list(entries)
    if Group.ECLIPSES in wanted:
        events = (Event.SOLAR_ECLIPSE, Event.LUNAR_ECLIPSE, Event.TRANSIT)
        others = [_seen_or_not(entry, sky) for entry in made if entry.event in events]
        here = [_eclipse_entry(each) for each in sky.eclipses(precise=True)]
        kept = [entry for entry in others if not any(_is_same(entry, other) for other in here)]
        made = [entry for entry in made if entry.event not in events] + kept + here
    if Group.MOON_MEETINGS in wanted:
        covered = [entry for entry in made if entry.event is Event.OCCULTATION]
        found = [*sky.occultations(precise=True)]
        found += _more_occultations(texts, local, covered, sky)
        here = [_occultation_entry(each) for each in found]
        kept = [replace(entry, text=f"{entry.text}, not seen from here") for entry in covered if not _seen(entry, here)]
        made = [entry for entry in made if entry.event is not Event.OCCULTATION] + kept + here
    return made


def _is_same(entry: Entry, other: Entry) -> bool:
    return entry.event is other.event and abs(entry.seconds - other.seconds) < SAME


def _seen(entry: Entry, here: Sequence[Entry]) -> bool:
    return any(_is_same(entry, other) and entry.bodies == other.bodies for other in here)


def _seen_or_not(entry: Entry, sky: Sky) -> Entry:
    return replace(entry, text=f"{entry.text}, not seen from here")


def _more_occultations(texts: Texts, local: LocalYear, covered: Sequence[Entry], sky: Sky) -> list[Occultation]:
    """The occultations of bodies that the text of the place's sky has no column for: of a sky about each time at which
    the Moon covers one somewhere on Earth."""
    made: list[Occultation] = []
    for entry in covered:
        body = entry.bodies[1]
        if body not in sky.names:
            stars = {body: STARS[body]} if body in STARS else None
            bodies = ["sun", "moon"] if stars else ["sun", "moon", body]
            first, last = entry.contacts[0].seconds - AROUND, entry.contacts[-1].seconds + AROUND
            if texts.span[0] <= first and last + DAY <= texts.span[1]:
                about: Sky = texts.source.sky(
                    local.place, first, last, delta_t=sky.earth_rotation, bodies=bodies, stars=stars, cache=False
                )
                made += about.run_by(sky.program).occultations(body, precise=True)
    return made


def _contacts(moments: Iterable[Moment]) -> tuple[Contact, ...]:
    """The contacts of moments, each with the place of the body."""
    return tuple(
        Contact(each.name, each.window, each.request, each.seconds, HERE, each.altitude, each.azimuth)
        for each in moments
    )


HERE = "as seen from the place, on the equator of date"
EVENTS = {Sort.SOLAR: Event.SOLAR_ECLIPSE, Sort.LUNAR: Event.LUNAR_ECLIPSE, Sort.TRANSIT: Event.TRANSIT}
BODIES = {Sort.SOLAR: ("sun", "moon"), Sort.LUNAR: ("moon",)}


def _eclipse_entry(found: LocalEclipse) -> Entry:
    """The entry of an eclipse, with what of it is above the horizon."""
    kind = None if found.sort is Sort.TRANSIT else EclipseKind(found.kind)
    magnitude = None if found.sort is Sort.TRANSIT else round(found.magnitude, 4)
    obscuration = round(found.obscuration, 4) if found.sort is Sort.SOLAR else None
    greatest = found.greatest
    numbers = Numbers(kind=kind, magnitude=magnitude, obscuration=obscuration, altitude_deg=_rounded(greatest.altitude))
    of = "penumbral magnitude" if kind is EclipseKind.PENUMBRAL else "magnitude"
    said = [] if magnitude is None else [f"{of} {magnitude:.3f}"]
    said += [] if obscuration is None else [f"{100 * obscuration:.0f}% covered"]
    said.append(_up(found.contacts))
    bodies = BODIES.get(found.sort, (found.kind.lower(),))
    every = _contacts(found.contacts)
    return Entry(
        Group.ECLIPSES, EVENTS[found.sort], found.name, bodies, greatest.seconds, every, numbers, ", ".join(said)
    )


def _up(contacts: Moments) -> str:
    """Which of the contacts are above the horizon."""
    down = [each.name for each in contacts if not each.is_up]
    if not down:
        return "all of it above the horizon"
    if len(down) == len(contacts):
        return "not seen from here: below the horizon"
    return f"below the horizon: {', '.join(down)}"


def _occultation_entry(found: Occultation) -> Entry:
    """The entry of an occultation, with the altitude and the Sun's at its begin."""
    first = found.contacts[0]
    sun = found.sun_altitudes[0]
    light = "by day" if sun > -0.833 else "in twilight" if sun > -18 else "at night"
    said = f"{_up(found.contacts)}, {light}, {found.elongation:.0f}° from the Sun"
    numbers = Numbers(
        elongation_deg=round(found.elongation, 4), altitude_deg=_rounded(first.altitude), sun_altitude_deg=_rounded(sun)
    )
    name = f"Moon covers {found.body.capitalize()}"
    bodies = "moon", found.body
    every = _contacts(found.contacts)
    return Entry(Group.MOON_MEETINGS, Event.OCCULTATION, name, bodies, found.seconds, every, numbers, said)


def _rounded(degrees: float) -> Optional[float]:
    return None if np.isnan(degrees) else round(degrees, 2)

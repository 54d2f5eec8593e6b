"""The events of an almanac that have one window each: phases, apsides, nodes, seasons, the planets, their meetings."""

from __future__ import annotations

from collections.abc import Callable, Iterator, Sequence
from dataclasses import dataclass, replace
from typing import Optional

import numpy as np

from ..ephemeris.series import Series
from ..seen.vectors import AU, Floats, angle, latitude, length, longitude, wrapped
from .entries import PLANETS, Contact, Entry, Event, Group, Numbers, Side, Way
from .names import INNER, Pair
from .texts import Found, Search, Text, Texts

# Angles from the Sun in degrees: within the first a body is lost in its glare, beyond the second it is up all night.
GLARE, NIGHT = 12.0, 150.0
TITLES = {
    Event.ASCENDING_NODE: "Moon at ascending node",
    Event.DESCENDING_NODE: "Moon at descending node",
    Event.PERIGEE: "Moon at perigee",
    Event.APOGEE: "Moon at apogee",
    Event.PERIHELION: "Earth at perihelion",
    Event.APHELION: "Earth at aphelion",
    Event.CONJUNCTION: "{target} in conjunction with the Sun",
    Event.INFERIOR_CONJUNCTION: "{target} at inferior conjunction",
    Event.SUPERIOR_CONJUNCTION: "{target} at superior conjunction",
    Event.OPPOSITION: "{target} at opposition",
    Event.TURNS_DIRECT: "{target} stationary, turns direct",
    Event.TURNS_RETROGRADE: "{target} stationary, turns retrograde",
    Event.GREATEST_ELONGATION: "{target} at greatest elongation{side}",
}


@dataclass(frozen=True)
class Said:
    """The numbers of an event, and their text."""

    numbers: Numbers = Numbers()
    text: str = ""


# What is said of the events of a search, all of them at once, at some times.
Say = Callable[[Texts, Search, Sequence[Event], Floats], Iterator[Said]]


@dataclass(frozen=True)
class Single:
    """A recipe of one search, with an entry for each of its windows. The events are those that `finder.names` gives, or
    all one `event`, whose `title` is given."""

    group: Group
    search: Search
    say: Say
    event: Optional[Event] = None
    title: str = ""

    @property
    def searches(self) -> tuple[Search, ...]:
        """The one search."""
        return (self.search,)

    def entries(self, texts: Texts, found: Sequence[Found]) -> list[Entry]:
        """An entry for each window."""
        contacts = found[0].contacts
        at = np.array([contact.seconds for contact in contacts], dtype=float)
        events = [self._event(each) for each in contacts]
        said = self.say(texts, self.search, events, at) if contacts else iter(())
        return [self._entry(*row) for row in zip(contacts, events, said)]

    def _event(self, contact: Contact) -> Event:
        if contact.name != Event.UNDECIDED.value:
            return self.event or Event(contact.name)
        # (where both turns have one name, an undecided window has that)
        return self.event or (Event(self._pair[0]) if len(set(self._pair)) == 1 else Event.UNDECIDED)

    @property
    def _pair(self) -> Pair:
        return self.search.pair

    def _entry(self, contact: Contact, event: Event, said: Said) -> Entry:
        title = self._either() if event is Event.UNDECIDED else self._title(event, said.numbers.side)
        bodies = tuple(body for body in (self.search.target, self.search.second) if body is not None and body != "sun")
        return Entry(self.group, event, title, bodies, contact.seconds, (contact,), said.numbers, said.text)

    def _title(self, event: Event, side: Optional[Side]) -> str:
        title = self.title or TITLES.get(event, event.value[0].upper() + event.value[1:])
        where = "" if side is None else f" {side.value}"
        second = (self.search.second or "").capitalize()
        return title.format(target=self.search.target.capitalize(), second=second, side=where)

    def _either(self) -> str:
        """What an undecided window may be."""
        return " or ".join(dict.fromkeys(self._title(Event(name), None) for name in self._pair))


def _sides(texts: Texts, body: str, at: Floats, text: Text) -> tuple[Floats, Floats]:
    """The angles of a body from the Sun in degrees, and how far it is east of it in longitude."""
    place, sun = (texts.places(each, at, text) for each in (body, "sun"))
    if text is not Text.ECLIPTIC:
        # (which side of the Sun a body is on does not depend on some arc seconds of the obliquity)
        place, sun = Series.turned("ecl", place), Series.turned("ecl", sun)
    return angle(place, sun), wrapped(longitude(place) - longitude(sun))


def _moon_distance(texts: Texts, search: Search, events: Sequence[Event], at: Floats) -> Iterator[Said]:
    for far in length(texts.geometric("moon", at)).tolist():
        yield Said(Numbers(distance_km=round(far, 1)), f"{far:,.0f} km")


def _sun_distance(texts: Texts, search: Search, events: Sequence[Event], at: Floats) -> Iterator[Said]:
    for far in (length(texts.geometric("sun", at)) / AU).tolist():
        yield Said(Numbers(distance_au=round(far, 9)), f"{far:.6f} au")


def _from_sun(texts: Texts, search: Search, events: Sequence[Event], at: Floats) -> Iterator[Said]:
    """The elongation of a planet, its side, and its distance."""
    away_from_sun, ahead = _sides(texts, search.target, at, search.text)
    distances = length(texts.geometric(search.target, at)) / AU
    for event, far, away, is_east in zip(events, distances.tolist(), away_from_sun.tolist(), (ahead > 0).tolist()):
        side = Side.EAST if is_east else Side.WEST
        numbers = Numbers(elongation_deg=round(away, 5), side=side, distance_au=round(far, 7))
        text = f"{away:.1f}° from the Sun, {far:.3f} au away"
        if event is Event.GREATEST_ELONGATION:
            text = f"{away:.1f}° {side.value} of the Sun, {side.sky}"
        elif event in (Event.TURNS_DIRECT, Event.TURNS_RETROGRADE):
            text = f"{away:.0f}° {side.value} of the Sun"
        # (a conjunction is on no side)
        alone = event in (Event.CONJUNCTION, Event.INFERIOR_CONJUNCTION, Event.SUPERIOR_CONJUNCTION, Event.OPPOSITION)
        yield Said(replace(numbers, side=None) if alone else numbers, text)


def _meeting(texts: Texts, search: Search, events: Sequence[Event], at: Floats) -> Iterator[Said]:
    """How far the second body passes the target, on which side, and how far both are from the Sun."""
    second = search.second or ""
    one, other = (texts.places(body, at, search.text) for body in (search.target, second))
    away_from_sun, ahead = _sides(texts, second, at, search.text)
    of = "the Moon" if search.target == "moon" else search.target.capitalize()
    rows = angle(one, other), latitude(other) > latitude(one), away_from_sun, ahead > 0
    for apart, is_north, away, is_east in zip(*(row.tolist() for row in rows)):
        way, side = Way.NORTH if is_north else Way.SOUTH, Side.EAST if is_east else Side.WEST
        sky = "near the Sun" if away < GLARE else "all night" if away > NIGHT else side.sky
        numbers = Numbers(separation_deg=round(apart, 5), second_is=way, elongation_deg=round(away, 4), side=side)
        yield Said(numbers, f"{second.capitalize()} {apart:.1f}° {way.value} of {of}, {sky}")


def moon_and_seasons() -> list[Single]:
    """The phases, apsides and nodes of the Moon, the seasons, and the apsides of the Earth."""
    moon, seasons = Group.MOON, Group.SEASONS
    files, ecliptic = Text.FILES, Text.ECLIPTIC
    return [
        Single(moon, Search(ecliptic, "conj", "moon", "sun"), _moon_distance),
        Single(moon, Search(ecliptic, "oppo", "moon", "sun"), _moon_distance),
        Single(moon, Search(Text.FLAT, "sep", "moon", "sun", {"ref": 0}), _moon_distance),
        Single(moon, Search(files, "apsis", "moon", None, {"observer": "earth"}), _moon_distance),
        Single(moon, Search(ecliptic, "coord", "moon", None, {"axis": "z", "ref": 0}), _moon_distance),
        Single(seasons, Search(ecliptic, "coord", "sun", None, {"axis": "x", "ref": 0}), _sun_distance),
        Single(seasons, Search(ecliptic, "coord", "sun", None, {"axis": "y", "ref": 0}), _sun_distance),
        Single(seasons, Search(files, "apsis", "earth", None, {"observer": "sun"}), _sun_distance),
    ]


def planets(bodies: Sequence[str] = PLANETS) -> list[Single]:
    """Stations, conjunctions with the Sun, oppositions and greatest elongations."""
    made = []
    ecliptic = Text.ECLIPTIC
    for planet in bodies:
        elongations = Search(ecliptic, "sepext", planet, "sun", {"dir": "rise"})
        far = elongations if planet in INNER else Search(ecliptic, "oppo", planet, "sun")
        near = Search(ecliptic, "conj", planet, "sun")
        station = Search(ecliptic, "station", planet)
        made += [Single(Group.PLANETS, search, _from_sun) for search in (station, near, far)]
    return made


def meetings(bodies: Sequence[str] = PLANETS, stars: Sequence[str] = ()) -> list[Single]:
    """Conjunctions of planets, and of the Moon with planets and stars, in right ascension of date."""
    made = []
    for number, one in enumerate(bodies):
        made.append(_passes(Search(Text.EQUATOR, "conj", "moon", one)))
        for other in bodies[number + 1 :]:
            pair = Search(Text.EQUATOR, "conj", one, other)
            made.append(Single(Group.MEETINGS, pair, _meeting, Event.MEETING, "{target} and {second} meet"))
    return made + [_passes(Search(Text.STARS, "conj", "moon", star)) for star in stars]


def _passes(search: Search) -> Single:
    return Single(Group.MOON_MEETINGS, search, _meeting, Event.MEETING, "Moon passes {second}")

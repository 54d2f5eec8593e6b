"""One night at a place: when it is dark, when each body is up and highest, and what happens."""

from __future__ import annotations

import datetime
from collections.abc import Iterator, Sequence
from dataclasses import dataclass

import numpy as np
import numpy.typing as npt

from ..public import public
from ..reports.sets import Spans, TimeSet
from ..seen.scales import Clock
from ..seen.vectors import Floats
from .bodies import short_title
from .eclipses import LocalEclipse
from .moments import ClockLike, Moment, Moments
from .nights import night_of
from .occultations import Occultation
from .place import Place
from .sky import Sky

# The altitude in degrees from which a body is seen well, and the sorts of darkness from the darkest on.
WELL = 10.0
DARKNESS = ("astronomical", "nautical", "civil")


@dataclass(frozen=True)
class BodyTonight:
    """A body in a night: its risings, settings and culminations, how high it stands at its highest in the dark, in
    degrees, when that is (seconds since J2000, TDB), and when it is at least 10 degrees high in the dark."""

    body: str
    moments: Moments
    highest: float
    highest_at: float
    well: Spans


@public
@dataclass(frozen=True)
class Tonight:
    """One night at a place, from the local mean noon of `date` to the next one.

    `sun` are sunset, twilights and sunrise, `moon` the Moon's risings and settings, `lit` the part of its disc that is
    lit at midnight, `dark` the times of the deepest `darkness` that the night has, `bodies` the planets and stars, and
    `eclipses` and `occultations` what has a contact above the horizon in the night.
    """

    place: Place
    date: datetime.date
    start: float
    end: float
    sun: Moments
    moon: Moments
    lit: float
    darkness: str
    dark: TimeSet
    bodies: tuple[BodyTonight, ...]
    eclipses: tuple[LocalEclipse, ...]
    occultations: tuple[Occultation, ...]
    rotation: str

    def text(self, clock: ClockLike = "utc") -> str:
        """The night in lines, with times by a clock."""
        return "\n".join([*_lines(self, Clock.of(clock)), ""])


def night_span(place: Place, seconds: float) -> tuple[datetime.date, float, float]:
    """The night that a time in seconds since J2000 (TDB) is in: its date, and its noons."""
    return night_of(seconds, place.longitude)


def tonight_of(
    skies: Sequence[Sky], date: datetime.date, start: float, end: float, lit: float
) -> Tonight:
    """The night between two noons in seconds since J2000 (TDB), of the sky of a place that has the Sun, the Moon and
    planets, and of others of the same place and span that have more bodies."""
    sky = skies[0]
    place = sky.place
    if place is None:
        raise ValueError("a night is of a place, and this sky is of the Earth's centre: sky(place, ..)")
    sun = sky.rises("sun") + sky.sets("sun").without_said()
    for kind in ("civil", "nautical", "astronomical"):
        sun = sun + sky.twilight(kind).without_said()
    darkness, dark = _darkest(sky)
    bodies = [(each, body) for each in skies for body in each.bodies if body not in ("sun", "moon")]
    return Tonight(
        place=place,
        date=date,
        start=start,
        end=end,
        sun=sun,
        moon=sky.rises("moon") + sky.sets("moon").without_said(),
        lit=lit,
        darkness=darkness,
        dark=dark,
        bodies=tuple(_body(each, body, dark) for each, body in bodies),
        eclipses=tuple(each for each in sky.eclipses() if each.is_visible),
        occultations=tuple(found for each in skies for found in each.occultations() if found.is_visible),
        rotation=sky.rotation,
    )


def _darkest(sky: Sky) -> tuple[str, TimeSet]:
    """The deepest darkness that a night has, and its times: those in which the Sun is set, if it has no twilight's
    end."""
    for kind in DARKNESS:
        times = sky.below_sun(kind)
        if len(times.possible):
            return kind, times
    return "", ~sky.above("sun", -0.8333)


def _body(sky: Sky, body: str, dark: TimeSet) -> BodyTonight:
    """A body in the night."""
    moments = sky.rises(body) + sky.sets(body).without_said()
    moments = moments + sky.culminations(body).named(f"{short_title(body)} highest")
    seconds = np.arange(*sky.span, 120.0)
    inside = _inside(seconds, dark.sure)
    altitudes = sky.searches.altaz(body, seconds)[0]
    best = int(np.argmax(np.where(inside, altitudes, -91.0)))
    highest = float(altitudes[best]) if inside.any() else float("nan")
    return BodyTonight(body, moments, highest, float(seconds[best]), (sky.by_altitude(body, WELL) & dark).sure)


def _inside(seconds: Floats, rows: Spans) -> npt.NDArray[np.bool_]:
    """Which times are in spans."""
    place = np.searchsorted(rows.first, seconds * rows.tick, "right") - 1
    made: npt.NDArray[np.bool_] = (place >= 0) & (seconds * rows.tick <= np.append(rows.last, -1)[place])
    return made


def _lines(night: Tonight, clock: Clock) -> Iterator[str]:
    """The lines of a night."""
    after = night.date + datetime.timedelta(days=1)
    yield f"The night of {night.date:%A}, {night.date:%Y-%m-%d}, to {after:%A}, {night.place}, times in {clock.name}"
    yield ""
    for each in night.sun:
        compass = each.compass if each.name in ("sunset", "sunrise") else ""
        yield f"  {_minute(each, clock)}  {each.name:<20}{compass}".rstrip()
    yield from filter(None, [night.sun.said])
    total = night.dark.sure.total()
    minutes = round(total.total_seconds() / 60)
    darkness = f"{night.darkness} darkness" if night.darkness else "the Sun is set, and no twilight ends,"
    yield f"  {darkness} for {minutes // 60} h {minutes % 60:02d} min" if minutes else "  it does not get dark"
    yield ""
    yield f"  The Moon is {100 * night.lit:.0f}% lit"
    yield from (f"  {_minute(each, clock)}  {each.name:<20}{_where(each)}".rstrip() for each in night.moon)
    yield from filter(None, [night.moon.said])
    yield ""
    yield f"  {'':<11}{'rises':<7}{'highest':<9}{'sets':<7}{'in the dark':<19}at least {WELL:.0f}° high in the dark"
    yield from (_body_line(each, clock) for each in night.bodies)
    events = [(each.name, each.contacts) for each in night.eclipses]
    for name, contacts in [*events, *((each.name, each.contacts) for each in night.occultations)]:
        yield ""
        yield f"  {name}"
        yield from (f"    {_second(each, clock)}  {each.name:<22}{_where(each)}".rstrip() for each in contacts)
    yield ""
    yield "Times are of windows that are proved to miss nothing in the text of this sky; how far the text is from what"
    yield f"is seen is measured. {night.rotation}"


def _minute(moment: Moment, clock: Clock) -> str:
    return f"{clock.minute(moment.seconds):%a %H:%M}"


def _second(moment: Moment, clock: Clock) -> str:
    return f"{clock.at(moment.seconds + 0.5):%a %H:%M:%S}"


def _where(moment: Moment) -> str:
    """Where the body of a moment is: the point of the compass, and its altitude where it is not at the horizon."""
    if abs(moment.altitude) < 1:
        return moment.compass
    return f"{moment.altitude:.0f}° high, {moment.compass}" if moment.is_up else "below the horizon"


def _body_line(each: BodyTonight, clock: Clock) -> str:
    name = short_title(each.body)
    words = (("rises",), ("highest",), ("sets",))
    cells = [_first(each.moments, word, clock) for (word,) in words]
    dark = f"{each.highest:.0f}° at {clock.minute(each.highest_at):%H:%M}" if each.highest >= 0 else ""
    ends = [[clock.minute(tick / each.well.tick) for tick in span] for span in each.well]
    spans = ", ".join(f"{first:%H:%M}-{last:%H:%M}" for first, last in ends)
    return f"  {name:<10} {cells[0]:<7}{cells[1]:<9}{cells[2]:<7}{dark or 'not up':<19}{spans or '-'}".rstrip()


def _first(moments: Sequence[Moment], word: str, clock: Clock) -> str:
    """The first moment with a word in its name, to the minute, or a dash."""
    found = [each for each in moments if each.name.endswith(word)]
    return f"{clock.minute(found[0].seconds):%H:%M}" if found else "-"

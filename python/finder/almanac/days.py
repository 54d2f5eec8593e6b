"""The Sun and the Moon by day, and planets by week, of a place: what an almanac's tables of days have in their
cells."""

from __future__ import annotations

import datetime
from collections import defaultdict
from collections.abc import Iterable, Sequence
from dataclasses import dataclass

import numpy as np

from ..reports.calendar import DAY
from ..seen.scales import Clock
from ..seen.vectors import Floats
from ..sky.bodies import rise_name, set_name, short_title
from ..sky.moments import Moment
from .entries import Almanac, LocalYear

# The columns of a day's Sun, by the names of its moments.
SUN = (
    "astronomical dawn",
    "nautical dawn",
    "civil dawn",
    "sunrise",
    "Sun transits",
    "sunset",
    "civil dusk",
    "nautical dusk",
    "astronomical dusk",
)
MOON = ("moonrise", "Moon transits", "moonset")
# What stands in a cell of a body that neither rises nor sets on a day.
UP, DOWN = "up", "down"
WEEK = 7


@dataclass(frozen=True)
class Day:
    """A day by a clock: the times in each cell by the name of the moment, the state of the Sun and the Moon where they
    neither rise nor set (`up`, `down`, or nothing), and the part of the Moon's disc that is lit in the evening."""

    date: datetime.date
    cells: dict[str, tuple[datetime.datetime, ...]]
    altitude: float
    sun_state: str
    moon_state: str
    lit: float

    def texts(self, name: str) -> str:
        """The times of a cell as `05:12`, or as `05:12 23:59` where there are two."""
        return " ".join(f"{time:%H:%M}" for time in self.cells.get(name, ()))


@dataclass(frozen=True)
class WeekRow:
    """A planet on one day of a week: its risings, transits and settings as texts, and `up` or `down` where it neither
    rises nor sets."""

    date: datetime.date
    body: str
    rises: str
    transits: str
    sets: str
    state: str


# The moments of each day by their names, each with its time by a clock.
Rows = dict[datetime.date, dict[str, list[tuple[datetime.datetime, Moment]]]]


def _by_day(moments: Iterable[Moment], clock: Clock) -> Rows:
    """The moments of each day."""
    made: Rows = defaultdict(lambda: defaultdict(list))
    every = list(moments)
    for moment, when in zip(every, clock.minutes([moment.seconds for moment in every])):
        for name in moment.name.split(" or "):
            made[when.date()][name].append((when, moment))
    return made


def days_of(found: Almanac, clock: Clock) -> list[Day]:
    """The days of an almanac of a place, by a clock."""
    local = found.local
    if local is None or not (local.sun or local.moon):
        return []
    sun, moon = _by_day(local.sun, clock), _by_day(local.moon, clock)
    dates = _dates(found, clock)
    noons = clock.all_seconds_of([datetime.datetime.combine(date, datetime.time(12)) for date in dates])
    states = {body: _states(local, body, dates, rows, noons) for body, rows in (("sun", sun), ("moon", moon))}
    lit = np.interp(noons + DAY / 4, local.lit_times, local.lit)
    made = []
    for number, date in enumerate(dates):
        rows = {**sun.get(date, {}), **moon.get(date, {})}
        cells = {name: tuple(when for when, _ in each) for name, each in rows.items()}
        high = [moment.altitude for _, moment in sun.get(date, {}).get("Sun transits", [])]
        altitude = high[0] if high else float("nan")
        made.append(Day(date, cells, altitude, states["sun"][number], states["moon"][number], float(lit[number])))
    return made


def _dates(found: Almanac, clock: Clock) -> list[datetime.date]:
    first, last = clock.at(found.start + 1).date(), clock.at(found.end - 1).date()
    return [first + datetime.timedelta(days=number) for number in range((last - first).days + 1)]


def _states(
    local: LocalYear, body: str, dates: Sequence[datetime.date], rows: Rows, noons: Floats
) -> list[str]:
    """For each day whether a body is up or down all day, where it neither rises nor sets; else nothing."""
    (sky,) = local.skies
    at = np.clip(noons, *sky.span)
    names = rise_name(body), set_name(body)
    still = [not any(rows.get(date, {}).get(name) for name in names) for date in dates]
    if not any(still):
        return [""] * len(dates)
    altitudes = sky.searches.altaz(body, at)[0]
    return [("", DOWN, UP)[is_still * (1 + bool(high > -1))] for is_still, high in zip(still, altitudes)]


def weeks_of(found: Almanac, clock: Clock) -> dict[str, list[WeekRow]]:
    """The rows of each planet, one for each seventh day of the span."""
    local = found.local
    if local is None:
        return {}
    dates = _dates(found, clock)[::WEEK]
    noons = clock.all_seconds_of([datetime.datetime.combine(date, datetime.time(12)) for date in dates])
    made = {}
    for body, moments in local.planets.items():
        # (a day's moments are within half a day of its noon, or an hour more where clocks change)
        near = np.abs(noons - moments.seconds[:, None]).min(axis=1) < DAY / 2 + 3_700
        rows = _by_day((moment for moment, is_near in zip(moments, near) if is_near), clock)
        states = _states(local, body, dates, rows, noons)
        made[body] = [_week_row(date, body, rows, state) for date, state in zip(dates, states)]
    return made


def _week_row(date: datetime.date, body: str, rows: Rows, state: str) -> WeekRow:
    names = rise_name(body), f"{short_title(body)} transits", set_name(body)
    cells = [" ".join(f"{when:%H:%M}" for when, _ in rows.get(date, {}).get(name, ())) for name in names]
    return WeekRow(date, body, cells[0], cells[1], cells[2], state)

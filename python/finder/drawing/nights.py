"""The nights of a year at a place as a drawing (SVG): along the year the days, and upward the hours from noon to noon.
It shows night and twilight, the Moon's light, and when each planet rises and sets."""

from __future__ import annotations

import datetime
import html
from collections.abc import Iterator
from dataclasses import dataclass

import numpy as np

from ..almanac.entries import LocalYear
from ..almanac.frame import Frame, path
from ..reports.calendar import DAY
from ..seen.scales import Clock
from ..seen.vectors import Floats
from ..sky.bodies import short_title

HEAD, FOOT = 26.0, 8.0
# The height of an hour, and the hours of a day from noon to noon.
HOUR, HOURS = 15.0, 24
# The altitudes of the Sun in degrees at which it is day, civil, nautical and astronomical twilight, and night, with the
# classes of their colours.
BANDS = ((-0.833, "dusk1"), (-6.0, "dusk2"), (-12.0, "dusk3"), (-18.0, "night"))
# The minutes between two places of the Sun and the Moon in a night; between them their altitudes go straight.
STEP = 20
# The altitudes in degrees from which the Moon is up, and below which the Sun leaves its light to be seen.
MOON_UP, MOON_DARK = -0.5, -6.0
PLANETS = ("mercury", "venus", "mars", "jupiter", "saturn")
# Lines of a planet's rising and setting are cut where they leap by more than these hours.
LEAP = 3.0


class NightDrawing:
    """The nights of an almanac of a place in a frame."""

    def __init__(self, local: LocalYear, clock: Clock, frame: Frame, heavens: Heavens) -> None:
        self._local = local
        self._clock = clock
        self._frame = frame
        inside = (heavens.noons >= frame.start - DAY / 2) & (heavens.noons < frame.end - DAY / 2)
        self._noons = heavens.noons[inside]
        places = np.flatnonzero(inside).tolist()
        self._dark = [[rows[place] for place in places] for rows in heavens.dark]
        self._moonlit = [heavens.moonlit[place] for place in places]

    @property
    def _tall(self) -> float:
        return HEAD + HOUR * HOURS + FOOT

    def _y(self, hour: float) -> float:
        return HEAD + HOUR * hour

    def svg(self, name: str) -> str:
        """The drawing, whose parts are named after it; nothing where no night is in the frame."""
        if not len(self._noons):
            return ""
        wide, tall = self._frame.wide, self._tall
        said = f'<title id="{name}-title">{html.escape(self._title())}</title>'
        said += f'<desc id="{name}-desc">{html.escape(self._said())}</desc>'
        parts = [said, *self._bands(), *self._moonlight(), *self._rules(), *self._planets(), *self._months()]
        return (
            f'<svg viewBox="0 0 {wide:.0f} {tall:.0f}" role="img" aria-labelledby="{name}-title {name}-desc" '
            f'font-size="{self._frame.letters:g}">{"".join(parts)}</svg>'
        )

    def _title(self) -> str:
        return f"The nights at {self._local.place}, from noon to noon in {self._clock.name}"

    def _said(self) -> str:
        """What the drawing shows, in sentences for those who do not see it."""
        dark = np.array([sum(last - first for first, last in row) for row in self._dark[-1]])
        longest, shortest = (int(each) for each in (dark.argmax(), dark.argmin()))
        days = [self._clock.at(float(self._noons[number])) for number in (longest, shortest)]
        shown = [f"{day.day} {day:%B}" for day in days]
        return (
            f"The darkness of astronomical night lasts {dark[longest]:.1f} hours at most, on {shown[0]}, and "
            f"{dark[shortest]:.1f} hours at least, on {shown[1]}. The lines of "
            f"{', '.join(map(short_title, self._shown()))} are their risings and settings, which stand in the tables of "
            "planets by week."
        )

    def _shown(self) -> list[str]:
        return [body for body in PLANETS if body in self._local.planets]

    def caption(self) -> str:
        """What the shades and lines mean."""
        keys = "".join(f'<span><i class="line p-{body}"></i>{short_title(body)}</span>' for body in self._shown())
        return (
            f"{keys}Up: from noon to noon. Blue: twilight, to 6, 12 and 18 degrees. Pale: the Moon is up at night. A "
            "line is a planet's setting, broken its rising."
        )

    def _width(self) -> float:
        return (self._frame.edge - self._frame.left) / max(1, round((self._frame.end - self._frame.start) / DAY)) + 0.3

    def _x(self, noon: float) -> float:
        return self._frame.x(noon - DAY / 2)

    def _bands(self) -> Iterator[str]:
        """Day, and upon it each darker band: the hours of each night in which the Sun is below an altitude."""
        frame = self._frame
        size = f'width="{frame.edge - frame.left:.1f}" height="{HOUR * HOURS:.1f}"'
        yield f'<rect x="{frame.left:.1f}" y="{HEAD:.1f}" {size} class="daylight"/>'
        for (_, css), rows in zip(BANDS, self._dark):
            pieces = [self._piece(number, *span) for number, row in enumerate(rows) for span in row]
            yield f'<path class="{css}" d="{"".join(pieces)}"/>'

    def _piece(self, number: int, first: float, last: float) -> str:
        """The box of a night between two hours after noon."""
        x, wide = self._x(float(self._noons[number])), self._width()
        top, bottom = self._y(first), self._y(last)
        return f"M{x:.1f} {top:.1f}h{wide:.1f}V{bottom:.1f}h-{wide:.1f}z"

    def _moonlight(self) -> Iterator[str]:
        """The hours of each night in which the Moon is up, the paler the more of it is lit."""
        lit = np.interp(self._noons + DAY / 2, self._local.lit_times, self._local.lit)
        shades: dict[int, list[str]] = {}
        for number, row in enumerate(self._moonlit):
            for span in row:
                shades.setdefault(round(10 * float(lit[number])), []).append(self._piece(number, *span))
        for shade, pieces in sorted(shades.items()):
            if shade:
                yield f'<path class="moonlight" opacity="{0.055 * shade:.2f}" d="{"".join(pieces)}"/>'

    def _rules(self) -> Iterator[str]:
        """The hours, with their numbers."""
        for hour in range(0, HOURS + 1, 3):
            y = self._y(hour)
            yield f'<path d="M{self._frame.left:.0f} {y:.1f}H{self._frame.edge:.0f}" class="rule"/>'
            yield f'<text x="{self._frame.left - 6:.0f}" y="{y + 4:.1f}" text-anchor="end">{(hour + 12) % 24}</text>'

    def _months(self) -> Iterator[str]:
        for when, left, right in self._frame.months(self._clock):
            yield f'<path d="M{left:.1f} {HEAD - 4:.0f}V{self._tall - FOOT:.1f}" class="rule"/>'
            if right - left > 3 * self._frame.letters:
                yield f'<text x="{(left + right) / 2:.1f}" y="17" text-anchor="middle" class="month">{when:%b}</text>'

    def _planets(self) -> Iterator[str]:
        """The lines of risings and settings of the planets that eyes see."""
        for body in self._shown():
            for word, css in (("rise", "rising"), ("set", "setting")):
                times = np.array([each.seconds for each in self._local.planets[body] if word in each.name])
                for line in self._lines(times[(times >= self._frame.start) & (times < self._frame.end)]):
                    yield f'<path class="planet p-{body} {css}" d="{line}"/>'

    def _lines(self, times: Floats) -> Iterator[str]:
        """The line through times of nights, cut at noons and where nights are left out."""
        points: list[tuple[float, float]] = []
        for time in times.tolist():
            number = int(np.searchsorted(self._noons, time, "right")) - 1
            if number < 0:
                continue
            hour = (time - float(self._noons[number])) / 3_600
            x = self._x(float(self._noons[number])) + self._width() / 2
            far = points and (abs(self._y(hour) - points[-1][1]) > LEAP * HOUR or x - points[-1][0] > 4 * self._width())
            if hour > HOURS or far:
                if len(points) > 1:
                    yield path(points)
                points = []
            if hour <= HOURS:
                points.append((x, self._y(hour)))
        if len(points) > 1:
            yield path(points)


# Hours after noon, the first and the last of each span.
Hours = list[tuple[float, float]]


def spans_below(values: Floats, limit: float) -> Hours:
    """The hours after noon between which values, one for each step, are below a limit; between two steps they go
    straight.

    >>> spans_below(np.array([1.0, 0.0, -1.0, -1.0, 1.0]), 0.0)
    [(0.3333333333333333, 1.1666666666666667)]
    """
    below = values < limit
    edges = np.flatnonzero(below[1:] != below[:-1])
    parts = (limit - values[edges]) / (values[edges + 1] - values[edges])
    hours: list[float] = ((edges + parts) * STEP / 60).tolist()
    if below[0]:
        hours.insert(0, 0.0)
    if below[-1]:
        hours.append((len(values) - 1) * STEP / 60)
    return list(zip(hours[::2], hours[1::2]))


@dataclass(frozen=True)
class Heavens:
    """The nights of a place, from the noons of a clock in seconds since J2000 (TDB) on: the hours after noon between
    which the Sun is below each altitude of `BANDS`, and those in which the Moon is up and its light is seen."""

    noons: Floats
    dark: tuple[list[Hours], ...]
    moonlit: list[Hours]


def heavens_of(local: LocalYear, clock: Clock, start: float, end: float) -> Heavens:
    """The altitudes of the nights that begin in a span of seconds since J2000 (TDB)."""
    (sky,) = local.skies
    first = clock.at(start + 1).date()
    dates = [first + datetime.timedelta(days=number) for number in range(round((end - start) / DAY))]
    made = clock.all_seconds_of([datetime.datetime.combine(date, datetime.time(12)) for date in dates])
    low, high = sky.span
    noons = made[(made >= low) & (made + DAY <= high)]
    hours = np.arange(HOURS * 60 // STEP + 1) * (STEP * 60.0)
    at = (noons[:, None] + hours).ravel()
    sun, moon = (sky.searches.altaz(body, at)[0].reshape(len(noons), len(hours)) for body in ("sun", "moon"))
    dark = tuple([spans_below(row, altitude) for row in sun] for altitude, _ in BANDS)
    # (both hold where the greater of what is wanted less what is there is below 0)
    moonlit = [spans_below(row, 0.0) for row in np.maximum(MOON_UP - moon, sun - MOON_DARK)]
    return Heavens(noons, dark, moonlit)

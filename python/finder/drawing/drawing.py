"""An almanac as a drawing along a line of time (SVG): phases, the Moon's distance, eclipses, the seasons, each planet's
way from the Sun with what happens on it, and the meetings of planets."""

from __future__ import annotations

import html
from collections.abc import Callable, Iterator
from typing import Optional

import numpy as np

from .. import spans
from ..almanac.entries import Almanac, Entry, Event, Group, Side
from ..almanac.frame import MARK, MARKS, Frame, Label, Lane, day_text, labels, path, placed, tip
from ..almanac.names import INNER
from ..seen.scales import Clock
from ..seen.vectors import Floats

HEAD, FOOT = 26.0, 6.0
# The Moon's distance in km at the lower and the upper edge of its lane: none of 5,000 years is outside.
NEAREST, FARTHEST = 356_000.0, 407_000.0
# Degrees from the Sun at the edges of an inner planet's lane, and of another's.
INNER_MOST, OUTER_MOST = 50.0, 180.0
# Meetings closer than this many degrees are drawn thick, and named if there is space.
CLOSE = 1.0
# The least seconds between two phases of the Moon, and the width of one with the space about it.
BETWEEN_PHASES, PHASE_WIDTH = 6.5 * spans.DAY, 14.0
MOST_ROWS, MEETING_ROWS = 6, 2
DARK = '<circle r="6" fill="var(--dark)" stroke="var(--soft)" stroke-width=".8"/>'
LIT = DARK.replace("--dark", "--lit")
PHASES = {
    Event.NEW_MOON: DARK,
    Event.FIRST_QUARTER: DARK + '<path d="M0-5.6a5.6 5.6 0 0 1 0 11.2z" fill="var(--lit)"/>',
    Event.FULL_MOON: LIT,
    Event.LAST_QUARTER: DARK + '<path d="M0-5.6a5.6 5.6 0 0 0 0 11.2z" fill="var(--lit)"/>',
}
# What is said of a drawing to those who do not see it.
SAID = (Event.SOLAR_ECLIPSE, Event.LUNAR_ECLIPSE, Event.TRANSIT, Event.OPPOSITION, Event.GREATEST_ELONGATION)
ECLIPSES = {Event.SOLAR_ECLIPSE: "Solar, ", Event.LUNAR_ECLIPSE: "Lunar, ", Event.TRANSIT: "Transit of "}


class Drawing:
    """The lanes of an almanac in a frame."""

    def __init__(self, found: Almanac, clock: Clock, frame: Frame) -> None:
        self._found = found
        self._clock = clock
        self._frame = frame
        self._row = frame.letters + 5
        self._entries = [entry for entry in found.entries if frame.has(entry.seconds)]
        self._lanes: list[tuple[Lane, Callable[[Lane], Iterator[str]]]] = []
        self._height = HEAD
        self._lay_out()

    def _add(self, name: str, tall: float, draw: Callable[[Lane], Iterator[str]]) -> None:
        self._lanes.append((Lane(name, self._height, tall), draw))
        self._height += tall

    def _lay_out(self) -> None:
        """The lanes of the groups that were looked for."""
        groups = self._found.groups
        if Group.MOON in groups:
            self._add("Moon", 28, self._phases)
            self._add("Distance", 40, self._distance)
        for group, name in ((Group.ECLIPSES, "Eclipses"), (Group.SEASONS, "Earth")):
            if group in groups:
                rows = max((label.row + 1 for label in self._labels(self._of(group), MOST_ROWS) if label), default=1)
                self._add(name, max(28, 10 + rows * self._row), self._named)
        if Group.PLANETS in groups:
            for planet in self._found.bodies:
                self._add(planet.capitalize(), 46, self._planet)
        if Group.MEETINGS in groups:
            self._add("Meetings", 22 + MEETING_ROWS * self._row, self._meetings)

    def svg(self, name: str = "year") -> str:
        """The drawing, whose parts are named after it; nothing where no group has a lane."""
        if not self._lanes:
            return ""
        frame, height = self._frame, self._height + FOOT
        parts = [*self._stripes(), *self._months(height)]
        for lane, draw in self._lanes:
            parts.append(f'<text x="8" y="{lane.middle + 4:.1f}" class="lane">{lane.name}</text>')
            parts += draw(lane)
        said = f'<title id="{name}-title">{html.escape(f"{self._found.title} as a line of time")}</title>'
        said += f'<desc id="{name}-desc">{html.escape(self._said())}</desc>'
        return (
            f'<svg viewBox="0 0 {frame.wide:.0f} {height:.0f}" role="img" aria-labelledby="{name}-title {name}-desc" '
            f'font-size="{frame.letters:g}">{said}{"".join(parts)}</svg>'
        )

    def _said(self) -> str:
        """What the drawing shows, in sentences for those who do not see it."""
        lanes = ", ".join(lane.name for lane, _ in self._lanes)
        great = [each for each in self._entries if each.event in SAID]
        days = "; ".join(f"{each.name}, {day_text(each, self._clock)}" for each in great)
        return f"Rows of {lanes}, from left to right along the year. {days}. All of it stands in the tables below."

    def _of(self, group: Group) -> list[Entry]:
        return [entry for entry in self._entries if entry.group is group]

    def _stripes(self) -> Iterator[str]:
        for lane, _ in self._lanes[1::2]:
            yield f'<rect y="{lane.top:.1f}" width="{self._frame.wide:.0f}" height="{lane.tall:.1f}" class="stripe"/>'

    def _months(self, height: float) -> Iterator[str]:
        for when, left, right in self._frame.months(self._clock):
            yield f'<path d="M{left:.1f} {HEAD - 4:.0f}V{height - FOOT:.1f}" class="rule"/>'
            if right - left > 3 * self._frame.letters:
                yield f'<text x="{(left + right) / 2:.1f}" y="17" text-anchor="middle" class="month">{when:%b}</text>'

    def _phases(self, lane: Lane) -> Iterator[str]:
        space = self._frame.x(self._frame.start + BETWEEN_PHASES) - self._frame.left
        scale = min(1.0, space / PHASE_WIDTH)
        for entry in self._entries:
            if entry.event in PHASES:
                shape = f'{tip(entry, self._clock)}<g transform="scale({scale:.2g})">{PHASES[entry.event]}</g>'
                yield placed(self._frame.x(entry.seconds), lane.middle, shape)

    def _curve(self, values: Floats, y_of: Callable[[float], float], leap: float) -> Iterator[str]:
        """The lines of a curve in the frame, which is cut where it leaps by more than so much."""
        times = self._found.curves.times
        inside = np.flatnonzero((times >= self._frame.start - 1) & (times <= self._frame.end + 1))
        leaps = np.flatnonzero(abs(np.diff(values[inside])) > leap) + 1
        for run in np.split(inside, leaps):
            yield path((self._frame.x(times[place]), y_of(values[place])) for place in run)

    def _distance(self, lane: Lane) -> Iterator[str]:
        def y_of(km: float) -> float:
            return lane.top + 6 + (lane.tall - 12) * (FARTHEST - km) / (FARTHEST - NEAREST)

        for line in self._curve(self._found.curves.moon_km, y_of, FARTHEST):
            yield f'<path d="{line}" class="curve c-moon"/>'
        for entry in self._entries:
            if entry.event in (Event.PERIGEE, Event.APOGEE) and entry.numbers.distance_km is not None:
                dot = f'{tip(entry, self._clock)}<circle r="2.6" fill="var(--moon)"/>'
                yield placed(self._frame.x(entry.seconds), y_of(entry.numbers.distance_km), dot)

    def _short(self, entry: Entry) -> str:
        """What a label says of an entry."""
        name = entry.name
        if entry.group is Group.MEETINGS:
            name = "–".join(body.capitalize() for body in entry.bodies)
        elif entry.event in ECLIPSES:
            kind = entry.numbers.kind
            name = ECLIPSES[entry.event] + (kind.value if kind else entry.bodies[0].capitalize())
        elif entry.event in (Event.PERIHELION, Event.APHELION):
            name = entry.event.value.capitalize()
        return f"{name} {day_text(entry, self._clock)}"

    def _labels(self, entries: list[Entry], most: int) -> list[Optional[Label]]:
        return labels(self._frame, [(self._frame.x(each.seconds), self._short(each)) for each in entries], most)

    def _text(self, entry: Entry, label: Label, y: float) -> str:
        x, anchor = self._frame.x(entry.seconds), "end" if label.at_left else "start"
        x += -MARK if label.at_left else MARK
        return f'<text x="{x:.1f}" y="{y:.1f}" text-anchor="{anchor}">{html.escape(self._short(entry))}</text>'

    def _named(self, lane: Lane) -> Iterator[str]:
        """A dot for each entry of a group with its name beside it."""
        entries = self._of(Group.ECLIPSES if lane.name == "Eclipses" else Group.SEASONS)
        made = self._labels(entries, MOST_ROWS)
        rows = max((label.row + 1 for label in made if label), default=1)
        for entry, label in zip(entries, made):
            y = lane.middle + self._row * ((label.row if label else 0) - (rows - 1) / 2)
            dot = f'{tip(entry, self._clock)}<circle r="3.8" fill="var(--{entry.group.value})"/>'
            yield placed(self._frame.x(entry.seconds), y, dot)
            if label:
                yield self._text(entry, label, y + 0.36 * self._frame.letters)

    def _planet(self, lane: Lane) -> Iterator[str]:
        """A planet's longitude from the Sun: above the middle in the evening, below it in the morning."""
        body = lane.name.lower()
        most = INNER_MOST if body in INNER else OUTER_MOST
        half = lane.tall / 2 - 5

        def y_of(degrees: float) -> float:
            return lane.middle - half * max(-1.0, min(1.0, degrees / most))

        entries = [entry for entry in self._of(Group.PLANETS) if entry.bodies == (body,)]
        yield from self._retrograde(lane, body)
        yield f'<path d="M{self._frame.left:.0f} {lane.middle:.1f}H{self._frame.edge:.0f}" class="sun"/>'
        for line in self._curve(self._found.curves.from_sun_deg[body], y_of, OUTER_MOST):
            yield f'<path d="{line}" class="curve c-planets"/>'
        for entry in entries:
            if entry.event in MARKS:
                mark = tip(entry, self._clock) + MARKS[entry.event]
                yield placed(self._frame.x(entry.seconds), y_of(_degrees_of(entry)), f'<g class="c-planets">{mark}</g>')

    def _retrograde(self, lane: Lane, body: str) -> Iterator[str]:
        """The times from a station at which a planet turns retrograde to the one at which it turns direct."""
        start = self._found.start if body in self._found.curves.retrograde_at_start else None
        for entry in self._found.of(Event.TURNS_DIRECT, Event.TURNS_RETROGRADE):
            if entry.bodies == (body,) and entry.event is Event.TURNS_RETROGRADE:
                start = entry.seconds
            elif entry.bodies == (body,) and start is not None:
                yield self._band(lane, start, entry.seconds)
                start = None
        if start is not None:
            yield self._band(lane, start, self._found.end)

    def _band(self, lane: Lane, start: float, end: float) -> str:
        left, right = (self._frame.x(min(max(time, self._frame.start), self._frame.end)) for time in (start, end))
        if right <= left:
            return ""
        size = f'width="{right - left:.1f}" height="{lane.tall - 4:.1f}"'
        return f'<rect x="{left:.1f}" y="{lane.top + 2:.1f}" {size} class="back"/>'

    def _meetings(self, lane: Lane) -> Iterator[str]:
        entries = self._of(Group.MEETINGS)
        close = [each for each in entries if (each.numbers.separation_deg or CLOSE) < CLOSE]
        for entry in entries:
            shape = f'{tip(entry, self._clock)}<path d="M0 4V16" class="{"close" if entry in close else "wide"}"/>'
            yield placed(self._frame.x(entry.seconds), lane.top, shape)
        for entry, label in zip(close, self._labels(close, MEETING_ROWS)):
            if label:
                yield self._text(entry, label, lane.top + 16 + (label.row + 0.9) * self._row)


def _degrees_of(entry: Entry) -> float:
    """Where a planet is from the Sun at an event, in degrees, above 0 to the east."""
    if entry.event is Event.OPPOSITION:
        return OUTER_MOST
    if entry.numbers.side is None or entry.numbers.elongation_deg is None:
        return 0.0
    return entry.numbers.elongation_deg * (1 if entry.numbers.side is Side.EAST else -1)

"""Where a drawing of an almanac puts times and labels, and its marks. Lengths are those of an SVG's view box."""

from __future__ import annotations

import datetime
import html
from collections.abc import Iterable, Sequence
from dataclasses import dataclass
from typing import Optional

from ..seen.scales import Clock
from .entries import Entry, Event

# The width of a letter of a label, in parts of its height, and the space between two labels.
LETTER, GAP = 0.56, 6.0
MARK = 8.0
MARKS = {
    Event.OPPOSITION: '<circle r="4.6" fill="var(--c)"/>',
    Event.CONJUNCTION: '<circle r="4.2" fill="var(--card)" stroke="var(--c)" stroke-width="1.8"/>',
    Event.GREATEST_ELONGATION: '<path d="M0-5.6 5.6 0 0 5.6-5.6 0z" fill="var(--c)"/>',
    Event.TURNS_DIRECT: '<path d="M-4.4-4.6 4.8 0-4.4 4.6z" fill="var(--c)"/>',
    Event.TURNS_RETROGRADE: '<path d="M4.4-4.6-4.8 0 4.4 4.6z" fill="var(--c)"/>',
}
MARKS[Event.INFERIOR_CONJUNCTION] = MARKS[Event.SUPERIOR_CONJUNCTION] = MARKS[Event.CONJUNCTION]


@dataclass(frozen=True)
class Frame:
    """A span of seconds of TDB since J2000 on a width, with space at the left for names, and the height of letters."""

    start: float
    end: float
    wide: float
    left: float
    right: float
    letters: float

    def has(self, seconds: float) -> bool:
        """Whether a time is in it."""
        return self.start <= seconds < self.end

    def x(self, seconds: float) -> float:
        """Where a time is."""
        part = (seconds - self.start) / (self.end - self.start)
        return self.left + (self.wide - self.left - self.right) * part

    @property
    def edge(self) -> float:
        """Where the times end at the right."""
        return self.wide - self.right

    def months(self, clock: Clock) -> list[tuple[datetime.datetime, float, float]]:
        """Each month's first day, and where it starts and ends."""
        first = clock.at(self.start + 1)
        made: list[tuple[datetime.datetime, float, float]] = []
        year, month = first.year, first.month
        start = clock.start_of(year, month)
        while start < self.end - 1:
            later = (year, month + 1) if month < 12 else (year + 1, 1)
            stop = clock.start_of(*later)
            left, right = (self.x(min(max(time, self.start), self.end)) for time in (start, stop))
            made.append((datetime.datetime(year, month, 1), left, right))
            (year, month), start = later, stop
        return made


@dataclass(frozen=True)
class Lane:
    """A row of a drawing."""

    name: str
    top: float
    tall: float

    @property
    def middle(self) -> float:
        """Its middle line."""
        return self.top + self.tall / 2


@dataclass(frozen=True)
class Label:
    """A text beside a mark: its row, and whether it stands at the mark's left."""

    row: int
    at_left: bool


def labels(frame: Frame, texts: Sequence[tuple[float, str]], most: int) -> list[Optional[Label]]:
    """A row for each text beside a mark at its place, so that none covers another: None if no row has space."""
    taken: list[list[tuple[float, float]]] = [[] for _ in range(most)]
    made: list[Optional[Label]] = []
    for place, text in texts:
        length = MARK + len(text) * LETTER * frame.letters
        at_left = place + length > frame.wide
        low, high = (place - length, place + MARK / 2) if at_left else (place - MARK / 2, place + length)
        free = (
            row for row, spans in enumerate(taken) if all(high + GAP < one or low > other + GAP for one, other in spans)
        )
        row = next(free, None)
        if row is not None:
            taken[row].append((low, high))
        made.append(None if row is None else Label(row, at_left))
    return made


def tip(entry: Entry, clock: Clock) -> str:
    """What a mark says of its entry."""
    when = clock.minute(entry.seconds)
    said = f"{entry.name}, {when.day} {when:%b %H:%M}" + (f", {entry.text}" if entry.text else "")
    return f"<title>{html.escape(said)}</title>"


def placed(x: float, y: float, inside: str) -> str:
    """A shape that is moved to a place."""
    return f'<g transform="translate({x:.1f} {y:.1f})">{inside}</g>'


def path(points: Iterable[tuple[float, float]]) -> str:
    """The line through points."""
    return "M" + "L".join(f"{x:.1f} {y:.1f}" for x, y in points)


def day_text(entry: Entry, clock: Clock) -> str:
    """The day of an entry, as `17 Feb`."""
    when = clock.minute(entry.seconds)
    return f"{when.day} {when:%b}"

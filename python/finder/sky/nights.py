"""The nights of a month, and what of a set of times lies in each."""

from __future__ import annotations

import datetime
import re
from collections.abc import Iterator, Sequence
from dataclasses import dataclass
from typing import Any

import numpy as np

from ..public import public
from ..reports.sets import Spans, TimeSet
from ..seen.scales import Clock
from .moments import ClockLike

MONTH = re.compile(r"(?P<year>-?[0-9]{1,5})-(?P<month>[0-9]{2})")


@public
@dataclass(frozen=True)
class Night:
    """A night, from the local mean noon of `date` to the next one, and the spans of a set in it: the `sure` ones, in
    each of which all times are in the set, and the `possible` ones, outside of which none is.

    >>> import finder
    >>> eph = finder.Ephemeris.open("examples/de405-2000.asc")
    >>> sky = eph.sky("51.4769 N 0 E 46 m", "2000-01-20", "2000-01-23")
    >>> night = sky.nights(sky.dark())[1]
    >>> print(night.date, night.sure)
    2000-01-20 <Spans: 2000-01-20T18:27:30 2000-01-21T05:56:08>
    """

    date: datetime.date
    sure: Spans
    possible: Spans

    @property
    def total(self) -> datetime.timedelta:
        """How long the sure times of the night last."""
        return self.sure.total()


@public
class Nights(Sequence[Night]):
    """The nights of a span in order, with times by a clock.

    >>> import finder
    >>> eph = finder.Ephemeris.open("examples/de405-2000.asc")
    >>> sky = eph.sky("51.4769 N 0 E 46 m", "2000-01-20", "2000-01-23")
    >>> len(sky.nights(sky.dark()))
    4
    """

    def __init__(self, nights: Sequence[Night], clock: Clock) -> None:
        self._nights = tuple(nights)
        self.clock = clock

    def __len__(self) -> int:
        return len(self._nights)

    def __iter__(self) -> Iterator[Night]:
        return iter(self._nights)

    def __getitem__(self, place: Any) -> Any:
        """A night, or those of a slice."""
        return Nights(self._nights[place], self.clock) if isinstance(place, slice) else self._nights[place]

    def __repr__(self) -> str:
        return f"<Nights: {len(self)}, of which {sum(len(night.sure) > 0 for night in self)} have sure times>"

    def __str__(self) -> str:
        return self.text()

    def text(self) -> str:
        """A line for each night: its date, how long its sure times last, and each sure span by the clock."""
        lines = [f"Nights, times in {self.clock.name}"]
        for night in self:
            shown = "  ".join(f"{self._minute(first)}-{self._minute(last)}" for first, last in _seconds(night.sure))
            lines.append(f"{night.date:%Y-%m-%d %a}  {_hours(night.total)}  {shown or '-'}")
        return "\n".join(lines)

    def _minute(self, seconds: float) -> str:
        return f"{self.clock.minute(seconds):%H:%M}"

    def to_pandas(self) -> Any:
        """A `DataFrame` of pandas with a row for each sure span: the date of the night, its first and last time by the
        clock, and how long it lasts. A night without one has a row with the length 0."""
        import pandas

        rows: list[tuple[Any, ...]] = []
        for night in self:
            if not len(night.sure):
                rows.append((night.date, None, None, datetime.timedelta()))
            for first, last in _seconds(night.sure):
                length = datetime.timedelta(seconds=last - first)
                rows.append((night.date, self.clock.at(first), self.clock.at(last), length))
        return pandas.DataFrame(rows, columns=["night", "first", "last", "length"])


def _hours(length: datetime.timedelta) -> str:
    minutes = round(length.total_seconds() / 60)
    return f"{minutes // 60:2d}h{minutes % 60:02d}m"


def _seconds(rows: Spans) -> list[tuple[float, float]]:
    """The ends of spans in seconds since J2000 (TDB)."""
    return [(first / rows.tick, last / rows.tick) for first, last in rows]


def month_span(month: str, clock: Clock) -> tuple[float, float]:
    """The seconds since J2000 (TDB) at which a month begins and ends by a clock: `2000-07`."""
    found = MONTH.fullmatch(month)
    if not found or not 1 <= int(found["month"]) <= 12:
        raise ValueError(f"no month: {month!r}; write it as 2000-07")
    year, number = int(found["year"]), int(found["month"])
    later = (year, number + 1) if number < 12 else (year + 1, 1)
    return clock.start_of(year, number), clock.start_of(*later)


def nights_of(times: TimeSet, longitude: float, start: float, end: float, clock: ClockLike = "utc") -> Nights:
    """The nights whose evenings are in a span of seconds since J2000 (TDB), with what of a set lies in each.

    A night goes from the mean noon of the longitude, in degrees east, to the next one. A span of the set that reaches
    over a noon is cut there. A `ValueError` says that the set is of another span."""
    made_clock = Clock.of(clock)
    # (noon of the mean Sun, by the clock of the longitude: 12 h less the longitude in UTC, and UTC for UT)
    local = Clock.of(datetime.timezone(datetime.timedelta(hours=longitude / 15)))
    day = local.at(start).date()
    nights: list[Night] = []
    last_day = local.at(end - 1).date()
    while day <= last_day:
        noon, next_noon = (_noon(local, each) for each in (day, day + datetime.timedelta(days=1)))
        low, high = (int(np.ceil(noon * times.tick)), int(np.floor(next_noon * times.tick)))
        if high > times.start and low < times.end:
            nights.append(Night(day, _cut(times.sure, low, high), _cut(times.possible, low, high)))
        day += datetime.timedelta(days=1)
    if not nights:
        raise ValueError(f"the set is of {times.span}, in which no night of the span lies")
    return Nights(nights, made_clock)


def _noon(local: Clock, day: datetime.date) -> float:
    return local.seconds_of(datetime.datetime(day.year, day.month, day.day, 12))


def _cut(rows: Spans, low: int, high: int) -> Spans:
    """The parts of spans between two ticks."""
    inside = (rows.last > low) & (rows.first < high)
    return Spans(rows.tick, np.maximum(rows.first[inside], low), np.minimum(rows.last[inside], high))


def night_of(seconds: float, longitude: float) -> tuple[datetime.date, float, float]:
    """The night that a time is in: the date of its evening, and its noons in seconds since J2000 (TDB)."""
    local = Clock.of(datetime.timezone(datetime.timedelta(hours=longitude / 15)))
    moment = local.at(seconds)
    day = moment.date() if moment.hour >= 12 else moment.date() - datetime.timedelta(days=1)
    return day, _noon(local, day), _noon(local, day + datetime.timedelta(days=1))


__all__ = ["Night", "Nights", "month_span", "night_of", "nights_of"]

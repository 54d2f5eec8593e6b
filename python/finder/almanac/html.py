"""An almanac as a page (HTML) that stands alone: it loads nothing, and runs no script."""

from __future__ import annotations

import datetime
from collections.abc import Iterator, Sequence
from dataclasses import dataclass
from itertools import groupby
from typing import Any

from ..drawing.drawing import Drawing
from ..drawing.nights import NightDrawing, heavens_of
from ..reports.calendar import DAY
from ..seen.scales import Clock
from ..sky.bodies import short_title
from .days import MOON, SUN, Day, days_of, weeks_of
from .entries import Almanac, Contact, Entry, Event, Group, Status
from .frame import MARKS, Frame, day_text
from .notes import COMPUTED, PROVED, contact_text, notes, sums_of, warning, window_text
from .packages import jinja2_package
from .style import style
from .tables import month_of, month_title, shown_times
from .template import PAGE

# What a year is remembered by.
GREAT = (
    Event.SOLAR_ECLIPSE,
    Event.LUNAR_ECLIPSE,
    Event.TRANSIT,
    Event.OPPOSITION,
    Event.MARCH_EQUINOX,
    Event.JUNE_SOLSTICE,
    Event.SEPTEMBER_EQUINOX,
    Event.DECEMBER_SOLSTICE,
)
KEY = (
    (Event.OPPOSITION, "opposition"),
    (Event.CONJUNCTION, "conjunction with the Sun"),
    (Event.GREATEST_ELONGATION, "greatest elongation"),
    (Event.TURNS_RETROGRADE, "turns retrograde"),
    (Event.TURNS_DIRECT, "turns direct"),
)
LINE = (
    "A planet's line is its longitude from the Sun: above the middle it is in the evening sky, below it in the morning "
    "sky. Shaded: it moves backward. "
)
THICK = "A thick meeting is closer than a degree."
# Drawings: widths, with space for names and at the right edge, and heights of letters.
WHOLE = (1_000.0, 80.0, 10.0, 11.0)
HALF = (360.0, 66.0, 6.0, 9.5)
# A drawing is of less than these days, and is cut in two for a phone where it is of more than those.
LONGEST, TWO_HALVES = 400 * DAY, 200 * DAY
POLICY = "default-src 'none'; style-src 'unsafe-inline'"
# The cells of a day, by the names of their moments, and which are left out on a phone.
SUN_CELLS = (*((name, "tw") for name in SUN[:3]), (SUN[3], ""), (SUN[4], "tw"))
EVENING_CELLS = ((SUN[5], ""), *((name, "tw") for name in SUN[6:]))


@dataclass(frozen=True)
class Period:
    """A year of an almanac, or all of it where it is no longer than one."""

    name: str
    start: float
    end: float


def periods(found: Almanac, clock: Clock) -> list[Period]:
    """The years of an almanac, by a clock."""
    if found.end - found.start < LONGEST:
        return [Period("", found.start, found.end)]
    made = []
    start, year = found.start, clock.at(found.start + 1).year
    while start < found.end - 1:
        end = min(clock.start_of(year + 1), found.end)
        made.append(Period(str(year), start, end))
        start, year = end, year + 1
    return made


def html_of(found: Almanac, clock: Clock) -> str:
    """The page: each year at a glance and as drawings, and tables for each month. It needs the package jinja2."""
    environment = jinja2_package().Environment(autoescape=True, trim_blocks=True, lstrip_blocks=True)
    clock = shown_times(found, clock)
    days = days_of(found, clock)
    return str(
        environment.from_string(PAGE).render(
            policy=POLICY,
            title=found.title,
            style=style(),
            lead=_lead(found, clock),
            years=[_year(found, period, clock, days) for period in periods(found, clock)],
            groups=found.groups,
            zone=_zone_name(clock),
            weeks=_weeks(found, clock),
            notes=list(_notes(found, clock)),
            files=[{"name": name, "sha256": digest} for name, digest in sums_of(found)],
        )
    )


def _lead(found: Almanac, clock: Clock) -> str:
    undecided = sum(entry.status is Status.UNDECIDED for entry in found.entries)
    but = f" Of {undecided} the window is undecided, and nothing is proved." if undecided else ""
    where = "the Earth's centre" if found.local is None else f"the Earth's centre, and from {found.local.place}"
    return (
        f"{len(found.entries)} events as they are seen from {where}, in {clock.name}, each with its numbers and with "
        f"the window of time that is proved to hold it in the text of what is seen.{but}"
    )


def _year(found: Almanac, period: Period, clock: Clock, days: Sequence[Day]) -> dict[str, Any]:
    entries = [entry for entry in found.entries if period.start <= entry.seconds < period.end]
    first, last = clock.at(period.start + 1).date(), clock.at(period.end - 1).date()
    rows = {month: list(each) for month, each in groupby(entries, key=lambda entry: month_of(entry, clock))}
    mine = [day for day in days if first <= day.date <= last]
    of_days = {month: list(each) for month, each in groupby(mine, key=lambda day: day.date.replace(day=1))}
    months = [
        {
            "title": month_title(month),
            "rows": list(_rows(rows.get(month, []), clock)),
            "days": _days(of_days.get(month, [])),
        }
        for month in sorted({*rows, *of_days})
    ]
    figures = [*_figure(found, period, clock), *_night_figure(found, period, clock, mine)]
    return {"name": period.name, "glance": list(_glance(entries, clock)), "figures": figures, "months": months}


def _glance(entries: list[Entry], clock: Clock) -> Iterator[dict[str, str]]:
    """The great events of a year."""
    for entry in entries:
        if entry.event in GREAT:
            when = clock.minute(entry.seconds)
            shown = f"{day_text(entry, clock)}, {when:%H:%M}"
            yield {"group": entry.group.value, "iso": when.isoformat(), "shown": shown, "name": entry.name}


def _figure(found: Almanac, period: Period, clock: Clock) -> Iterator[dict[str, str]]:
    """The drawing of a year, and of its halves for a phone."""
    whole = Drawing(found, clock, Frame(period.start, period.end, *WHOLE)).svg("year")
    if whole:
        halves = "".join(
            Drawing(found, clock, Frame(start, end, *HALF)).svg(f"half{number}")
            for number, (start, end) in enumerate(_halves(period))
        )
        yield {"whole": whole, "halves": halves, "caption": _caption(found)}


def _night_figure(found: Almanac, period: Period, clock: Clock, days: Sequence[Day]) -> Iterator[dict[str, str]]:
    """The drawing of the nights of a year at a place."""
    if found.local is None or not days:
        return
    heavens = heavens_of(found.local, clock, period.start, period.end)
    whole = NightDrawing(found.local, clock, Frame(period.start, period.end, *WHOLE), heavens)
    halves = "".join(
        NightDrawing(found.local, clock, Frame(start, end, *HALF), heavens).svg(f"nights{number}")
        for number, (start, end) in enumerate(_halves(period))
    )
    yield {"whole": whole.svg("nights"), "halves": halves, "caption": whole.caption()}


def _halves(period: Period) -> list[tuple[float, float]]:
    count = 2 if period.end - period.start > TWO_HALVES else 1
    part = (period.end - period.start) / count
    return [(period.start + part * number, period.start + part * (number + 1)) for number in range(count)]


def _caption(found: Almanac) -> str:
    """What the marks of a drawing mean."""
    marks = "".join(f"<span>{_key_mark(event)}{said}</span>" for event, said in KEY)
    said = f"{marks}{LINE}" if Group.PLANETS in found.groups else ""
    return said + (THICK if Group.MEETINGS in found.groups else "")


def _key_mark(event: Event) -> str:
    return f'<svg class="c-planets" viewBox="-7 -7 14 14" aria-hidden="true">{MARKS[event]}</svg>'


def _zone_name(clock: Clock) -> str:
    """The name of a clock where there is little space."""
    return clock.name.rpartition("/")[2].replace("_", " ")


def _rows(entries: Sequence[Entry], clock: Clock) -> Iterator[dict[str, Any]]:
    """The rows of a month: one for each entry, and one for each of its moments where it has several. Each has its
    day."""
    last: list[datetime.date] = []
    for entry in entries:
        several = len(entry.contacts) > 1
        css = f"{entry.group.value} several" if several else entry.group.value
        when = clock.minute(entry.seconds)
        warned = warning(entry.contacts)
        window = "" if several else _window(entry.contacts[0])
        yield _row(css, when, f"{when:%H:%M}", entry.name, entry.text, warned, window, last)
        for contact in entry.contacts if several else ():
            moment = clock.at(contact.seconds + 0.5)
            said = warning([contact])
            css = f"{entry.group.value} moment"
            yield _row(css, moment, f"{moment:%H:%M:%S}", contact_text(contact), "", said, _window(contact), last)


def _row(
    css: str,
    when: datetime.datetime,
    time: str,
    name: str,
    said: str,
    warned: str,
    window: str,
    last: list[datetime.date],
) -> dict[str, Any]:
    is_again = last == [when.date()]
    last[:] = [when.date()]
    iso = when.replace(microsecond=0).isoformat()
    day = {"day": when.day, "weekday": f"{when:%a}", "is_again": is_again, "iso": iso, "time": time}
    return {"css": css, **day, "name": name, "said": said, "warned": warned, "window": window}


def _window(contact: Contact) -> str:
    return window_text(contact).replace("T", " ").replace("/", " to ")


def _days(days: Sequence[Day]) -> list[dict[str, Any]]:
    """The rows of the Sun and the Moon by day."""
    made = []
    for day in days:
        altitude = "" if day.altitude != day.altitude else f"{day.altitude:.0f}°"
        cells = [_cell(day, name, css, day.sun_state) for name, css in SUN_CELLS]
        cells.append({"text": altitude, "css": "tw"})
        cells += [_cell(day, name, css, day.sun_state) for name, css in EVENING_CELLS]
        cells += [_cell(day, name, "tw" if name == MOON[1] else "moon", day.moon_state) for name in MOON]
        cells.append({"text": f"{100 * day.lit:.0f}%", "css": ""})
        made.append(
            {"day": day.date.day, "weekday": f"{day.date:%a}", "is_sunday": day.date.weekday() == 6, "cells": cells}
        )
    return made


def _cell(day: Day, name: str, css: str, state: str) -> dict[str, str]:
    """A time, or that a body is up or down all day, or a dash."""
    is_crossing = name in (SUN[3], SUN[5], MOON[0], MOON[2])
    return {"text": state if state and is_crossing else day.texts(name) or "–", "css": css}


def _weeks(found: Almanac, clock: Clock) -> list[dict[str, Any]]:
    """The tables of the planets by week."""
    made = []
    for body, rows in weeks_of(found, clock).items():
        shown = [
            {
                "day": f"{row.date.day} {row.date:%b}",
                "rises": row.state or row.rises or "–",
                "transits": row.transits or "–",
                "sets": row.state or row.sets or "–",
            }
            for row in rows
        ]
        made.append({"name": short_title(body), "rows": shown})
    return made


def _notes(found: Almanac, clock: Clock) -> Iterator[dict[str, str]]:
    """The notes, of which the first words of what is proved and what is not are set apart."""
    for note in notes(found, clock):
        word = note.split()[0] if note in (PROVED, COMPUTED) else ""
        yield {"word": word, "rest": note[len(word) :]}

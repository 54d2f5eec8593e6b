"""An almanac as lines of text, as CSV and as JSON."""

from __future__ import annotations

import csv
import datetime
import io
import json
import textwrap
from collections.abc import Iterator
from dataclasses import asdict, fields
from enum import Enum
from itertools import groupby
from typing import Any, Optional

from .. import spans
from ..seen.scales import UTC, Clock, ReadyClock, Scale
from ..sky.bodies import short_title
from ..sky.moments import Moment
from .days import MOON, SUN, Day, WeekRow, days_of, weeks_of
from .entries import Almanac, Contact, Entry, Numbers
from .notes import contact_text, moment_text, notes, sums_of, warning, window_text

# The width of a paragraph of text.
WIDE = 120
INDENT = " " * 18
COLUMNS = ("group", "event", "name", "bodies", "contact", "status")
TIMES = ("certified_first_tdb", "certified_last_tdb", "turn")
PLACES = ("altitude_deg", "azimuth_deg", "is_up")
# The heads of the columns of a day's text, and their widths.
DAY_HEAD = "          dawn  dawn  dawn         transit           dusk  dusk  dusk   Moon  tran-  Moon"
DAY_HEAD_2 = "          18°   12°   6°    rise  at    alt.  set   6°    12°   18°    rise  sit    set   lit"


def month_of(entry: Entry, clock: Clock) -> datetime.date:
    """The first day of the month in which an entry is shown."""
    return clock.minute(entry.seconds).date().replace(day=1)


def month_title(month: datetime.date) -> str:
    """The name of a month, as `July 2031`."""
    return f"{month:%B} {month.year}"


def shown_times(found: Almanac, clock: Clock) -> Clock:
    """The clock, ready for the minutes of entries and the seconds of contacts."""
    seconds = [entry.seconds + 30 for entry in found.entries]
    return ReadyClock.of_times(clock, seconds + [each.seconds + 0.5 for entry in found.entries for each in entry.contacts])


def _exact_times(found: Almanac, clock: Clock) -> Clock:
    """The clock, ready for the milliseconds of entries and contacts, and of what stands in the tables of days and
    weeks."""
    seconds: list[float] = [entry.seconds for entry in found.entries]
    seconds += [contact.seconds for entry in found.entries for contact in entry.contacts]
    seconds += [moment.seconds for _, moment in _daily(found)]
    return ReadyClock.of_times(clock, [each + 5e-4 for each in seconds])


def text_of(found: Almanac, clock: Clock) -> str:
    """Lines for a terminal: by month what the place sees by day, if there is one, and the entries: day, time, event,
    numbers, and the certified window in TDB; then planets by week, and the notes."""
    clock = shown_times(found, clock)
    lines = [f"{found.title}, times in {clock.name}, certified windows in TDB", ""]
    months = {month: list(rows) for month, rows in groupby(found.entries, key=lambda entry: month_of(entry, clock))}
    of_days = groupby(days_of(found, clock), key=lambda day: day.date.replace(day=1))
    days = {month: list(rows) for month, rows in of_days}
    for month in sorted({*months, *days}):
        lines += [month_title(month), ""]
        if month in days:
            lines += [DAY_HEAD, DAY_HEAD_2, *map(_day_line, days[month]), ""]
        if month in months:
            lines += [*(line for entry in months[month] for line in _lines_of(entry, clock)), ""]
    lines += _week_lines(found, clock)
    for note in notes(found, clock):
        lines += textwrap.wrap(note, WIDE)
    return "\n".join([*lines, ""])


def _day_line(day: Day) -> str:
    cells = [day.texts(name)[:5] or "" for name in SUN]
    if day.sun_state:
        cells[3] = cells[5] = day.sun_state
    altitude = "" if day.altitude != day.altitude else f"{day.altitude:.0f}°"
    sun = [*cells[:5], altitude, *cells[5:]]
    moon = [day.texts(name)[:5] for name in MOON]
    if day.moon_state:
        moon[0] = moon[2] = day.moon_state
    shown = " ".join(f"{cell or '-':<5}" for cell in sun) + "  " + " ".join(f"{cell or '-':<6}" for cell in moon)
    return f"  {day.date:%d %a}  {shown} {100 * day.lit:3.0f}%".rstrip()


def _week_lines(found: Almanac, clock: Clock) -> Iterator[str]:
    """A table of each planet: rising, transit and setting on each seventh day."""
    rows = weeks_of(found, clock)
    if not rows:
        return
    yield from ("Planets by week: rising, transit, setting", "")
    bodies = list(rows)
    yield "          " + "  ".join(f"{short_title(body):<17}" for body in bodies).rstrip()
    for line in zip(*rows.values()):
        yield f"  {line[0].date:%d %b}  " + "  ".join(f"{_week_cell(row):<17}" for row in line).rstrip()
    yield ""


def _week_cell(row: WeekRow) -> str:
    if row.state:
        return f"{row.state:<5} {row.transits[:5] or '-':<5} {row.state:<5}"
    return " ".join(f"{cell[:5] or '-':<5}" for cell in (row.rises, row.transits, row.sets))


def _lines_of(entry: Entry, clock: Clock) -> Iterator[str]:
    alone = len(entry.contacts) == 1
    window = window_text(entry.contacts[0]) if alone else ""
    shown = clock.minute(entry.seconds).strftime("%d %a %H:%M")
    yield f"  {shown}  {entry.name:<36}  {entry.text:<49}  {window}".rstrip()
    warned = warning(entry.contacts)
    if warned:
        yield from textwrap.wrap(warned, WIDE, initial_indent=INDENT, subsequent_indent=INDENT)
    for contact in () if alone else entry.contacts:
        at = clock.at(contact.seconds + 0.5).strftime("%d %a %H:%M:%S")
        yield f"      {at}  {contact_text(contact):<79}  {window_text(contact)}".rstrip()


def csv_of(found: Almanac, clock: Clock) -> str:
    """A table with a row for each moment of each entry, as RFC 4180 has it; of a place also one for each rising,
    transit and setting, and each begin and end of a twilight. A number of the entry that has the name of one of its
    moment stands under `event_` and this name."""
    clock = _exact_times(found, clock)
    made = io.StringIO(newline="")
    writer = csv.writer(made)
    numbers = [f"event_{field.name}" if field.name in PLACES else field.name for field in fields(Numbers)]
    writer.writerow([*COLUMNS, *_time_names(clock), "seen_tdb_s", *TIMES, *PLACES, *numbers, "text", "request"])
    for entry in found.entries:
        for contact in entry.contacts:
            writer.writerow([*_row_of(entry, contact, clock), entry.text, contact.request])
    for group, moment in _daily(found):
        row = (*_moment_of(group, moment), *_times(moment.seconds, clock), *_window(moment), *_place(moment))
        writer.writerow([*row, *[""] * len(numbers), "", moment.request])
    return made.getvalue()


def _time_names(clock: Clock) -> list[str]:
    """The columns of times: of the scale, and of the zone where it is not UTC."""
    return [f"seen_{clock.scale.value}", *(["seen_local"] if _has_zone(clock) else [])]


def _has_zone(clock: Clock) -> bool:
    return clock.scale is Scale.UTC and clock.zone is not UTC


def _times(seconds: float, clock: Clock) -> list[str]:
    """The time in the scale, in UTC where that is it, and in the zone; and in seconds of TDB."""
    plain = clock.plain().iso(seconds)
    return [plain, *([clock.iso(seconds)] if _has_zone(clock) else []), f"{seconds:.3f}"]


def _daily(found: Almanac) -> Iterator[tuple[str, Moment]]:
    """The moments of the tables of days and weeks in the span, with their groups."""
    if found.local is None:
        return
    for group, moments in (("days", found.local.sun), ("days", found.local.moon)):
        yield from ((group, each) for each in moments if found.start <= each.seconds < found.end)
    for moments in found.local.planets.values():
        yield from (("weeks", each) for each in moments if found.start <= each.seconds < found.end)


def _moment_of(group: str, moment: Moment) -> Iterator[str]:
    yield from (group, moment.name, moment.name, moment.body, "", "certified" if moment.is_certain else "undecided")


def _window(moment: Moment) -> Iterator[str]:
    if moment.window is None:
        yield from ("", "", "")
    else:
        yield from (moment.window.text("first"), moment.window.text("last"), moment.window.turn or "")


def _place(moment: Moment) -> Iterator[str]:
    yield from (f"{moment.altitude:.3f}", "" if moment.azimuth != moment.azimuth else f"{moment.azimuth:.3f}")
    yield "yes" if moment.is_up else "no"


def _row_of(entry: Entry, contact: Contact, clock: Clock) -> Iterator[str]:
    yield from (entry.group.value, entry.event.value, entry.name, "+".join(entry.bodies), contact.name)
    yield contact.status.value
    yield from _times(contact.seconds, clock)
    if contact.window is None:
        yield from ("", "", "")
    else:
        first, last, turn = contact.window
        yield from (spans.time_text(first, contact.window.tick), spans.time_text(last, contact.window.tick), turn or "")
    yield from ("" if value is None else f"{value:.3f}" for value in (contact.altitude, contact.azimuth))
    yield {None: "", True: "yes", False: "no"}[contact.is_up]
    for value in _numbers_of(entry.numbers).values():
        yield "" if value is None else str(value)


def _numbers_of(numbers: Numbers) -> dict[str, Any]:
    """The numbers by their names, None if there is none."""
    return {name: value.value if isinstance(value, Enum) else value for name, value in asdict(numbers).items()}


def json_of(found: Almanac, clock: Clock) -> str:
    """One object: the entries with their moments, numbers and requests, and what they come from; of a place also its
    days and weeks."""
    clock = _exact_times(found, clock)
    whole: dict[str, Any] = {
        "title": found.title,
        "scale": clock.scale.value,
        "zone": clock.name,
        "notes": notes(found, clock),
        "files": [{"name": name, "sha256": digest} for name, digest in sums_of(found)],
        "searches": found.searches,
        "searched_tdb": [spans.time_text(seconds) for seconds in (found.first_searched, found.last_searched)],
        "groups": [group.value for group in found.groups],
        "events": [_object_of(entry, clock) for entry in found.entries],
    }
    if found.local is not None:
        place = found.local.place
        whole["place"] = {"latitude": place.latitude, "longitude": place.longitude, "metres": place.metres}
        whole["days"] = [_day_object(day) for day in days_of(found, clock)]
        whole["weeks"] = {body: [_week_object(row) for row in rows] for body, rows in weeks_of(found, clock).items()}
    return json.dumps(whole, ensure_ascii=False, allow_nan=False, indent=1) + "\n"


def _day_object(day: Day) -> dict[str, Any]:
    cells = {name: [time.isoformat() for time in day.cells[name]] for name in (*SUN, *MOON) if day.cells.get(name)}
    altitude = None if day.altitude != day.altitude else round(day.altitude, 2)
    return {
        "date": f"{day.date}",
        "times": cells,
        "altitude_deg": altitude,
        "sun": day.sun_state or None,
        "moon": day.moon_state or None,
        "lit": round(day.lit, 3),
    }


def _week_object(row: WeekRow) -> dict[str, Any]:
    return {
        "date": f"{row.date}",
        "rises": row.rises.split(),
        "transits": row.transits.split(),
        "sets": row.sets.split(),
        "state": row.state or None,
    }


def _object_of(entry: Entry, clock: Clock) -> dict[str, Any]:
    return {
        "group": entry.group.value,
        "event": entry.event.value,
        "name": entry.name,
        "bodies": entry.bodies,
        "status": entry.status.value,
        "seen": clock.iso(entry.seconds),
        "numbers": {name: value for name, value in _numbers_of(entry.numbers).items() if value is not None},
        "text": entry.text,
        "contacts": [_contact_of(contact, clock) for contact in entry.contacts],
    }


def _contact_of(contact: Contact, clock: Clock) -> dict[str, Any]:
    window: Optional[dict[str, Optional[str]]] = None
    if contact.window is not None:
        first, last, turn = contact.window
        ends = (spans.time_text(ticks, contact.window.tick) for ticks in (first, last))
        window = {**dict(zip(("first", "last"), ends)), "turn": turn}
    made: dict[str, Any] = {
        "name": contact.name,
        "meaning": moment_text(contact),
        "status": contact.status.value,
        "seen": {clock.scale.value: clock.plain().iso(contact.seconds), "tdb_s": round(contact.seconds, 3)},
        "certified_tdb": window,
        "searched": contact.text,
        "request": contact.request,
    }
    if contact.altitude is not None and contact.azimuth is not None:
        made["altitude_deg"], made["azimuth_deg"] = round(contact.altitude, 3), round(contact.azimuth, 3)
        made["is_up"] = contact.is_up
    return made

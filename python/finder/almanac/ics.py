"""An almanac as a calendar of RFC 5545, in UTC. The same almanac makes the same bytes, and an event keeps its UID."""

from __future__ import annotations

import hashlib
from collections.abc import Iterator
from datetime import datetime

from ..seen.scales import UTC, Clock, utc_of
from .entries import Almanac, Entry
from .notes import contact_text, said_of, window_text
from .packages import icalendar_package


def ics_of(found: Almanac, clock: Clock) -> str:
    """The calendar: an event lasts where it has several moments. Its times are UTC, whatever the clock. It needs the
    package icalendar."""
    package = icalendar_package()
    made = package.Calendar()
    made.add("version", "2.0")
    made.add("prodid", "-//finder//almanac//EN")
    made.add("calscale", "GREGORIAN")
    made.add("x-wr-calname", found.title)
    for entry in found.entries:
        made.add_component(_event_of(package, entry, found))
    return str(made.to_ical().decode())


def _event_of(package: object, entry: Entry, found: Almanac) -> object:
    made = package.Event()  # type: ignore[attr-defined]
    start, end = (_utc(entry.contacts[place].seconds) for place in (0, -1))
    made.add("uid", _uid(entry))
    # (no time of day, so that the same almanac makes the same bytes)
    made.add("dtstamp", _utc(found.start))
    made.add("dtstart", start)
    if start != end:
        made.add("dtend", end)
    made.add("summary", entry.name)
    made.add("description", "\n".join(_said(entry)))
    made.add("categories", [entry.group.title])
    made.add("transp", "TRANSPARENT")
    return made


def _said(entry: Entry) -> Iterator[str]:
    """The lines of a description: what is said, and of each moment its time and its window."""
    yield from filter(None, [said_of(entry)])
    several = len(entry.contacts) > 1
    for contact in entry.contacts:
        if several:
            yield f"{contact_text(contact)}: {_utc(contact.seconds):%Y-%m-%d %H:%M:%S} UTC"
        if contact.window is not None:
            of = f" of {contact.name}" if several else ""
            yield f"Certified window{of} (TDB): {window_text(contact)}"


def _uid(entry: Entry) -> str:
    """A name of the windows of an entry, of which no other entry has the same."""
    windows = [f"{each.request} {each.window.first} {each.window.last}" for each in entry.contacts if each.window]
    return f"{hashlib.sha256('|'.join(windows).encode()).hexdigest()[:32]}@finder"


def _utc(seconds: float) -> datetime:
    """The nearest second."""
    return utc_of(seconds + 0.5).replace(microsecond=0, tzinfo=UTC)

"""The command `finder almanac`: an almanac of years, as a text, a page, a table or a calendar."""

from __future__ import annotations

import argparse
import datetime
import re
import sys
from dataclasses import dataclass

from ..almanac.almanac import Machine, Wanted, almanac_of, groups_of, search_count
from ..almanac.entries import Group
from ..almanac.pages import Format, page
from ..process.program import runs_of
from ..seen.scales import FIRST_UTC_YEAR, UTC, Clock, Scale, zone_of
from ..sky.place import Place

GROUPS = ", ".join(group.value for group in Group)
DESCRIPTION = """\
Prints an almanac of a year, of a month or of several years: the phases, apsides and nodes of the Moon, the seasons,
eclipses of both sorts with their kinds and contacts, transits, oppositions, conjunctions, stations and greatest
elongations of the planets, meetings of planets, and of the Moon with them. With --place it has the Sun and the Moon by
day, planets by week, and eclipses and occultations as they are seen there.

Each entry has its time, its numbers, and the certified window in TDB, which is proved for the text of what is seen. How
far the text is from what is seen is measured; numbers are computed in doubles, and not proved."""
EXAMPLES = """\
examples:
  finder almanac 2000 examples/de405-2000.asc
  finder almanac 2026 header.405 ascp2020.405 --format html --tz Europe/Berlin >2026.html
  finder almanac 2031-07 de440.bsp --place 52.52,13.40 --tz Europe/Berlin
  finder almanac 2020-2029 header.405 ascp2020.405 --only eclipses,seasons --format ics >sky.ics

It needs erfa (Debian: python3-erfa; pip: pyerfa); --place needs astropy too, for its table of UT1, or --delta-t."""
LAST_YEAR = 9_998
MONTH = re.compile(r"(?P<year>[0-9]{1,4})-(?P<month>[0-9]{2})")
DATE = re.compile(r"(?P<year>[0-9]{1,4})-(?P<month>[0-9]{2})-(?P<day>[0-9]{2})")


@dataclass(frozen=True)
class Dates:
    """What an almanac is of: its first day, and the day after its last one, and how its title says so."""

    start: datetime.date
    end: datetime.date
    title: str


def add_words(command: argparse.ArgumentParser) -> None:
    """Adds what the command takes: years, files and options."""
    command.add_argument("years", type=_years, metavar="YEAR", help="a year, two as 2020-2029, or a month as 2031-07")
    command.add_argument("files", nargs="+", metavar="FILE", help="JPL's text, binary file or kernel (SPK)")
    forms = [form.value for form in Format]
    command.add_argument("--format", choices=forms, default="text", help="text if it is not given")
    command.add_argument("--only", type=_groups, metavar="GROUP,..", help=f"some of {GROUPS}")
    command.add_argument("--from", dest="first", type=date_of, metavar="DATE", help="the first day, in the years")
    command.add_argument("--to", dest="last", type=date_of, metavar="DATE", help="the last day, in the years")
    add_place_words(command)


def add_place_words(command: argparse.ArgumentParser) -> None:
    """Adds the options that an almanac and a night have both: the place, the clock, the bodies and the program."""
    scales = [scale.value for scale in Scale]
    command.add_argument("--place", type=_place, metavar="PLACE", help="52.52,13.40 or '52.52 N 13.40 E 34 m'")
    command.add_argument("--scale", choices=scales, help="of times: utc, or tt for a year before 1972")
    command.add_argument("--tz", type=_zone, metavar="ZONE", help="a time zone, as Europe/Berlin or +02:00")
    command.add_argument("--delta-t", type=float, metavar="SECONDS", help="TT less UT1, in place of the table of UT1")
    command.add_argument("--pluto", action="store_true", help="Pluto too; for a night also Uranus and Neptune")
    command.add_argument("--stars", action="store_true", help="Aldebaran, Regulus, Spica and Antares too")
    command.add_argument("--jobs", type=_count, default=1, metavar="N", help="searches at once: 1 if it is not given")
    command.add_argument("--program", metavar="FINDER", help="the command finder, else that of the package")


def _years(text: str) -> Dates:
    month = MONTH.fullmatch(text)
    if month and 1 <= int(month["month"]) <= 12:
        return _month(int(month["year"]), int(month["month"]))
    first, _, last = text.partition("-")
    try:
        low, high = int(first), int(last or first)
    except ValueError:
        raise argparse.ArgumentTypeError(
            f"{text!r} is no year: write 2026, 2020-2029 for several, or 2031-07 for a month"
        ) from None
    if not 1 <= low <= high <= LAST_YEAR:
        raise argparse.ArgumentTypeError(f"{text!r} are no years from 1 to {LAST_YEAR} in order, and no month: 2031-07")
    title = f"Almanac {low}" if low == high else f"Almanac {low} to {high}"
    return Dates(datetime.date(low, 1, 1), datetime.date(high + 1, 1, 1), title)


def _month(year: int, month: int) -> Dates:
    """The days of a month."""
    if not 1 <= year <= LAST_YEAR:
        raise argparse.ArgumentTypeError(f"{year} is no year from 1 to {LAST_YEAR}")
    start = datetime.date(year, month, 1)
    later = (year, month + 1) if month < 12 else (year + 1, 1)
    return Dates(start, datetime.date(*later, 1), f"Almanac {start:%B} {year}")


def date_of(text: str) -> datetime.date:
    """A day of a text; argparse's refusal says how it is written."""
    found = DATE.fullmatch(text)
    try:
        return datetime.date(*(int(found[name]) for name in ("year", "month", "day"))) if found else _no_date(text)
    except ValueError:
        return _no_date(text)


def _no_date(text: str) -> datetime.date:
    raise argparse.ArgumentTypeError(f"{text!r} is no day: write 2031-07-01")


def _place(text: str) -> Place:
    try:
        return Place.of(text)
    except ValueError as error:
        raise argparse.ArgumentTypeError(str(error)) from None


def _count(text: str) -> int:
    if not text.isascii() or not text.isdigit() or int(text) == 0:
        raise argparse.ArgumentTypeError(f"{text!r} is no number of searches: write 4")
    return int(text)


def _zone(text: str) -> datetime.tzinfo:
    try:
        return zone_of(text)
    except ValueError as error:
        raise argparse.ArgumentTypeError(str(error)) from None


def _groups(text: str) -> tuple[Group, ...]:
    try:
        return groups_of(text.split(","))
    except ValueError as error:
        raise argparse.ArgumentTypeError(str(error)) from None


def clock_of(words: argparse.Namespace, year: int) -> Clock:
    """The clock that is asked for; ends the program with status 2 if there is none."""
    scale = Scale(words.scale) if words.scale else Scale.UTC if year >= FIRST_UTC_YEAR else Scale.TT
    if words.tz and scale is not Scale.UTC:
        words.refuse(f"a time zone is of UTC, and the scale is {scale.value}: leave --tz out")
    if scale is Scale.UTC and year < FIRST_UTC_YEAR:
        words.refuse(f"UTC of whole seconds began in {FIRST_UTC_YEAR}: write --scale tt")
    return Clock(scale, words.tz or UTC)


def _days(words: argparse.Namespace) -> Dates:
    """The days that are asked for: those of the years, or a part of them."""
    whole: Dates = words.years
    start, last = words.first or whole.start, words.last or whole.end - datetime.timedelta(days=1)
    if not whole.start <= start <= last < whole.end:
        final = whole.end - datetime.timedelta(days=1)
        words.refuse(f"--from and --to are days in order from {whole.start} to {final}")
    if (start, last + datetime.timedelta(days=1)) == (whole.start, whole.end):
        return whole
    return Dates(start, last + datetime.timedelta(days=1), f"Almanac {start} to {last}")


class Meter:
    """How many of the searches are done, on standard error where that is a terminal."""

    def __init__(self, total: int) -> None:
        self._total = total
        self._done = 0
        self._on = sys.stderr.isatty()

    def update(self, count: int) -> None:
        """Says that some more are done; once all are, the line is cleared."""
        self._done += count
        if self._on:
            line = f"finder: {self._done} of {self._total} searches" if self._done < self._total else ""
            print(f"\r{line}\x1b[K", end="", file=sys.stderr, flush=True)

    def clear(self) -> None:
        """Clears the line of a search that failed."""
        if self._on and self._done < self._total:
            print("\r\x1b[K", end="", file=sys.stderr, flush=True)


def run(words: argparse.Namespace) -> str:
    """The almanac in the form that is asked for."""
    clock = clock_of(words, words.years.start.year)
    if words.format == Format.ICS.value and words.years.start.year < FIRST_UTC_YEAR:
        words.refuse(f"a calendar is of UTC, which began in {FIRST_UTC_YEAR}: choose another --format")
    days = _days(words)
    start, end = (clock.seconds_of(datetime.datetime.combine(day, datetime.time())) for day in (days.start, days.end))
    title = days.title if words.place is None else f"{days.title}, {words.place}"
    meter = Meter(search_count(words.only or tuple(Group), words.pluto, words.stars))
    try:
        machine = Machine(words.files, runs_of(words.program, None), words.jobs, meter.update)
        wanted = Wanted(title, start, end, words.only, words.place, words.delta_t, words.pluto, words.stars)
        return page(almanac_of(machine, wanted), words.format, clock)
    finally:
        meter.clear()

"""Times as reports have them: the Gregorian calendar of TDB, of ticks since J2000."""

from __future__ import annotations

import functools
import re
from typing import Optional

from ..public import public

DAY = 86_400
# The days from 1 March of year 0 to 1 January 2000, and those of 400 years.
DAYS_TO_2000 = 730_425
DAYS_OF_400_YEARS = 146_097
DATE = re.compile(r"([0-9]{4}|-[0-9]{6})-([0-9]{2})-([0-9]{2})")
TIME = re.compile(r"([0-9-]+)T([01][0-9]|2[0-3]):([0-5][0-9]):([0-5][0-9])(?:\.([0-9]{3}))?")


@public
class WrongReport(ValueError):
    """A text that is no whole report of `finder`; `line_number` is that of the line that is not right, if one is known.

    >>> import finder
    >>> try:
    ...     finder.Windows.of_text("no report")
    ... except finder.WrongReport as error:
    ...     print(error)
    the last line is cut off
    """

    line_number: Optional[int] = None


def days_of(year: int, month: int, day: int) -> int:
    """The days from 2000-01-01 to a day of the Gregorian calendar."""
    year -= month <= 2
    months = (month + 9) % 12
    leap = year // 4 - year // 100 + year // 400
    return year * 365 + leap + (153 * months + 2) // 5 + day - 1 - DAYS_TO_2000


def calendar_of(days: int) -> tuple[int, int, int]:
    """The day of the Gregorian calendar so many days after 2000-01-01."""
    era, rest = divmod(days + DAYS_TO_2000, DAYS_OF_400_YEARS)
    year = (rest - rest // 1_460 + rest // 36_524 - rest // 146_096) // 365
    rest -= 365 * year + year // 4 - year // 100
    months = (5 * rest + 2) // 153
    month = months + 3 if months < 10 else months - 9
    return year + 400 * era + (month <= 2), month, rest - (153 * months + 2) // 5 + 1


def date_text(days: int) -> str:
    """The day as the command prints it that is so many days after 2000-01-01."""
    year, month, day = calendar_of(days)
    shown = f"{year:04}" if year >= 0 else f"-{-year:06}"
    return f"{shown}-{month:02}-{day:02}"


def time_text(ticks: int, tick: int = 1) -> str:
    """A time as the command prints it, of its ticks since J2000, of which `tick` are in a second."""
    seconds, part = divmod(ticks, tick)
    days, second = divmod(seconds + DAY // 2, DAY)
    milliseconds = f".{part:03}" if tick == 1_000 else ""
    return f"{date_text(days)}T{second // 3_600:02}:{second // 60 % 60:02}:{second % 60:02}{milliseconds}"


@functools.lru_cache(maxsize=4_096)
def _midnight_of(date: str) -> Optional[int]:
    """The seconds since J2000 at which a day begins, or None for what the command prints of no day."""
    found = DATE.fullmatch(date)
    days = days_of(*map(int, found.groups())) if found else 0
    return days * DAY - DAY // 2 if found and date_text(days) == date else None


def ticks_of(text: str, tick: int = 1) -> int:
    """The ticks since J2000 of a time as the command prints it."""
    found = TIME.fullmatch(text)
    midnight = _midnight_of(found[1]) if found else None
    if found is None or midnight is None or (found[5] is None) == (tick == 1_000):
        raise WrongReport(f"no time of a report: {text}")
    seconds = midnight + int(found[2]) * 3_600 + int(found[3]) * 60 + int(found[4])
    return seconds * tick + int(found[5] or 0)

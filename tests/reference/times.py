"""Times as words: TDB in the Gregorian calendar, or whole seconds since J2000.

    >>> time_text(0)
    '2000-01-01T12:00:00'
    >>> read_time(b"2000-01-16T23:59:59.750", 1000)
    1339199750
"""

from __future__ import annotations

import re
from enum import Enum
from typing import Optional, Union

FIRST_SECOND, LAST_SECOND = -211_813_488_000, 220_186_512_000
"""Julian dates 0 and 5,000,000."""
DAY = 86_400
NOON = 43_200
"""The time of day of second 0."""

_WHOLE = re.compile(rb"-?[0-9]{1,12}")
_CALENDAR = re.compile(
    rb"([0-9]{4}|-[0-9]{6})-([0-9]{2})-([0-9]{2})T([0-9]{2}):([0-9]{2}):([0-9]{2})(?:\.([0-9]{3}))?"
)


class TimeFault(Enum):
    """Why a word is no time: it has no form of times or names no date, or it is past the Julian dates that are read."""

    NOT_TIME = "NotTime"
    OUT_OF_RANGE = "OutOfRange"


def is_leap_year(year: int) -> bool:
    """Whether a Gregorian year, 0 and those below it too, has a 29th of February."""
    return year % 4 == 0 and (year % 100 != 0 or year % 400 == 0)


def days_before_year(year: int) -> int:
    """The days from 2000-01-01 to the first day of a year."""
    whole = year - 1
    return 365 * (year - 2000) + (whole // 4 - whole // 100 + whole // 400) - (1999 // 4 - 1999 // 100 + 1999 // 400)


def month_lengths(year: int) -> list[int]:
    """The days of the twelve months."""
    return [31, 29 if is_leap_year(year) else 28, 31, 30, 31, 30, 31, 31, 30, 31, 30, 31]


def day_number(year: int, month: int, day: int) -> Optional[int]:
    """The days from 2000-01-01 to a date, or None if there is no such date."""
    if not (1 <= month <= 12 and 1 <= day <= month_lengths(year)[month - 1]):
        return None
    return days_before_year(year) + sum(month_lengths(year)[: month - 1]) + day - 1


def date_of(days: int) -> tuple[int, int, int]:
    """The year, month and day so many days after 2000-01-01: those that begin last, on that day or before it."""
    year = 2000 + days // 366
    while days_before_year(year + 1) <= days:
        year += 1
    while days_before_year(year) > days:
        year -= 1
    rest = days - days_before_year(year)
    for month, length in enumerate(month_lengths(year), 1):
        if rest < length:
            break
        rest -= length
    return year, month, rest + 1


def time_text(time: int, tick: int = 1) -> str:
    """The calendar form of a tick; with 1,000 ticks to a second it has milliseconds."""
    second, part = divmod(time, tick)
    days, clock = divmod(second + NOON, DAY)
    year, month, day = date_of(days)
    sign_and_year = f"{year:04d}" if year >= 0 else f"-{-year:06d}"
    hour, minute = clock // 3600, clock // 60 % 60
    text = f"{sign_and_year}-{month:02d}-{day:02d}T{hour:02d}:{minute:02d}:{clock % 60:02d}"
    return text if tick == 1 else f"{text}.{part:03d}"


def read_whole_time(word: bytes) -> Optional[int]:
    """The number of an optional minus and 1 to 12 digits, or None."""
    return int(word) if _WHOLE.fullmatch(word) else None


def _ticks_of_calendar(word: bytes, tick: int) -> Optional[int]:
    """The ticks of a calendar form that names a date and a time of day. Milliseconds may stand if ticks are such."""
    form = _CALENDAR.fullmatch(word)
    if form is None or form[1] == b"-000000" or (form[7] is not None and tick != 1000):
        return None
    year, month, day, hour, minute, second, part = (int(group or 0) for group in form.groups())
    days = day_number(year, month, day)
    if days is None or hour > 23 or minute > 59 or second > 59:
        return None
    return (days * DAY + hour * 3600 + minute * 60 + second - NOON) * tick + part


def read_time(word: bytes, tick: int = 1) -> Union[int, TimeFault]:
    """The tick of a word, or why it is none. A whole number counts seconds, however many ticks they have."""
    seconds = read_whole_time(word)
    ticks = _ticks_of_calendar(word, tick) if seconds is None else seconds * tick
    if ticks is None:
        return TimeFault.NOT_TIME
    return ticks if FIRST_SECOND * tick <= ticks <= LAST_SECOND * tick else TimeFault.OUT_OF_RANGE

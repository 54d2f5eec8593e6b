"""Times of every usual form, as ticks since J2000 (TDB)."""

from __future__ import annotations

import datetime
import math
import re
from fractions import Fraction
from typing import Any, Union

import numpy as np

from .. import spans

Time = Union[int, str, np.datetime64, datetime.datetime, datetime.date, Any]
J2000 = np.datetime64("2000-01-01T12:00:00", "s")
J2000_DAYS = 2_451_545
TEXT = re.compile(
    r"([0-9]{4}|-[0-9]{6})(-[0-9]{2})?(-[0-9]{2})?"
    r"(?:(?<=-[0-9]{2}-[0-9]{2})[T ]([0-9]{2}:[0-9]{2})(:[0-9]{2})?(\.[0-9]+)?)?"
)
ZONE = re.compile(r"(.*:[0-9.]+) ?(Z|z|[+-][0-9]{2}:?[0-9]{2}|UTC)")
# How near to a tick an astropy time is that tick: its two doubles hold times to some 10^-11 seconds.
NEAR = Fraction(1, 10**9)


# A length of time, as `2h`, `1h30m`, `90 min`, `45s`, `3d`.
LENGTH = re.compile(
    r"\s*(?:(?P<days>[0-9.]+)\s*(?:d|days?))?\s*(?:(?P<hours>[0-9.]+)\s*(?:h|hours?))?"
    r"\s*(?:(?P<minutes>[0-9.]+)\s*(?:m|min|minutes?))?\s*(?:(?P<seconds>[0-9.]+)\s*(?:s|seconds?))?\s*"
)
UNITS = {"days": 86_400, "hours": 3_600, "minutes": 60, "seconds": 1}


def seconds_of_length(length: Any) -> Fraction:
    """The seconds of a length of time: a number of them, a text, a `timedelta`, a `timedelta64` or an astropy quantity.

    >>> seconds_of_length("1h30m"), seconds_of_length(datetime.timedelta(minutes=2)), seconds_of_length(5)
    (Fraction(5400, 1), Fraction(120, 1), Fraction(5, 1))

    A `ValueError` or a `TypeError` says how a length is written; none is below 0.
    """
    if isinstance(length, str):
        found = LENGTH.fullmatch(length)
        given = {unit: text for unit, text in found.groupdict().items() if text} if found else {}
        try:
            made = sum((Fraction(text) * UNITS[unit] for unit, text in given.items()), Fraction(0))
        except ValueError:
            given = {}
        if not given:
            raise ValueError(f"no length of time: {length!r}; write it as 2h, 90min, 1h30m or 45s")
    elif isinstance(length, datetime.timedelta):
        made = Fraction(length // datetime.timedelta(microseconds=1), 10**6)
    elif isinstance(length, np.timedelta64):
        made = Fraction(int(length.astype("m8[us]").astype(np.int64)), 10**6)
    elif hasattr(length, "to_value"):
        made = Fraction(float(length.to_value("s")))
    elif isinstance(length, (int, float, np.integer, np.floating, Fraction)) and not isinstance(length, bool):
        made = Fraction(length if isinstance(length, Fraction) else length.item() if hasattr(length, "item") else length)
    else:
        raise TypeError(f"a length of time is a number of seconds, a text as '2h', or a timedelta, and not {length!r}")
    if made < 0:
        raise ValueError(f"a length of time is not below 0: {length!r}")
    return made


def _of_text(text: str) -> Fraction:
    """The seconds of a text: a year, a month, a day, or a day and a time, with seconds and their fraction or without.
    One with a zone is of UTC."""
    zone = ZONE.fullmatch(text)
    found = TEXT.fullmatch(zone[1] if zone else text)
    if not found or (found[6] and not found[5]):
        form = "2000-05-01 or 2000-05-01T12:00:00, of TDB, or with a zone, as 2000-05-01T12:00:00Z"
        raise ValueError(f"no time: {text!r}; write it as {form}")
    year, month, day, clock, second, part = found.groups()
    try:
        whole = spans.ticks_of(f"{year}{month or '-01'}{day or '-01'}T{clock or '00:00'}{second or ':00'}")
    except spans.WrongReport:
        raise ValueError(f"no time of the calendar: {text!r}") from None
    seconds = whole + Fraction(f"0{part or ''}")
    return _of_utc(seconds - _offset(zone[2])) if zone else seconds


def _offset(zone: str) -> int:
    """The seconds by which a zone of a text is ahead of UTC."""
    if zone[0] not in "+-":
        return 0
    hours, minutes = int(zone[1:3]), int(zone[-2:])
    return (hours * 3_600 + minutes * 60) * (-1 if zone[0] == "-" else 1)


def _of_utc(seconds: Fraction) -> Fraction:
    """The seconds of TDB since J2000 of those of a calendar of UTC, by the leap seconds of erfa: `NoErfa` without it."""
    from ..seen.scales import tdb_of_utc

    return tdb_of_utc(seconds)


def _of_datetime64(time: np.datetime64) -> Fraction:
    """The seconds of a `datetime64` of any unit."""
    if np.isnat(time):
        raise ValueError("no time: NaT")
    whole = time.astype("datetime64[s]")
    return int((whole - J2000).astype(np.int64)) + _part(time, whole)


def _part(time: np.datetime64, whole: np.datetime64) -> Fraction:
    """The part of a second by which a time is after a whole one."""
    part = time - whole
    unit, count = np.datetime_data(part.dtype)
    place = {"s": 0, "ms": 3, "us": 6, "ns": 9, "ps": 12, "fs": 15, "as": 18}
    return Fraction(int(part.astype(np.int64)) * count, 10 ** place[unit])


def _of_datetime(time: datetime.datetime) -> Fraction:
    """The seconds of a `datetime`, which without a zone is of TDB; a `Timestamp` of pandas is one, with nanoseconds."""
    if time.tzinfo is not None:
        offset = time.utcoffset() or datetime.timedelta(0)
        behind = Fraction(offset.days * spans.DAY + offset.seconds) + Fraction(offset.microseconds, 10**6)
        # (of both times that a clock shows when it is put back, `utcoffset` knows which it is)
        local = time.tz_localize(None) if hasattr(time, "tz_localize") else time.replace(tzinfo=None)
        return _of_utc(_of_datetime(local) - behind)
    if hasattr(time, "to_datetime64"):
        return _of_datetime64(time.to_datetime64())
    days = (time.date() - datetime.date(2000, 1, 1)).days
    clock = time.hour * 3_600 + time.minute * 60 + time.second
    return Fraction(days * spans.DAY - spans.DAY // 2 + clock) + Fraction(time.microsecond, 10**6)


def _of_astropy(time: Any, tick: int) -> Fraction:
    """The seconds of an astropy `Time`, in its scale TDB; one within a nanosecond of a tick is that tick."""
    if getattr(time, "shape", ()) != ():
        raise TypeError("one time is wanted, not an array of them")
    whole = time.tdb
    return _near_tick((Fraction(float(whole.jd1)) + Fraction(float(whole.jd2)) - J2000_DAYS) * spans.DAY, tick)


def _of_skyfield(time: Any, tick: int) -> Fraction:
    """The seconds of a Skyfield `Time`, in its scale TDB; one within a nanosecond of a tick is that tick."""
    if getattr(time, "shape", ()) != ():
        raise TypeError("one time is wanted, not an array of them")
    days = Fraction(float(time.whole)) + Fraction(float(time.tdb_fraction))
    return _near_tick((days - J2000_DAYS) * spans.DAY, tick)


def _near_tick(seconds: Fraction, tick: int) -> Fraction:
    """Seconds, or those of a tick that is within a nanosecond of them."""
    near = Fraction(round(seconds * tick), tick)
    return near if abs(near - seconds) < NEAR else seconds


def _of_float(seconds: float, tick: int) -> Fraction:
    """Seconds since J2000 (TDB) that are a whole number of ticks, as SPICE's ephemeris seconds are floats."""
    if not math.isfinite(seconds) or not (Fraction(seconds) * tick).denominator == 1:
        name = "a second" if tick == 1 else "a millisecond"
        raise ValueError(f"{seconds!r} is between two ticks: write a whole number of ticks of {name}, or a text")
    return Fraction(seconds)


def ticks_of_time(time: Time, tick: int, up: bool) -> int:
    """The ticks since J2000 of a time, rounded up or down to a whole number of them."""
    if isinstance(time, (bool, np.bool_)):
        raise TypeError(f"no time: {time!r}")
    if isinstance(time, (int, np.integer)) and not isinstance(time, np.timedelta64):
        seconds = Fraction(int(time))
    elif isinstance(time, (float, np.floating)):
        seconds = _of_float(float(time), tick)
    elif isinstance(time, str):
        seconds = _of_text(time)
    elif isinstance(time, np.datetime64):
        seconds = _of_datetime64(time)
    elif isinstance(time, datetime.datetime):
        seconds = _of_datetime(time)
    elif isinstance(time, datetime.date):
        seconds = _of_text(time.isoformat())
    elif hasattr(time, "tdb") and hasattr(time, "jd1"):
        seconds = _of_astropy(time, tick)
    elif hasattr(time, "whole") and hasattr(time, "tdb_fraction"):
        seconds = _of_skyfield(time, tick)
    else:
        raise TypeError(
            f"no time: {time!r}; a time is a whole number of seconds, a text, a datetime64, a datetime, "
            "a pandas Timestamp, or a Time of astropy or Skyfield"
        )
    ticks = seconds * tick
    return -(-ticks // 1) if up else ticks // 1

"""Scales of time and zones: UTC by erfa's leap seconds, TT and TDB, of seconds of TDB since J2000, in doubles."""

from __future__ import annotations

import datetime
import difflib
import re
import warnings
import zoneinfo
from collections.abc import Iterable, Mapping, Sequence
from dataclasses import dataclass, field
from enum import Enum
from fractions import Fraction
from typing import Any, Union

import numpy as np

from .. import spans
from ..ephemeris.order import J2000_DATE
from ..public import public
from .apparent import erfa_package
from .vectors import Floats, floats

UTC = datetime.timezone.utc
J2000 = datetime.datetime(2000, 1, 1, 12)
# From this year on UTC is behind TAI by whole seconds.
FIRST_UTC_YEAR = 1972


@public
class Scale(Enum):
    """A scale of time.

    >>> import finder
    >>> [scale.value for scale in finder.Scale]
    ['utc', 'tt', 'tdb']
    """

    UTC = "utc"
    TT = "tt"
    TDB = "tdb"


def _tdb_less_tt(seconds: Any) -> Floats:
    """TDB less TT in seconds, some 2 milliseconds at most, at the Earth's centre."""
    return floats(erfa_package().dtdb(J2000_DATE, floats(seconds) / spans.DAY, 0.0, 0.0, 0.0, 0.0))


def utc_of(seconds: float) -> datetime.datetime:
    """The UTC of seconds of TDB since J2000, to the microsecond. Within a leap second it is the second before."""
    return utc_of_all([seconds])[0]


def utc_of_all(seconds: Any) -> list[datetime.datetime]:
    """The UTC of many seconds of TDB since J2000, as `utc_of` has it of one."""
    erfa = erfa_package()
    at = floats(seconds)
    days, rest = np.divmod(at - _tdb_less_tt(at), spans.DAY)
    with warnings.catch_warnings():
        # (erfa warns of a year whose leap seconds are not announced yet: a page says so)
        warnings.simplefilter("ignore", erfa.ErfaWarning)
        utc = erfa.taiutc(*erfa.tttai(J2000_DATE + days, rest / spans.DAY))
        years, months, dates, clocks = erfa.d2dtf("UTC", 6, *utc)
    rows = zip(years.tolist(), months.tolist(), dates.tolist(), clocks.tolist())
    return [
        datetime.datetime(year, month, day, hour, minute, min(second, 59), part, UTC)
        for year, month, day, (hour, minute, second, part) in rows
    ]


def _tdb_of_utc(moments: Sequence[datetime.datetime]) -> Floats:
    """The seconds of TDB since J2000 of times that have a zone."""
    erfa = erfa_package()
    all_utc = [moment.astimezone(UTC) for moment in moments]
    rows = [(utc.year, utc.month, utc.day, utc.hour, utc.minute) for utc in all_utc]
    seconds = [utc.second + utc.microsecond / 1e6 for utc in all_utc]
    with warnings.catch_warnings():
        warnings.simplefilter("ignore", erfa.ErfaWarning)
        tai = erfa.utctai(*erfa.dtf2d("UTC", *np.array(rows, dtype=np.intc).T, seconds))
    whole, part = erfa.taitt(*tai)
    made = floats((whole - J2000_DATE) * spans.DAY + part * spans.DAY)
    return made + _tdb_less_tt(made)


def tdb_of_utc(seconds: Fraction) -> Fraction:
    """The seconds of TDB since J2000 of a time of UTC, given as the seconds of its calendar since 2000-01-01T12:00:00,
    with days of 86,400 of them: to some nanoseconds, by the leap seconds that erfa knows. From 1960 on there is UTC."""
    erfa = erfa_package()
    days, rest = divmod(seconds, spans.DAY)
    with warnings.catch_warnings():
        warnings.simplefilter("ignore", erfa.ErfaWarning)
        tai = erfa.utctai(J2000_DATE + float(days), float(rest) / spans.DAY)
    whole, part = erfa.taitt(*tai)
    made = (Fraction(float(whole)) + Fraction(float(part)) - Fraction(J2000_DATE)) * spans.DAY
    return made + Fraction(float(_tdb_less_tt(float(made))))


def last_leap_second() -> datetime.date:
    """The day that began with the last leap second that erfa knows."""
    table = erfa_package().leap_seconds.get()
    return datetime.date(int(table["year"][-1]), int(table["month"][-1]), 1)


# A zone that is a fixed offset from UTC, as `+02:00`, `-0330` or `UTC+2`.
OFFSET = re.compile(r"(?:UTC|GMT)?(?P<sign>[+\-−])(?P<hours>[0-9]{1,2})(?::?(?P<minutes>[0-9]{2}))?")
# The widest offset of a zone in hours.
WIDEST_OFFSET = 18


def zone_of(text: str) -> datetime.tzinfo:
    """The zone of a name of the IANA's data, as `Europe/Berlin`, or of a fixed offset, as `+02:00`.

    >>> zone_of("+05:30")
    datetime.timezone(datetime.timedelta(seconds=19800))
    >>> zone_of("Europe/Berlin")
    zoneinfo.ZoneInfo(key='Europe/Berlin')

    A `ValueError` names the zone that is nearest to one that is unknown.
    """
    offset = OFFSET.fullmatch(text)
    if offset:
        length = datetime.timedelta(hours=int(offset["hours"]), minutes=int(offset["minutes"] or 0))
        if length > datetime.timedelta(hours=WIDEST_OFFSET) or int(offset["minutes"] or 0) >= 60:
            raise ValueError(f"no time zone is {text!r}: an offset is from -18:00 to +18:00, as +05:30")
        return datetime.timezone(length if offset["sign"] == "+" else -length)
    if text.upper() in ("UTC", "Z"):
        return UTC
    try:
        return zoneinfo.ZoneInfo(text)
    except (zoneinfo.ZoneInfoNotFoundError, ValueError, OSError):
        known = {name.lower(): name for name in sorted(zoneinfo.available_timezones())}
    if not known:
        raise ValueError("no time zones are installed (Debian: tzdata; pip: tzdata): write an offset, as +02:00")
    near = difflib.get_close_matches(text.lower(), known, 1, 0)[0]
    raise ValueError(f"no time zone is {text!r}: did you mean {known[near]!r}? An offset is written as +02:00")


@public
@dataclass(frozen=True)
class Clock:
    """A scale of time; UTC in a zone. Its `name` is shown: that of the zone or of the scale, if none is given.

    >>> Clock().name, Clock(Scale.TT).name, Clock(zone=zone_of("Europe/Berlin")).name, Clock.of("+02:00").name
    ('UTC', 'TT', 'Europe/Berlin', 'UTC+02:00')
    """

    scale: Scale = Scale.UTC
    zone: datetime.tzinfo = UTC
    name: str = ""

    def __post_init__(self) -> None:
        if not self.name:
            object.__setattr__(self, "name", str(self.zone) if self.scale is Scale.UTC else self.scale.value.upper())

    @classmethod
    def of(cls, words: Union[Clock, Scale, datetime.tzinfo, str]) -> Clock:
        """The clock of a zone or of a scale: `"Europe/Berlin"`, `"+02:00"`, `"utc"`, `"tt"`, `"tdb"`."""
        if isinstance(words, Clock):
            return words
        if isinstance(words, Scale):
            return cls(words)
        if isinstance(words, datetime.tzinfo):
            return cls(zone=words)
        if not isinstance(words, str):
            raise TypeError(f"a clock is a zone as 'Europe/Berlin' or '+02:00', or 'utc', 'tt' or 'tdb', not {words!r}")
        scales = [scale for scale in Scale if scale.value == words.lower()]
        return cls(scales[0]) if scales else cls(zone=zone_of(words))

    def at(self, seconds: float) -> datetime.datetime:
        """The time of seconds of TDB since J2000, with its zone where the scale is UTC."""
        if self.scale is Scale.UTC:
            return self._utc(seconds).astimezone(self.zone)
        behind = float(_tdb_less_tt(seconds)) if self.scale is Scale.TT else 0.0
        return J2000 + datetime.timedelta(seconds=seconds - behind)

    def _utc(self, seconds: float) -> datetime.datetime:
        return utc_of(seconds)

    def plain(self) -> Clock:
        """The clock of the same scale without a zone."""
        return Clock(self.scale)

    def all_at(self, seconds: Any) -> list[datetime.datetime]:
        """The times of many seconds of TDB since J2000, as `at` has them of one."""
        if self.scale is Scale.UTC and len(seconds):
            return [time.astimezone(self.zone) for time in utc_of_all(seconds)]
        return [self.at(each) for each in seconds]

    def minutes(self, seconds: Any) -> list[datetime.datetime]:
        """The nearest minutes of many seconds, as `minute` has it of one."""
        return [time.replace(second=0, microsecond=0) for time in self.all_at(floats(seconds) + 30)]

    def minute(self, seconds: float) -> datetime.datetime:
        """The nearest minute."""
        return self.at(seconds + 30).replace(second=0, microsecond=0)

    def iso(self, seconds: float) -> str:
        """The time to the millisecond, as ISO 8601 has it."""
        return self.at(seconds + 5e-4).isoformat(timespec="milliseconds")

    def start_of(self, year: int, month: int = 1) -> float:
        """The seconds of TDB since J2000 at which a month begins."""
        return self.seconds_of(datetime.datetime(year, month, 1))

    def seconds_of(self, moment: datetime.datetime) -> float:
        """The seconds of TDB since J2000 of a time of this clock, without a zone."""
        return float(self.all_seconds_of([moment])[0])

    def all_seconds_of(self, moments: Sequence[datetime.datetime]) -> Floats:
        """The seconds of TDB since J2000 of many times, as `seconds_of` has them of one."""
        if self.scale is Scale.UTC and len(moments):
            return _tdb_of_utc([moment.replace(tzinfo=self.zone) for moment in moments])
        seconds = floats([(moment - J2000).total_seconds() for moment in moments])
        return seconds + (_tdb_less_tt(seconds) if self.scale is Scale.TT else 0.0)


@dataclass(frozen=True)
class ReadyClock(Clock):
    """A clock that has the UTC of some seconds at hand: one that is computed alone takes as long as hundreds at once."""

    known: Mapping[float, datetime.datetime] = field(default_factory=dict, compare=False, repr=False)

    @classmethod
    def of_times(cls, clock: Clock, seconds: Iterable[float]) -> ReadyClock:
        """The clock, with the times of some seconds of TDB since J2000."""
        at = list(dict.fromkeys(seconds))
        known = dict(zip(at, utc_of_all(at))) if at and clock.scale is Scale.UTC else {}
        return cls(clock.scale, clock.zone, clock.name, known)

    def _utc(self, seconds: float) -> datetime.datetime:
        return self.known.get(seconds) or utc_of(seconds)

    def plain(self) -> Clock:
        """The clock of the same scale without a zone, with the same times."""
        return ReadyClock(self.scale, known=self.known)

"""How the Earth turns: UT1 by the table of the IERS, and beyond that table by an extrapolation that says how uncertain
it is.

The Earth's angle follows UT1, and ephemerides follow TDB. Between both stands delta T = TT - UT1, which is observed and
cannot be computed far ahead. Polar motion, which moves a place by at most 0.6 arc seconds, is left out.
"""

from __future__ import annotations

import functools
import importlib.util
import math
import os
import warnings
from dataclasses import dataclass
from pathlib import Path
from typing import Any, Optional, Union

import numpy as np

from ..public import public
from ..seen.vectors import Floats
from .packages import astropy_iers, erfa_package

DAY = 86_400.0
YEAR = 365.25 * DAY
J2000_DATE, J2000_MJD = 2_451_545.0, 51_544.5
TT_LESS_TAI = 32.184
# How well delta T is known within the table, in seconds: C04 states this for 1962, and less than 1e-4 since 1990.
TABLE_ERROR = 0.002
# After the table delta T continues at the rate of its last year and grows with the braking by the tides: the mean
# acceleration of 2,700 years, 32.5 seconds a century squared (F. R. Stephenson, L. V. Morrison and C. Y. Hohenkerk,
# "Measurement of the Earth's rotation: 720 BC to AD 2015", Proc. R. Soc. A 472, 2016).
ACCELERATION = 2 * 32.5 / (100 * YEAR) ** 2
# The standard error of that, in seconds: so much times the years beyond the table to the power 1.5, as a random walk of
# the length of day has it. Applied to each month of the table itself, the rule is wrong by 0.09 (after a year), 0.08
# (after five) and 0.07 (after ten) times that power in the root mean square.
WALK = 0.1
# The years after the table and before it at which delta T is computed; between them it is interpolated.
LAST_YEAR, FIRST_YEAR = 3_000, -2_000
# The standard errors of delta T before the table, in seconds by year (F. Espenak and J. Meeus, "Five Millennium Canon
# of Solar Eclipses", NASA/TP-2006-214141, table 1-1 and its text).
ERRORS = (
    (-2000, 1600.0), (-1000, 640.0), (-500, 430.0), (0, 260.0), (500, 140.0), (1000, 55.0), (1300, 20.0), (1600, 20.0),
    (1700, 5.0), (1750, 2.0), (1800, 1.0), (1850, 0.8), (1900, 0.5), (1950, 0.1), (1962, 0.05),
)  # fmt: skip
# Delta T in seconds by spans of years: (first year, year of the origin, years of a unit, coefficients from the constant
# on), from the same book.
POLYNOMIALS: tuple[tuple[float, float, float, tuple[float, ...]], ...] = (
    (-math.inf, 1820, 100, (-20, 0, 32)),
    (-500, 0, 100, (10583.6, -1014.41, 33.78311, -5.952053, -0.1798452, 0.022174192, 0.0090316521)),
    (500, 1000, 100, (1574.2, -556.01, 71.23472, 0.319781, -0.8503463, -0.005050998, 0.0083572073)),
    (1600, 1600, 1, (120, -0.9808, -0.01532, 1 / 7129)),
    (1700, 1700, 1, (8.83, 0.1603, -0.0059285, 0.00013336, -1 / 1174000)),
    (1800, 1800, 1, (13.72, -0.332447, 0.0068612, 0.0041116, -0.00037436, 0.0000121272, -1.699e-7, 8.75e-10)),
    (1860, 1860, 1, (7.62, 0.5737, -0.251754, 0.01680668, -0.0004473624, 1 / 233174)),
    (1900, 1900, 1, (-2.79, 1.494119, -0.0598939, 0.0061966, -0.000197)),
    (1920, 1920, 1, (21.20, 0.84493, -0.076100, 0.0020936)),
    (1941, 1950, 1, (29.07, 0.407, -1 / 233, 1 / 2547)),
    (1961, 1975, 1, (45.45, 1.067, -1 / 260, -1 / 718)),
)


def year_of(seconds: Any) -> Floats:
    """The Julian year of seconds since J2000: `2000.0` is J2000 itself."""
    return np.asarray(2000.0 + np.asarray(seconds, dtype=float) / YEAR, dtype=float)


def delta_t_of_history(year: float) -> float:
    """Delta T in seconds of a year before 1986, by the polynomials of Espenak and Meeus.

    >>> round(delta_t_of_history(1900.0), 2), round(delta_t_of_history(0.0), 1)
    (-2.79, 10583.6)
    """
    _, origin, unit, coefficients = [row for row in POLYNOMIALS if row[0] <= year][-1]
    made: float = 0.0
    for coefficient in coefficients[::-1]:
        made = made * (year - origin) / unit + coefficient
    return made


@public
@dataclass(frozen=True)
class EarthRotation:
    """Delta T at any time, and what it stands on.

    `source` names the table, the number or the rule. `start` and `end` are the ends of the table in seconds since J2000
    (TT): outside of them delta T is extrapolated. A number that was given has no ends.

    >>> import finder
    >>> rotation = finder.EarthRotation.of_number(69)
    >>> rotation.delta_t([0.0]).tolist()
    [69.0]
    """

    source: str
    start: float
    end: float
    # Times in seconds since J2000 (TT), delta T there in seconds, and its rate.
    _at: Floats
    _delta_t: Floats
    _rate: Floats

    def delta_t(self, seconds: Any) -> Floats:
        """TT less UT1 in seconds, at seconds since J2000 (TT or TDB, which differ by 2 milliseconds).

        It is a smooth function of time: cubic between the days of the table, without a jump of its value or its rate.
        `ValueError` outside of the years -2000 to 3000.

        >>> EarthRotation.of_number(69).delta_t([0.0, 1e9])
        array([69., 69.])
        """
        at = np.asarray(seconds, dtype=float)
        if len(self._at) == 1:
            return np.full(at.shape, self._delta_t[0])
        if at.size and not (self._at[0] <= at.min() and at.max() <= self._at[-1]):
            raise ValueError(f"delta T is known for the years {FIRST_YEAR} to {LAST_YEAR}: give delta_t= for others")
        place = np.clip(np.searchsorted(self._at, at, "right") - 1, 0, len(self._at) - 2)
        step = self._at[place + 1] - self._at[place]
        part = (at - self._at[place]) / step
        rest = 1 - part
        value = rest**2 * (1 + 2 * part) * self._delta_t[place] + part**2 * (1 + 2 * rest) * self._delta_t[place + 1]
        slope = part * rest * step * (rest * self._rate[place] - part * self._rate[place + 1])
        return np.asarray(value + slope, dtype=float)

    def ut1(self, seconds: Any) -> Floats:
        """The seconds of UT1 since 2000-01-01T12:00:00 UT1, at seconds since J2000 (TDB)."""
        at = np.asarray(seconds, dtype=float)
        terrestrial = at - erfa_package().dtdb(J2000_DATE, at / DAY, 0.0, 0.0, 0.0, 0.0)
        return np.asarray(terrestrial - self.delta_t(terrestrial), dtype=float)

    def uncertainty(self, seconds: float) -> float:
        """The standard error of delta T in seconds, at seconds since J2000: that of the table, or of the extrapolation.
        A number that was given has none, as it is taken as it is: 0.

        >>> round(EarthRotation.of_number(69).uncertainty(0.0), 1)
        0.0
        """
        if self.start == -math.inf and self.end == math.inf:
            return 0.0
        if seconds > self.end:
            years = (seconds - self.end) / YEAR
            return max(TABLE_ERROR, WALK * years * math.sqrt(years))
        if seconds < self.start:
            known = np.array(ERRORS)
            return float(np.interp(year_of(seconds), known[:, 0], known[:, 1]))
        return TABLE_ERROR

    def is_extrapolated(self, start: float, end: float) -> bool:
        """Whether a span of seconds since J2000 goes beyond the table."""
        return start < self.start or end > self.end

    def sentence(self, start: float, end: float) -> str:
        """What UT1 stands on in a span of seconds since J2000, and how uncertain it is: a sentence for the title of a
        text and for the foot of an almanac.

        >>> EarthRotation.of_number(69).sentence(0.0, 1.0)
        'UT1 is TT less 69 s, as it was given.'
        """
        if self.start == -math.inf and self.end == math.inf:
            return f"UT1 is TT less {self.source}, as it was given."
        first, last = (_day(end - float(self.delta_t(end))) for end in (self.start, self.end))
        said = f"UT1 is by {self.source}, from {first} to {last}"
        if not self.is_extrapolated(start, end):
            return f"{said}."
        rules = []
        if start < self.start:
            rules.append("before it delta T is that of the polynomials of Espenak and Meeus (2006)")
        if end > self.end:
            rules.append("after it delta T is extrapolated by the rate of its last year and the braking of the tides")
        error = max(self.uncertainty(start), self.uncertainty(end))
        return f"{said}; {' and '.join(rules)}, with a standard error of {error:.2g} s in this span."

    @classmethod
    def of_number(cls, delta_t: float) -> EarthRotation:
        """The rotation by one delta T in seconds, whatever the time."""
        if isinstance(delta_t, bool) or not math.isfinite(float(delta_t)):
            raise ValueError(f"delta_t is TT less UT1 in seconds, as 69.2, and not {delta_t!r}")
        value = float(delta_t)
        return cls(f"{value:g} s", -math.inf, math.inf, np.zeros(1), np.array([value]), np.zeros(1))

    @classmethod
    def of_table(cls, source: str, days: Any, ut1_less_utc: Any) -> EarthRotation:
        """The rotation by a table: the modified Julian dates of UTC, and UT1 less UTC in seconds there."""
        at, delta_t = _of_utc(np.asarray(days, dtype=float), np.asarray(ut1_less_utc, dtype=float))
        if len(at) < 3:
            raise ValueError(f"{source} has fewer than three days: a table of UT1 is wanted")
        before = _years(FIRST_YEAR, float(at[0]), last=False)
        after = _years(LAST_YEAR, float(at[-1]), last=True)
        whole = np.concatenate([before, at, after])
        history = [delta_t_of_history(year) for year in year_of(before)]
        values = np.concatenate([history, delta_t, _after(at, delta_t, after)])
        return cls(source, float(at[0]), float(at[-1]), whole, values, np.gradient(values, whole))


def _of_utc(days: Floats, ut1_less_utc: Floats) -> tuple[Floats, Floats]:
    """Seconds since J2000 (TT) and delta T, of days of UTC; erfa knows TAI less UTC since 1960."""
    erfa = erfa_package()
    with warnings.catch_warnings():
        # (erfa warns of a year whose leap seconds are not announced yet)
        warnings.simplefilter("ignore", erfa.ErfaWarning)
        year, month, day, part = erfa.jd2cal(2_400_000.5, days)
        less = TT_LESS_TAI + erfa.dat(year, month, day, part)
    return (days - J2000_MJD) * DAY + less, less - ut1_less_utc


def _years(bound: int, near: float, last: bool) -> Floats:
    """The starts of years from the end of a table on, in seconds since J2000, without the one that is too near."""
    years = np.arange(FIRST_YEAR, LAST_YEAR + 1)
    at = (years - 2000.0) * YEAR
    return at[at > near + YEAR / 4] if last else at[at < near - YEAR / 4]


def _after(at: Floats, delta_t: Floats, later: Floats) -> Floats:
    """Delta T after a table: at the rate of its last year, and by the braking of the tides."""
    year_before = max(at[-1] - YEAR, at[0])
    rate = (delta_t[-1] - np.interp(year_before, at, delta_t)) / (at[-1] - year_before)
    away = later - at[-1]
    return np.asarray(delta_t[-1] + rate * away + ACCELERATION / 2 * away**2, dtype=float)


def _day(seconds: float) -> str:
    """The day of UTC that begins within a second of seconds of UT1 since J2000."""
    return str(np.datetime64("2000-01-01T12:00:00", "s") + np.timedelta64(math.ceil(seconds) + 1, "s"))[:10]


# The file of C04 that astropy has shipped up to its release 6, in its folder: 14 lines before the table, in which these
# columns are the modified Julian date and UT1 less UTC.
C04 = Path("utils", "iers", "data", "eopc04_IAU2000.62-now")
C04_HEAD, C04_COLUMNS = 14, (3, 6)


def _c04_of_astropy() -> Optional[EarthRotation]:
    """The rotation by astropy's C04, read by numpy: that takes a tenth of the time of astropy's own reading of
    tables."""
    spec = importlib.util.find_spec("astropy")
    path = Path(spec.origin).parent / C04 if spec is not None and spec.origin else C04
    if not path.is_file():
        return None
    days, values = np.loadtxt(path, skiprows=C04_HEAD, usecols=C04_COLUMNS).T
    return EarthRotation.of_table(f"the series C04 of the IERS ({path.name})", days, values)


@functools.lru_cache(maxsize=4)
def _of_file(name: Optional[str]) -> EarthRotation:
    """The rotation by a file of the IERS, or by the table that astropy ships."""
    quick = _c04_of_astropy() if name is None else None
    if quick is not None:
        return quick
    iers = astropy_iers()
    path = name or _shipped(iers)
    is_finals = "finals" in Path(path).name.lower()
    readers = (iers.IERS_A, iers.IERS_B) if is_finals else (iers.IERS_B, iers.IERS_A)
    with open(path, "rb"):
        pass
    for reader in readers:
        try:
            table = reader.open(path)
            days, values = (np.asarray(table[column].value, dtype=float) for column in ("MJD", "UT1_UTC"))
        except Exception:  # (astropy raises many sorts of errors of a file that is none of its)
            continue
        known = np.isfinite(values)
        kind = "the finals of the IERS" if reader is iers.IERS_A else "the series C04 of the IERS"
        return EarthRotation.of_table(f"{kind} ({Path(path).name})", days[known], values[known])
    raise ValueError(f"{path} is no table of UT1 of the IERS: name one as eopc04_IAU2000.62-now or finals2000A.all")


def _shipped(iers: Any) -> str:
    """The table that astropy ships: newer releases have the finals, with predictions for a year, and all have C04."""
    finals = str(getattr(iers, "IERS_A_FILE", ""))
    return finals if os.path.isabs(finals) and os.path.exists(finals) else str(iers.IERS_B_FILE)


@public
def earth_rotation(
    table: Union[None, str, os.PathLike[str]] = None, delta_t: Union[None, float, EarthRotation] = None
) -> EarthRotation:
    """How the Earth turns: by the table of the IERS that astropy ships, by a file of it, or by one `delta_t`, seconds.

    It needs astropy for a table; `delta_t=` needs none. `ValueError` names a file that is no such table.

    >>> print(earth_rotation().sentence(0.0, 1.0))
    UT1 is by the series C04 of the IERS (eopc04_IAU2000.62-now), from 1962-01-01 to 2022-11-29.
    >>> float(earth_rotation().delta_t(0.0).round(4))
    63.8291
    """
    if isinstance(delta_t, EarthRotation):
        return delta_t
    if delta_t is not None:
        return EarthRotation.of_number(delta_t)
    return _of_file(None if table is None else os.fspath(table))

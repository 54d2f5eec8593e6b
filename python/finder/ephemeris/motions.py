"""What is taken for a motion: a function, a scalar, a Skyfield vector function, a satellite of sgp4, a star, a
table."""

from __future__ import annotations

from collections.abc import Callable
from dataclasses import dataclass
from typing import Any, Optional, Union

import numpy as np

from ..reports.calendar import DAY
from ..seen.apparent import erfa_package, frames_of_date
from ..seen.vectors import Floats, floats
from .fitting import Tolerance
from .order import J2000_DATE
from .stars import STAR_DISTANCE, Star, star_of
from .text import WrongText, span_text

# A function of seconds since J2000 (TDB), an array of n, that gives km, 3 by n, or n numbers; or what is turned into
# one.
Motion = Union[Callable[[Floats], Any], Star, Any]
# A millimetre, in km, and for directions a microarcsecond.
MILLIMETRE = Tolerance(kilometres=1e-6)
MICROARCSECOND = Tolerance(arcseconds=1e-6)
# As many times as no array of three components by as many has its shape by chance.
TRIED = 5
# The points of a table through which a polynomial is laid; with velocities half as many.
POINTS = 8


@dataclass(frozen=True)
class Named:
    """A motion with its name: a function that gives 3 by n km, what it is, how good its series has to be, and whether
    it is a scalar, which stands on the axis x."""

    name: str
    places: Callable[[Floats], Floats]
    what: str
    tolerance: Tolerance = MILLIMETRE
    is_scalar: bool = False
    packages: tuple[str, ...] = ()


def motion_of(name: str, given: Any, start: float, end: float) -> Named:
    """A motion of any usual form, over a span in seconds since J2000 (TDB)."""
    if hasattr(given, "sgp4_array"):
        what = f"satellite {given.satnum} by SGP4 from the Earth's centre, axes of the GCRS"
        return Named(name, satellite(name, given), what, packages=("sgp4", "pyerfa"))
    if hasattr(given, "at") and hasattr(given, "center"):
        what = f"Skyfield's {given}".replace("\n", " ")
        return Named(name, _of_skyfield(given), what, packages=("skyfield",))
    if isinstance(given, Star) or hasattr(given, "icrs") or hasattr(given, "ra_mas_per_year"):
        star = star_of(given, name)
        what = f"{star}, as it is from the barycentre of the solar system, at {STAR_DISTANCE:g} km"
        return Named(name, star.place, what, MICROARCSECOND, packages=("pyerfa",))
    if isinstance(given, tuple) and len(given) in (2, 3) and np.ndim(given[0]) == 1:
        return Named(name, Table.of(name, *given).within(name, start, end), f"a table of {len(given[0])} places")
    if not callable(given):
        raise TypeError(
            f"{name} is a function of seconds of TDB since J2000, a vector function of Skyfield, a Satrec of sgp4, a "
            f"star (finder.Star, SkyCoord, Skyfield's Star), or a table (seconds, km), and not {given!r}"
        )
    what = f"the function {getattr(given, '__qualname__', type(given).__name__)}"
    tried = np.asarray(given(start + (end - start) * np.linspace(0.1, 0.9, TRIED)))
    if tried.shape == (TRIED,):
        return Named(name, lambda times: _on_x(given, times), f"{what}, a scalar", is_scalar=True)
    return Named(name, given, what)


def _on_x(function: Any, times: Floats) -> Floats:
    """A scalar as a place on the axis x; numbers of another shape are refused by the check of every motion."""
    values = floats(function(times))
    zeros = np.zeros_like(values)
    return np.stack([values, zeros, zeros]) if values.shape == times.shape else values


def _of_skyfield(vector: Any) -> Callable[[Floats], Floats]:
    """The places of a vector function of Skyfield, from its centre on the axes of the ICRS."""
    from skyfield.api import load

    scale = load.timescale(builtin=True)

    def places(times: Floats) -> Floats:
        days = np.floor(times / DAY)
        return floats(vector.at(scale.tdb_jd(J2000_DATE + days, (times - days * DAY) / DAY)).position.km)

    return places


def satellite(name: str, satrec: Any) -> Callable[[Floats], Floats]:
    """The places of a satellite of sgp4 in km from the Earth's centre, on the axes of the GCRS.

    SGP4 gives them on the true equator and the mean equinox of date (Vallado and others, "Revisiting Spacetrack Report
    #3", AIAA 2006-6753, appendix C): these are turned by the angle between both sidereal times, and then as all axes of
    date. Its times are UTC.
    """
    erfa = erfa_package()

    def places(times: Floats) -> Floats:
        days = np.floor(times / DAY)
        date, part = J2000_DATE + days, (times - days * DAY) / DAY
        terrestrial = part - erfa.dtdb(date, part, 0.0, 0.0, 0.0, 0.0) / DAY
        utc = erfa.taiutc(*erfa.tttai(date, terrestrial))
        wrong, made, _ = satrec.sgp4_array(*(np.ascontiguousarray(each) for each in utc))
        if wrong.any():
            at = float(times[int(np.argmax(wrong != 0))])
            raise WrongText(
                f"{name} has no place by SGP4 at {at!r} seconds since J2000 (error {wrong[wrong != 0][0]}): name a "
                "span near its epoch"
            )
        of_date = frames_of_date("eq", times)
        turn = erfa.gst06(*utc, date, part, of_date) - erfa.gmst82(*utc)
        cosine, sine = np.cos(turn), np.sin(turn)
        x, y, z = made.T
        return floats(np.einsum("nji,jn->in", of_date, np.stack([cosine * x - sine * y, sine * x + cosine * y, z])))

    return places


@dataclass(frozen=True)
class Table:
    """Places at times, with polynomials between them through the nearest eight, or with velocities through four."""

    times: Floats
    places: Floats
    velocities: Optional[Floats]

    @classmethod
    def of(cls, name: str, times: Any, places: Any, velocities: Any = None) -> Table:
        """A table of seconds since J2000 (TDB), km and perhaps km/s, 3 by n or n by 3."""
        at = floats(times)
        rows = [_rows(name, each, len(at)) for each in (places, velocities) if each is not None]
        if len(at) < POINTS or (np.diff(at) <= 0).any():
            raise WrongText(
                f"the table of {name} has {len(at)} times: {POINTS} or more are wanted, each after the one before"
            )
        return cls(at, rows[0], rows[1] if len(rows) > 1 else None)

    def within(self, name: str, start: float, end: float) -> Callable[[Floats], Floats]:
        """The places between the times of the table, which have to hold a span."""
        if start < self.times[0] or end > self.times[-1]:
            raise WrongText(
                f"the table of {name} has {span_text(self.times[0], self.times[-1])}, and {span_text(start, end)} is "
                "asked for: name a span within it"
            )
        return self.at

    def at(self, times: Floats) -> Floats:
        """Places at times, 3 by n."""
        count = POINTS if self.velocities is None else POINTS // 2
        first = np.clip(np.searchsorted(self.times, times) - count // 2, 0, len(self.times) - count)
        near = first[:, None] + np.arange(count)
        # (an argument near 1 in size, from the middle of the points)
        middle, half = self.times[near].mean(axis=1), (self.times[near[:, -1]] - self.times[near[:, 0]]) / 2
        knots, at = (self.times[near] - middle[:, None]) / half[:, None], (times - middle) / half
        values = self.places[:, near]
        if self.velocities is None:
            return _newton(knots, values, at)
        twice = np.repeat(knots, 2, axis=1)
        return _newton(
            twice, np.repeat(values, 2, axis=2), at, np.repeat(self.velocities[:, near] * half[:, None], 2, axis=2)
        )


def _newton(knots: Floats, values: Floats, at: Floats, slopes: Optional[Floats] = None) -> Floats:
    """Polynomials through values at knots by divided differences, where a knot that stands twice has a slope."""
    rows = values.copy()
    sums = [rows[:, :, 0]]
    for order in range(1, knots.shape[1]):
        apart = knots[:, order:] - knots[:, :-order]
        is_twice = apart == 0
        divided = (rows[:, :, 1:] - rows[:, :, :-1]) / np.where(is_twice, 1.0, apart)
        rows = divided if slopes is None else np.where(is_twice, slopes[:, :, : divided.shape[2]], divided)
        sums.append(rows[:, :, 0])
    made = sums[-1]
    for order in range(len(sums) - 2, -1, -1):
        made = sums[order] + (at - knots[:, order]) * made
    return floats(made)


def _rows(name: str, places: Any, count: int) -> Floats:
    """Places as 3 by n."""
    rows = floats(places)
    if rows.shape == (count, 3) and count != 3:
        rows = rows.T
    if rows.shape != (3, count):
        raise WrongText(
            f"the table of {name} has places of shape {rows.shape} for {count} times: 3 by {count} are wanted"
        )
    return rows

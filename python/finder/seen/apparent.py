"""Where bodies are seen: by light time, aberration and the bending of light, on the axes of date. In doubles."""

from __future__ import annotations

from collections.abc import Callable
from typing import Any, Optional

import numpy as np
import numpy.typing as npt

from .. import spans
from ..ephemeris.order import J2000_DATE
from ..ephemeris.series import Series
from ..public import public
from ..searches.words import one_of
from .curves import LIGHT
from .vectors import AU, Floats, floats, length, many

# The least of 1 + cos at which light is bent: a body further behind the Sun's disc is not seen at all.
BEHIND = 1e-6
# Each pass leaves a part of v/c of the fault of a place before: the third some decimetres.
PASSES = 3
# Nutation is taken at each half day and between them by polynomials through six: to some 10^-7 arc seconds.
HALF_DAY = spans.DAY / 2
NODES = np.arange(-2, 4)


@public
class NoErfa(ImportError):
    """Bodies as they are seen, axes of date and UTC need the package `erfa` (Debian: python3-erfa; pip: pyerfa).

    >>> import finder
    >>> issubclass(finder.NoErfa, ImportError)
    True
    """


def erfa_package() -> Any:
    """The package erfa, or a refusal that names it."""
    try:
        import erfa
    except ImportError:
        raise NoErfa(
            "bodies as they are seen, the axes of date and UTC need the package erfa (pip: pyerfa, Debian: "
            "python3-erfa; it comes with astropy); geometric places need none"
        ) from None
    return erfa


class AtHalfDays:
    """Functions of time at half days since J2000 (TDB), each computed once: `make` takes days since J2000, and gives a
    row for each function."""

    def __init__(self, make: Callable[[Floats], Any], rows: int) -> None:
        self._make = make
        self._known = np.empty(0, dtype=int), np.empty((rows, 0))

    def rows(self, wanted: npt.NDArray[np.int_]) -> Floats:
        """The rows at half days of numbers without a repetition and in order."""
        known, rows = self._known
        more = np.setdiff1d(wanted, known, assume_unique=True)
        if len(more):
            made = np.array(self._make(more * HALF_DAY / spans.DAY)).reshape(len(rows), -1)
            known, rows = np.concatenate([known, more]), np.concatenate([rows, made], axis=1)
            order = known.argsort()
            known, rows = known[order], rows[:, order]
            # (threads may ask at once: each has what it asked for, and one of them leaves it for later)
            self._known = known, rows
        return floats(rows[:, np.searchsorted(known, wanted)])


# Nutation in longitude and in obliquity in radians, of the IAU's model of 2000A as it was adjusted in 2006.
NUTATION = AtHalfDays(lambda days: erfa_package().nut06a(J2000_DATE, days), 2)


def _nutation(times: Floats) -> Floats:
    """Both angles of nutation at seconds since J2000 (TDB)."""
    place = times / HALF_DAY
    whole = np.floor(place).astype(int)
    part = place - whole
    wanted, numbers = np.unique(whole[:, None] + NODES, return_inverse=True)
    near = NUTATION.rows(wanted)[:, numbers.reshape(-1, len(NODES))]
    weights = [np.prod([(part - other) / (node - other) for other in NODES if other != node], axis=0) for node in NODES]
    return floats((near * np.stack(weights, axis=-1)).sum(axis=-1))


def frames_of_date(frame: str, times: Floats) -> Floats:
    """Matrices from the axes of the file to the true equator (`eq`) or ecliptic (`ecl`) and the true equinox of date,
    at seconds since J2000 (TDB): precession of the IAU of 2006, nutation of 2000A."""
    erfa = erfa_package()
    at = np.nan_to_num(times)
    turn, node, tilt, mean = erfa.pfw06(J2000_DATE, at / spans.DAY)
    longitude, obliquity = _nutation(at)
    rows = erfa.fw2m(turn, node, tilt + longitude, mean + obliquity)
    return floats(erfa.rx(mean + obliquity, rows) if frame == "ecl" else rows)


# The first series of JPL whose axes are those of the ICRS, from which the equator of date is reckoned.
FIRST_OF_ICRS = 403


def check_axes(number: Optional[int], advice: str) -> None:
    """Refuses axes of date for a series of JPL, by its number, whose own axes are not those of the ICRS; None is none of
    JPL's numbers."""
    if number is not None and number < FIRST_OF_ICRS:
        raise ValueError(
            f"DE{number} is older than DE{FIRST_OF_ICRS}, and its axes are not those of the ICRS, from which the equator "
            f"and the ecliptic of date are reckoned: {advice}, or take a later series"
        )


@public
class ApparentPlaces:
    """Places of bodies as they are seen from one another, in doubles and unproved.

    Each is where the body was when its light set out, turned by aberration, and with `bending` bent by the Sun's mass.
    It needs erfa. With `of_date` it is on the axes of date, for files whose axes are those of the ICRS, as those of
    JPL's files have been since DE403; without it on the axes of the file, or the ecliptic of J2000.

    >>> import finder
    >>> year = "examples/de405-2000.asc"
    >>> places = finder.ApparentPlaces(finder.Series(year), of_date=False)
    >>> places.light("sun", "earth", 0.0).round(1)
    array([490.7])
    """

    def __init__(self, series: Series, of_date: bool = True, bending: bool = True) -> None:
        erfa_package()
        if of_date:
            check_axes(series.number, "of_date=False gives places on the axes of the files")
        self._series = series
        self._of_date = of_date
        self._bending = bending
        self._last: dict[str, tuple[Floats, Floats]] = {}

    def _kept(self, name: str, times: Floats, make: Callable[[], Floats]) -> Floats:
        """What was made last of the same times, or it is made: two bodies are looked at at once."""
        last = self._last.get(name)
        if last is None or not np.array_equal(last[0], times):
            last = times.copy(), make()
            self._last[name] = last
        return last[1]

    def light(self, target: str, observer: str, times: Any) -> Floats:
        """The seconds that light takes from a body to an observer, where it comes in at seconds since J2000 (TDB)."""
        at = many(times)
        return self._from(target, self._series.body(observer, at), at)[1]

    def light_to(self, target: str, source: str, times: Any) -> Floats:
        """The seconds that light takes to a body, which sets out from another at seconds since J2000 (TDB)."""
        at = many(times)
        here, way = self._series.body(source, at), np.zeros(len(at))
        for _ in range(PASSES):
            way = floats(length(self._series.body(target, at + way) - here) / LIGHT)
        return way

    def _from(self, target: str, here: Floats, times: Floats) -> tuple[Floats, Floats]:
        """Where a body was when its light set out, in km from the observer's place, and how many seconds it took."""
        place, delay = here, np.zeros(len(times))
        for _ in range(PASSES):
            place = self._series.body(target, times - delay) - here
            delay = floats(length(place) / LIGHT)
        return place, delay

    def seen(self, target: str, observer: str, frame: str, times: Any) -> Floats:
        """Where a body is seen at seconds since J2000 (TDB), in km on the axes `eq` or `ecl`: three rows. Its distance
        is that at which its light set out. NaN where the files have no place of a body at a time, or not at the time
        at which its light set out."""
        at = many(times)
        one_of("frame", frame, ("eq", "ecl"))
        if target == observer:
            return np.zeros((3, len(at)))
        state = self._kept(observer, at, lambda: self._series.body(observer, at, rates=True))
        here, speed = state[:3], state[3:] / LIGHT
        place, delay = self._from(target, here, at)
        far = length(place)
        toward = place / far
        if self._bending and target != "sun" and observer not in ("sun", "ssb"):
            toward = _bent(toward, here, place, self._series.body("sun", at - delay))
        toward = _aberrated(toward, speed, here, self._series.body("sun", at))
        if self._of_date:
            frames = self._kept(frame, at, lambda: frames_of_date(frame, at))
            return floats(np.einsum("nij,jn->in", frames, toward * far))
        return self._series.turned(frame, toward * far)


def _bent(toward: Floats, here: Floats, place: Floats, sun: Floats) -> Floats:
    """A direction, bent by the mass of the Sun, as erfa has it (Explanatory Supplement to the Astronomical Almanac,
    7.2.4): by the Sun as it was when the light passed it."""
    to_here, to_body = here - sun, here + place - sun
    near = length(to_here)
    rows = (np.ascontiguousarray(each.T) for each in (toward, to_body / length(to_body), to_here / near))
    return floats(erfa_package().ld(1.0, *rows, near / AU, BEHIND).T)


def _aberrated(toward: Floats, speed: Floats, here: Floats, sun: Floats) -> Floats:
    """A direction as an observer at a speed, in units of that of light, sees it."""
    near = length(here - sun)
    # (on the Sun itself its potential is left out)
    far = np.where(near > 0, near / AU, 1.0)
    slow = np.sqrt(1 - (speed**2).sum(axis=0))
    return floats(erfa_package().ab(np.ascontiguousarray(toward.T), np.ascontiguousarray(speed.T), far, slow).T)

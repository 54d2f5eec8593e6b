"""Where bodies and stars are seen from the Earth or a place on it, at many times at once, in doubles.

Light time, the bending of light by the Sun, and aberration by the observer's motion, each of which can be left out; by
the rules of ERFA: `ld`, `ab`, `gst06`, `gd2gc`, and for the axes of date precession of the IAU of 2006 with nutation of
2000A.
"""

from __future__ import annotations

from collections.abc import Callable, Mapping
from dataclasses import dataclass, field
from typing import Any, Optional

import numpy as np

from ..reports.calendar import DAY
from ..seen.apparent import HALF_DAY, AtHalfDays, check_axes, erfa_package, frames_of_date
from ..seen.curves import LIGHT
from ..seen.vectors import AU, Floats, floats, length
from ..sky.earth_rotation import EarthRotation
from ..sky.place import Place
from .order import J2000_DATE
from .series import Series
from .stars import STAR_DISTANCE

# Each pass leaves a part of v/c of the fault of a place before: the third some decimetres.
PASSES = 3
# The least of 1 + cos by which light is bent: 0.256 degrees from the Sun's centre, within its disc, where nothing is
# seen.
DEFLECTION_LIMIT = 1e-5
# The Earth's rate of rotation in radians a second (ERFA's `pvtob`).
ROTATION = 1.00273781191135448 * 2 * np.pi / DAY
# How far zenith and nadir are put in km: only their directions mean something, but the disc about the nadir
# covers that of the Moon only where it is nearer.
ZENITH_DISTANCE = 100_000.0
WGS84 = 1
AXES = ("equator", "ecliptic", "j2000")


@dataclass(frozen=True)
class Model:
    """What is counted of the way of light, and the axes on which places stand."""

    light_time: bool = True
    bending: bool = True
    aberration: bool = True
    axes: str = "equator"

    def __post_init__(self) -> None:
        if self.axes not in AXES:
            raise ValueError(f"axes are {', '.join(map(repr, AXES))}, and not {self.axes!r}")

    def __str__(self) -> str:
        counted = [
            name
            for name, is_counted in (
                ("light time", self.light_time),
                ("bending by the Sun", self.bending),
                ("aberration", self.aberration),
            )
            if is_counted
        ]
        axes = {
            "equator": "true equator and equinox of date (IAU 2006, 2000A)",
            "ecliptic": "true ecliptic and equinox of date (IAU 2006, 2000A)",
            "j2000": "axes of the source, those of the ICRS",
        }
        return f"{', '.join(counted) or 'geometric places'}; {axes[self.axes]}"


@dataclass
class _Moment:
    """What all bodies have in common at some times: the observer in km and km/s from the barycentre, the Sun, the axes of
    date and the direction of the zenith, if there is a place; and the places of bodies by name, as they are made. All
    are on the axes of the source."""

    times: Floats
    here: Floats
    speed: Floats
    sun: Floats
    of_date: Optional[Floats] = None
    zenith: Optional[Floats] = None
    made: dict[str, Floats] = field(default_factory=dict)


class SharedMoments:
    """The moments of one observer, kept by their times: two skies that differ in their axes alone have them in common."""

    def __init__(self) -> None:
        self._kept: dict[bytes, _Moment] = {}

    def at(self, times: Floats, make: Callable[[Floats], _Moment]) -> _Moment:
        """That of some times, which is made if it is not there."""
        key = times.tobytes()
        if key not in self._kept:
            self._kept[key] = make(times)
        return self._kept[key]


class ApparentSky:
    """Places of bodies from an observer on the Earth or at its centre, by name, at seconds since J2000 (TDB).

    `moments` are those of another sky of the same observer over the same series, which counts the same of the way of
    light.
    """

    def __init__(
        self,
        series: Series,
        place: Optional[Place],
        rotation: Optional[EarthRotation],
        model: Model,
        moments: Optional[SharedMoments] = None,
    ) -> None:
        if place is not None or model.axes != "j2000":
            check_axes(series.number, "axes='j2000' gives the sky of the Earth's centre on the axes of the source")
        self._series = series
        self._place = place
        self._rotation = rotation
        self._model = model
        self._moments = moments

    def _moment(self, times: Floats) -> _Moment:
        state = self._series.body("earth", times, rates=True)
        here, speed, sun = state[:3], state[3:], self._series.body("sun", times)
        if self._place is None:
            return _Moment(times, here, speed, sun)
        of_date = frames_of_date("eq", times)
        spot, motion, zenith = self._spot(times, of_date)
        return _Moment(times, floats(here + spot), floats(speed + motion), sun, of_date, zenith)

    def _axes(self, moment: _Moment) -> Optional[Floats]:
        """The matrices that turn places to the axes of the model."""
        if self._model.axes == "equator":
            return frames_of_date("eq", moment.times) if moment.of_date is None else moment.of_date
        return frames_of_date("ecl", moment.times) if self._model.axes == "ecliptic" else None

    def _spot(self, times: Floats, of_date: Floats) -> tuple[Floats, Floats, Floats]:
        """Where the place is from the Earth's centre in km, how it moves in km/s, and the direction of its zenith, on
        the axes of the source."""
        assert self._place is not None and self._rotation is not None
        erfa = erfa_package()
        longitude, latitude = np.radians([self._place.longitude, self._place.latitude])
        local = longitude + sidereal_angle(self._rotation, times, of_date)
        x, _, z = np.array(erfa.gd2gc(WGS84, 0.0, latitude, self._place.metres)) / 1_000
        cosine, sine, zero = np.cos(local), np.sin(local), np.zeros_like(local)
        across = np.cos(latitude)
        rows = np.array(
            [
                [x * cosine, x * sine, zero + z],
                [-ROTATION * x * sine, ROTATION * x * cosine, zero],
                [across * cosine, across * sine, zero + np.sin(latitude)],
            ]
        )
        spot, motion, zenith = (floats(np.einsum("nji,jn->in", of_date, row)) for row in rows)
        return spot, motion, zenith

    def places(self, times: Floats, bodies: Any, stars: Optional[Mapping[str, Any]] = None) -> dict[str, Floats]:
        """Places in km of bodies, and of stars of which each is a function of times, 3 by n, that gives its direction
        from the observer's place; `zenith` and `nadir` are directions."""
        moment = self._moment(times) if self._moments is None else self._moments.at(times, self._moment)
        for body in bodies:
            if body not in moment.made:
                moment.made[body] = self._place_of(body, moment)
        for name, star in (stars or {}).items():
            moment.made[name] = self._seen(floats(star(times, moment.here)), STAR_DISTANCE, None, moment)
        made = {name: moment.made[name] for name in (*bodies, *(stars or {}))}
        axes = self._axes(moment)
        return made if axes is None else {name: floats(np.einsum("nij,jn->in", axes, made[name])) for name in made}

    def _place_of(self, body: str, moment: _Moment) -> Floats:
        """The place of a body or a direction on the axes of the source."""
        if body not in ("zenith", "nadir"):
            return self._body(body, moment)
        assert moment.zenith is not None
        return moment.zenith * (ZENITH_DISTANCE if body == "zenith" else -ZENITH_DISTANCE)

    def _body(self, body: str, moment: _Moment) -> Floats:
        """The place of a body on the axes of the source."""
        place = self._series.body(body, moment.times) - moment.here
        far = length(place)
        if self._model.light_time:
            for _ in range(PASSES):
                sent = moment.times - far / LIGHT
                place = self._series.body(body, sent) - moment.here
                if body == "moon":
                    # (a double of all seconds has 10^-7 of one, in which the Moon goes some millimetres with the Earth)
                    place = place + moment.speed * (moment.times - sent - far / LIGHT)
                far = length(place)
        return self._seen(place / far, far, None if body == "sun" else place, moment, body == "sun")

    def _seen(self, toward: Floats, far: Any, place: Optional[Floats], moment: _Moment, is_sun: bool = False) -> Floats:
        """A direction, bent and turned by aberration, at its distance in km. Without a place it is that of a star."""
        erfa = erfa_package()
        from_sun = moment.here - moment.sun
        near = length(from_sun)
        made = np.ascontiguousarray(toward.T)
        if self._model.bending and not is_sun:
            source = made if place is None else (from_sun + place).T
            if place is not None:
                source = source / np.linalg.norm(source, axis=1)[:, None]
            made = erfa.ld(1.0, made, source, (from_sun / near).T, near / AU, DEFLECTION_LIMIT)
        if self._model.aberration:
            speed = moment.speed / LIGHT
            made = erfa.ab(made, np.ascontiguousarray(speed.T), near / AU, np.sqrt(1 - (speed**2).sum(axis=0)))
        return floats(made.T * far)

    def elongation(self, times: Floats, body: str, star: Any = None) -> Floats:
        """The angles in degrees between the Sun and a body, or a star, where it is beyond the Sun, as they are from the
        Earth's centre; else 180."""
        earth, sun = self._series.body("earth", times), self._series.body("sun", times)
        place = self._series.body(body, times) - earth if star is None else star(times, earth)
        toward = sun - earth
        cosine = (place * toward).sum(axis=0) / length(place) / length(toward)
        is_beyond = star is not None or length(place) > length(toward)
        return floats(np.where(is_beyond, np.degrees(np.arccos(np.clip(cosine, -1, 1))), 180.0))


def sidereal_angle(rotation: EarthRotation, times: Floats, of_date: Floats) -> Floats:
    """Greenwich apparent sidereal time in radians (ERFA's `gst06`) at seconds since J2000 (TDB). Days and what is after
    them are apart, so that it keeps the digits that a double of all seconds has not."""
    erfa = erfa_package()
    days = np.floor(times / DAY)
    rest = times - days * DAY
    behind = _tdb_less_tt(times)
    late = behind + rotation.delta_t(times - behind)
    date = J2000_DATE + days
    return floats(erfa.gst06(date, (rest - late) / DAY, date, rest / DAY, of_date))


def _dtdb(days: Floats) -> Any:
    return erfa_package().dtdb(J2000_DATE, days, 0.0, 0.0, 0.0, 0.0)


# TDB less TT in seconds.
TDB_LESS_TT = AtHalfDays(_dtdb, 1)


def _tdb_less_tt(times: Floats) -> Floats:
    """TDB less TT in seconds: by ERFA's `dtdb` at each half day, and straight between them, to 2 10^-8 seconds."""
    first, last = int(np.floor(times.min() / HALF_DAY)), int(np.ceil(times.max() / HALF_DAY))
    if last - first > 2 * len(times):
        return floats(_dtdb(times / DAY))
    at = np.arange(first, last + 1)
    return floats(np.interp(times, at * HALF_DAY, TDB_LESS_TT.rows(at)[0]))

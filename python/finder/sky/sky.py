"""`Sky`: the questions that are put to the sky of a place, and of the Earth's centre."""

from __future__ import annotations

import math
import warnings
from collections.abc import Iterable, Mapping
from dataclasses import replace
from typing import Any, Optional, TypeVar, Union

import numpy as np

from ..ephemeris.apparent_places import Model
from ..ephemeris.cache import Kept
from ..ephemeris.ephemeris import Ephemeris
from ..ephemeris.series import Series
from ..ephemeris.sky_text import SkyText
from ..process.program import Program, Runs, runs_of
from ..public import public
from ..reports.sets import TimeSet
from ..searches.numbers import cosine_of_degrees
from ..searches.times import Time, ticks_of_time
from ..seen.scales import Clock
from ..seen.vectors import Floats
from .bodies import PLANETS, title
from .centre import meetings, quarters, seasons, syzygies
from .earth_rotation import EarthRotation, earth_rotation
from .eclipses import LocalEclipse, eclipses_of, radii_of
from .flat import FlatText
from .horizon import TWILIGHTS, Horizon, checked_altitude, horizon_of, only, passes, said_of, twilight_of
from .meridian import check_meridian, culminations, transits
from .moments import ClockLike, Moment, Moments
from .nights import Nights, month_span, nights_of
from .occultations import Occultation, bodies_to_cover, occultations_of
from .place import Place
from .refraction import true_altitude
from .searching import SECOND, Searches, Span

Made = TypeVar("Made", bound="Sky")


@public
class NeverReached(UserWarning):
    """A body does not reach an altitude: the set of times is empty, and that is proved.

    >>> import finder
    >>> issubclass(finder.NeverReached, Warning), issubclass(finder.NeverReached, Exception)
    (True, True)
    """


@public
class Sky(SkyText):
    """The sky that is seen from a place on the Earth, or from its centre, and the questions that are put to it.

    `Ephemeris.sky` makes it. Each answer is a search over the text: the windows, at a tick of a second, are proved
    complete for the text, and inside them a search at a tick of a millisecond gives the time that is shown. How far the
    text is from what is seen is measured: `errors`.

    >>> import finder
    >>> eph = finder.Ephemeris.open("examples/de405-2000.asc")
    >>> sky = eph.sky("51.4769 N 0 E 46 m", "2000-06-20", "2000-06-22")
    >>> print(sky.rises("sun"))
    2000-06-20 03:42:34 UTC  sunrise  NE
    2000-06-21 03:42:45 UTC  sunrise  NE
    """

    _source: Optional[Ephemeris] = None
    _rotation: Optional[EarthRotation] = None
    _words: Mapping[str, Any] = {}

    def __init__(self, kept: Kept, program: Program = None) -> None:
        super().__init__(kept)
        self._program: Runs = runs_of(program, None)
        self._series: Optional[Series] = None
        self._centres: dict[str, Sky] = {}
        first, last = self.requested_span
        self._span: Span = (
            self.start if first is None else max(self.start, math.floor(first)),
            self.end if last is None else min(self.end, math.ceil(last)),
        )
        self.searches = Searches(self, self._program, self.axes)

    @classmethod
    def of(cls: type[Made], source: Ephemeris, *words: Any, **more: Any) -> Made:
        """The sky over a source, with the words of `Ephemeris.sky`; it keeps the source, for the Earth's centre."""
        place = words[0] if words else more.get("place")
        rotation = None if place is None else earth_rotation(delta_t=more.get("delta_t"))
        more["delta_t"] = rotation
        made = super().of(source, *words, **more)
        made._source, made._rotation = source, rotation
        made._words = {name: more[name] for name in ("cache",) if name in more}
        return made

    def between(self: Made, start: Time, end: Time) -> Made:
        """The same sky in a part of its span, from `start` to `end`, times of TDB or astropy's of any scale.

        >>> import finder
        >>> eph = finder.Ephemeris.open("examples/de405-2000.asc")
        >>> sky = eph.sky("51.4769 N 0 E 46 m", "2000-06-20", "2000-06-23")
        >>> print(sky.between("2000-06-21", "2000-06-22").sets("moon"))
        2000-06-21 07:51:38 UTC  moonset  WSW
        """
        first, last = ticks_of_time(start, SECOND, up=False), ticks_of_time(end, SECOND, up=True)
        if not self._span[0] <= first < last <= self._span[1]:
            raise ValueError(f"a part of a sky lies in its span and ends after it starts: {self!r}")
        return self._part((first, last))

    def _part(self: Made, span: Span) -> Made:
        """The same sky with another span, which shares the searches."""
        made = type(self).__new__(type(self))
        made.__dict__.update(self.__dict__)
        made._span = span
        return made

    def run_by(self: Made, program: Program) -> Made:
        """The same sky, whose searches a program makes."""
        made = self._part(self._span)
        made._program = runs_of(program, None)
        made.searches = Searches(made, made._program, self.axes)
        made._centres = {}
        return made

    def beside(self: Made, centre: Sky) -> Made:
        """The same sky, which takes one of the Earth's centre that was made before in place of making it."""
        if centre.place is not None:
            raise ValueError(f"the sky of the Earth's centre is wanted, and not that of {centre.place}")
        made = self._part(self._span)
        made._centres = {**self._centres, centre.axes: centre}
        return made

    @property
    def program(self) -> Runs:
        """The runs of the program that makes the searches."""
        return self._program

    @property
    def earth_rotation(self) -> Optional[EarthRotation]:
        """How the Earth turns in this sky; None for its centre."""
        return self._rotation

    @property
    def span(self) -> Span:
        """The span in which it is searched, in seconds since J2000 (TDB)."""
        return self._span

    def places(self, body: str, seconds: Any) -> Floats:
        """Where a body is seen at seconds since J2000 (TDB): three rows in km on the axes of the text, in doubles."""
        if self._series is None:
            self._series = Series(self)
        return self._series.from_origin(self.searches.column(body), seconds)

    def altaz(self, body: str, times: Any) -> tuple[Floats, Floats]:
        """The altitude and the azimuth of a body in degrees, at times of TDB, at astropy's of any scale, or at an array
        of seconds since J2000 (TDB). There is no refraction in them; the azimuth is from north over east."""
        self._needs_place("altaz")
        at = times if isinstance(times, np.ndarray) and times.dtype.kind in "fi" else _seconds_of(times)
        return self.searches.altaz(body, at)

    @property
    def bodies(self) -> tuple[str, ...]:
        """The bodies of the sky, without the zenith, the nadir and the observer."""
        return tuple(name for name in self.names if name not in ("zenith", "nadir", "earth", "ssb"))

    def centre(self, axes: str = "equator") -> Sky:
        """The sky of the Earth's centre in the same span, on axes: what phases, seasons and lunar eclipses stand on."""
        if self.place is None and self.axes == axes:
            return self
        if axes not in self._centres:
            if self._source is None:
                raise ValueError("this sky keeps no source: make it by Ephemeris.sky()")
            bodies = [body for body in ("sun", "moon", *PLANETS) if body in self._source.names]
            first, last = self.requested_span
            words = self._source, None, first, last, Model(axes=axes)
            self._centres[axes] = Sky.of(*words, bodies=bodies, **self._words)
        return self._centres[axes]._part(self._span)

    def _needs_place(self, question: str) -> Place:
        """The place; a `ValueError` says that a question has none."""
        if self.place is None:
            raise ValueError(f"{question}() is asked of a place, and this sky is of the Earth's centre: sky(place, ..)")
        return self.place

    # Risings, settings, twilight.

    def rises(
        self,
        body: str = "sun",
        *,
        altitude: Optional[float] = None,
        limb: Optional[str] = None,
        pressure: Optional[float] = None,
        temperature: Optional[float] = None,
        within: Optional[TimeSet] = None,
        precise: bool = True,
    ) -> Moments:
        """When a body rises: the Sun's centre at 50' below the horizon, the Moon's upper limb and the centre of a
        planet or a star at 34', which is refraction.

        With `pressure` in hPa and `temperature` in degrees Celsius the refraction is theirs. `altitude` in degrees
        without the air takes the place of the rule, and `limb` may be `upper`, `centre` or `lower`. Where it does not
        rise for days, `said` says so. `precise=False` leaves out the search at a millisecond.
        """
        words = body, altitude, limb, pressure, temperature
        return self._horizon("rises", words, lambda horizon: horizon.up, within, precise)

    def sets(
        self,
        body: str = "sun",
        *,
        altitude: Optional[float] = None,
        limb: Optional[str] = None,
        pressure: Optional[float] = None,
        temperature: Optional[float] = None,
        within: Optional[TimeSet] = None,
        precise: bool = True,
    ) -> Moments:
        """When a body sets, by the rules of `rises`."""
        words = body, altitude, limb, pressure, temperature
        return self._horizon("sets", words, lambda horizon: horizon.down, within, precise)

    def _horizon(
        self, question: str, words: tuple[Any, ...], name: Any, within: Optional[TimeSet], precise: bool
    ) -> Moments:
        self._needs_place(question)
        horizon = horizon_of(*words)
        made, said = self._passes(words[0], horizon, precise)
        return _within(only(made, name(horizon), said), within)

    def _passes(self, body: str, horizon: Horizon, precise: bool) -> tuple[list[Moment], str]:
        made = passes(self, self.searches, body, horizon, self._span, precise)
        return made, said_of(self.searches, body, made, horizon, self._span)

    def twilight(
        self, kind: str = "civil", *, within: Optional[TimeSet] = None, precise: bool = True
    ) -> Moments:
        """When a twilight begins and ends: dawn, at which the Sun's centre rises past 6 degrees below the horizon
        (`civil`), 12 (`nautical`) or 18 (`astronomical`), and dusk, at which it sinks past them."""
        self._needs_place("twilight")
        made, said = self._passes("sun", twilight_of(kind), precise)
        return _within(Moments(made, said), within)

    # The meridian.

    def transits(
        self, body: str = "sun", *, lower: bool = False, within: Optional[TimeSet] = None, precise: bool = True
    ) -> Moments:
        """When a body passes the meridian above the pole, or with `lower` below it."""
        check_meridian(self._needs_place("transits"), self.axes)
        return _within(Moments(transits(self.searches, body, lower, self._span, precise)), within)

    def culminations(self, body: str = "sun", *, within: Optional[TimeSet] = None, precise: bool = True) -> Moments:
        """When a body stands highest and lowest. That is not its transit: the Moon stands highest up to some minutes
        from it, as it moves toward a pole."""
        self._needs_place("culminations")
        return _within(Moments(culminations(self.searches, body, self._span, precise)), within)

    # Sets of times.

    def above(
        self,
        body: str,
        degrees: float = 0.0,
        *,
        pressure: Optional[float] = None,
        temperature: Optional[float] = None,
        within: Optional[TimeSet] = None,
    ) -> TimeSet:
        """The times at which the centre of a body is at least so many degrees high: without the air, or with `pressure`
        in hPa or `temperature` in degrees Celsius as it is seen through it.

        The sure times are proved: at each of them the body of the text is as high. A warning, `NeverReached`, says that
        it never is."""
        self._needs_place("above")
        altitude = true_altitude(checked_altitude(degrees), pressure, temperature)
        made = self._by_altitude(body, altitude, "atleast")
        if len(made.possible) == 0:
            highest = self._extreme_altitude(body, np.max)
            warnings.warn(
                f"{title(body)} does not reach {degrees:g} degrees in this sky: it is at most {highest:.1f} degrees "
                "high",
                NeverReached,
                stacklevel=2,
            )
        return made if within is None else made & within

    def dark(self, kind: str = "astronomical", *, within: Optional[TimeSet] = None) -> TimeSet:
        """The times at which the Sun's centre is more than 18 degrees below the horizon, or with `"nautical"` 12, with
        `"civil"` 6. A warning, `NeverReached`, says that it is never dark."""
        self._needs_place("dark")
        altitude = twilight_of(kind).altitude
        made = self.below_sun(kind)
        if len(made.possible) == 0:
            lowest = self._extreme_altitude("sun", np.min)
            warnings.warn(
                f"it is never dark in this sky: the Sun is at most {-lowest:.1f} degrees below the horizon, and "
                f"{-altitude:g} are wanted: ask dark('civil')",
                NeverReached,
                stacklevel=2,
            )
        return made if within is None else made & within

    def below_sun(self, kind: str) -> TimeSet:
        """The times of `dark`, without a warning if there are none."""
        self._needs_place("dark")
        return self._by_altitude("sun", twilight_of(kind).altitude, "less")

    def by_altitude(self, body: str, degrees: float) -> TimeSet:
        """The times of `above`, without a warning if there are none."""
        self._needs_place("above")
        return self._by_altitude(body, checked_altitude(degrees), "atleast")

    def _by_altitude(self, body: str, altitude: float, relation: str) -> TimeSet:
        """The times at which a body is at least at an altitude, or below it: of two searches, for the decimals on both
        sides of the cosine of its zenith distance."""
        distance = repr(90.0 - altitude)
        ups = dict.fromkeys(cosine_of_degrees(distance, up=up) for up in (relation == "atleast", relation == "less"))
        sure, *possible = (
            self.searches.times("sep", body, "zenith", self._span, SECOND, relation=relation, ref=ref) for ref in ups
        )
        return sure.up_to(possible[0]) if possible else sure

    def _extreme_altitude(self, body: str, extreme: Any) -> float:
        """The greatest or least altitude of a body, of each ten minutes."""
        seconds = np.arange(self._span[0], self._span[1], 600.0)
        return float(extreme(self.searches.altaz(body, seconds)[0]))

    def nights(self, times: TimeSet, month: Optional[str] = None, clock: ClockLike = "utc") -> Nights:
        """A table of nights, from one local mean noon to the next, with what of a set lies in each: of a `month`, as
        `"2000-07"`, or of the set's whole span."""
        place = self._needs_place("nights")
        made = Clock.of(clock)
        start, end = (times.start / times.tick, times.end / times.tick)
        if month is not None:
            start, end = month_span(month, made)
        return nights_of(times, place.longitude, start, end, made)

    # Eclipses, occultations, phases, seasons, meetings.

    def eclipses(
        self, *, radii: Optional[Mapping[str, float]] = None, precise: bool = True
    ) -> tuple[LocalEclipse, ...]:
        """The eclipses of the Sun at the place, those of the Moon with its altitude there, and transits of Mercury and
        Venus; those that are below the horizon too, which `is_visible` tells. `radii` in km take the place of the usual
        ones: of `sun`, `moon`, planets, and `shadow`, the Earth's for its shadow."""
        return eclipses_of(self, self.searches, self.centre(), self._span, precise, radii)

    def occultations(
        self,
        body: Union[None, str, Iterable[str]] = None,
        *,
        radii: Optional[Mapping[str, float]] = None,
        precise: bool = True,
    ) -> tuple[Occultation, ...]:
        """When the Moon covers a body, several, or without one all planets and stars of the sky."""
        bodies = self.bodies if body is None else [body] if isinstance(body, str) else list(body)
        sizes = radii_of(radii)
        return occultations_of(self, self.searches, bodies_to_cover(bodies), self._span, precise, sizes)

    def phases(self, *, precise: bool = True) -> Moments:
        """New and full moons and quarters, of longitudes on the ecliptic of date from the Earth's centre."""
        ecliptic = self.centre("ecliptic")
        made = syzygies(ecliptic.searches, self._span, precise)
        made += quarters(Searches(FlatText(ecliptic), self._program, "ecliptic"), self._span, precise)
        return Moments(self.searches.placed("moon", made))

    def seasons(self, *, precise: bool = True) -> Moments:
        """Equinoxes and solstices, of the Sun's longitude on the ecliptic of date from the Earth's centre."""
        return Moments(self.searches.placed("sun", seasons(self.centre("ecliptic").searches, self._span, precise)))

    def meetings(
        self, bodies: Optional[Iterable[str]] = None, *, within: Optional[TimeSet] = None, precise: bool = True
    ) -> Moments:
        """When two of some bodies, or of all planets of the sky, have one right ascension of date, as it is seen from
        the place or the centre."""
        if self.axes != "equator":
            raise ValueError(f"meetings are of the equator of date, and this sky is on the axes {self.axes}")
        given = [body for body in PLANETS if body in self.names] if bodies is None else list(bodies)
        return _within(Moments(meetings(self, self.searches, given, self._span, precise)), within)


def _within(found: Moments, times: Optional[TimeSet]) -> Moments:
    """The moments that lie in a set: those that are possible in it, each of which says whether it is sure."""
    if times is None:
        return found
    made = []
    for each in found:
        near = math.floor(each.seconds * times.tick), math.ceil(each.seconds * times.tick)
        sure, possible = ([bool(((rows.first <= at) & (at <= rows.last)).any()) for at in near] for rows in times.rows)
        if any(possible):
            made.append(replace(each, is_within=all(sure) or None))
    return Moments(made, found.said)


def _seconds_of(times: Any) -> Floats:
    given = times if isinstance(times, (list, tuple)) else [times]
    return np.array([ticks_of_time(each, 1_000, up=False) / 1_000 for each in given])


__all__ = ["NeverReached", "Sky", "TWILIGHTS"]

"""`SkyText`: the sky that is seen from the Earth's centre or from a place on the Earth, as a text that is searched."""

from __future__ import annotations

from collections.abc import Iterable, Mapping
from dataclasses import asdict, dataclass
from typing import Any, Optional, TypeVar, Union

import numpy as np

from ..public import public
from ..reports.calendar import DAY
from ..searches.times import Time
from ..seen.vectors import Floats
from ..sky.earth_rotation import EarthRotation, earth_rotation
from ..sky.place import Place, PlaceLike
from . import writing
from .apparent_places import ZENITH_DISTANCE, ApparentSky, Model, SharedMoments
from .cache import Made, kept, key_of
from .chebyshev import Grid
from .columns import columns_of, words_of
from .ephemeris import Ephemeris, seconds_of_time
from .fitting import (
    ARC_SECONDS,
    FitError,
    Motions,
    Tolerance,
    compared,
    errors_to_keep,
    fitted,
    refuse,
    times_of_check,
)
from .series import Series
from .stars import STAR_DISTANCE, Star, star_of
from .text import DATE_STEP, EphemerisText, WrongText, span_text
from .versions import versions

# A granule of a place is a day, in which the Earth turns once: 18 coefficients leave 10^-7 arc seconds of the zenith.
# The most coefficients, to what a series is fitted, and the largest error that is let through.
COEFFICIENTS = 20
# The days of a granule of the Earth's centre, the first ones that the source has.
CENTRE_DAYS = (4, 2)
FITTED = Tolerance(arcseconds=1e-6)
TOLERANCE = Tolerance(arcseconds=3e-6)
# The seconds before the span that the source needs: light takes 7 hours from Pluto at its farthest.
LIGHT_WAY = 27_000
# What is seen by default, in this order, as far as the source has it and the text has columns.
BODIES = ("sun", "moon", "mercury", "venus", "mars", "jupiter", "saturn", "uranus", "neptune", "pluto")
DIRECTIONS = ("zenith", "nadir")
MAX_BODIES = 10
# Within so many degrees of the Sun's centre a body beyond it is compared at so many times a day.
NEAR_SUN = 2.5
TIMES_NEAR_SUN = 96
# A number that is changed where the same sources give another text.
VERSION = 1
PACKAGES = ("numpy", "pyerfa")
Sky = TypeVar("Sky", bound="SkyText")


@public
@dataclass(frozen=True)
class Edge:
    """A span in which the motion of a body has an edge that its series does not follow: light that passes the Sun
    within its disc. `start` and `end` in seconds since J2000 (TDB), and the largest error in arc seconds.

    >>> sky = Ephemeris.open("examples/de405-2000.asc").sky(None, "2000-05-01", "2000-06-01")
    >>> [(edge.body, edge.arcseconds < 1) for edge in sky.edges]
    [('mercury', True)]
    """

    body: str
    start: float
    end: float
    arcseconds: float

    def __str__(self) -> str:
        return (
            f"{self.body} beyond the Sun, {span_text(self.start, self.end)}: up to {self.arcseconds:.2g} arc seconds, "
            "as the bending of light has an edge at the Sun"
        )


@public
class SkyText(Ephemeris):
    """The text of an apparent sky. The observer is its origin, so that `observer="earth"`, which is the default, is the
    place or the Earth's centre. A place's text has `zenith` and `nadir`, directions at 100,000 km; stars are at 10^9
    km.

    >>> eph = Ephemeris.open("examples/de405-2000.asc")
    >>> sky = eph.sky("51.4769 N 0 E 46 m", "2000-06-01", "2000-06-08", delta_t=63.8)
    >>> sky.names["zenith"], sky.place.latitude, round(sky.errors["moon"].largest_arcseconds, 5)
    ('pluto', 51.4769, 0.0)
    """

    @classmethod
    def of(
        cls: type[Sky],
        source: Ephemeris,
        place: Optional[PlaceLike] = None,
        start: Optional[Time] = None,
        end: Optional[Time] = None,
        model: Model = Model(),
        *,
        delta_t: Union[None, float, EarthRotation] = None,
        bodies: Optional[Iterable[str]] = None,
        stars: Optional[Mapping[str, Any]] = None,
        cache: bool = True,
        moments: Optional[SharedMoments] = None,
    ) -> Sky:
        """The sky over a source, with the words of `Ephemeris.sky`. `moments` are those that skies of this span and
        these bodies from the Earth's centre have in common."""
        spot = None if place is None else Place.of(place)
        rotation = None if spot is None else earth_rotation(delta_t=delta_t)
        seen = {name: star_of(star, name) for name, star in (stars or {}).items()}
        requested = _grid(source, seconds_of_time(start), seconds_of_time(end), CENTRE_DAYS if spot is None else ())
        making = _Making(source, spot, rotation, model, _bodies(source, bodies, spot, seen), seen, requested, moments)
        return cls(kept(making.key(), making.make, cache))

    @property
    def place(self) -> Optional[Place]:
        """The place, or None for the Earth's centre."""
        place = self._kept.about["sky"]["place"]
        return None if place is None else Place(*place)

    @property
    def model(self) -> Model:
        """What is counted of the way of light, and the axes."""
        return Model(**self._kept.about["sky"]["model"])

    @property
    def axes(self) -> str:
        """The axes on which places stand: `equator` and `ecliptic` of date, or `j2000`."""
        return self.model.axes

    @property
    def edges(self) -> tuple[Edge, ...]:
        """The spans in which a series is farther from its motion than elsewhere, with the largest error."""
        return tuple(Edge(**edge) for edge in self._kept.about["sky"]["edges"])

    @property
    def rotation(self) -> str:
        """What UT1 stands on, a sentence; empty for the Earth's centre."""
        return str(self._kept.about["sky"]["rotation"])


def _bodies(
    source: Ephemeris, bodies: Optional[Iterable[str]], place: Optional[Place], stars: Mapping[str, Star]
) -> list[str]:
    """The names of a sky without its stars: those that are asked for, or as many as the text has columns for."""
    directions = () if place is None else DIRECTIONS
    if bodies is not None:
        asked = [bodies] if isinstance(bodies, str) else list(bodies)
        for body in asked:
            if body in DIRECTIONS and place is None:
                raise ValueError(f"{body} is a direction at a place: name one, as sky(finder.Place(52.52, 13.40))")
            if body not in (*BODIES, *DIRECTIONS) or (body in BODIES and body not in source.names):
                there = [each for each in BODIES if each in source.names]
                raise ValueError(f"no body of this sky is {body!r}: there are {', '.join((*there, *directions))}")
        made = [*asked, *(each for each in directions if each not in asked)]
    else:
        there = [body for body in BODIES if body in source.names]
        made = [*there[: MAX_BODIES - len(directions) - len(stars)], *directions]
    if len(made) + len(stars) > MAX_BODIES:
        names = ", ".join((*made, *stars))
        raise ValueError(f"a sky has at most {MAX_BODIES} bodies, and these are {names}: name fewer by bodies=")
    return made


def _grid(source: Ephemeris, start: Optional[float], end: Optional[float], days: tuple[int, ...]) -> Requested:
    """The span of a sky, which is that asked for, or that of which the source has all light; and granules about it, of
    the first of some numbers of days for which the source reaches. They begin at a midnight, as those of JPL do."""
    low, high = source.start + LIGHT_WAY, source.end
    requested_start, requested_end = source.requested_span
    first = start if start is not None else requested_start if requested_start is not None else _midnight(low + DAY - 1)
    last = end if end is not None else requested_end if requested_end is not None else _midnight(high)
    begin = _midnight(first) if _midnight(first) >= low else int(np.floor(first / DATE_STEP)) * DATE_STEP
    count = int(np.ceil((last - begin) / DAY))
    if count < 1:
        raise WrongText(f"a sky has one day at least, and {span_text(first, last)} has none: name start= before end=")
    if begin < low or begin + count * DAY > high:
        raise WrongText(
            f"the sky of {span_text(first, last)} wants the places of "
            f"{span_text(begin - LIGHT_WAY, begin + count * DAY)}, as "
            f"light takes its time, and the source has {span_text(source.start, source.end)}: name a shorter span, or "
            "open more of the source"
        )
    size = next(each for each in (*days, 1) if begin + -(-count // each) * each * DAY <= high)
    return Requested(first, last, Grid(begin, float(size * DAY), -(-count // size)))


def _midnight(seconds: float) -> int:
    """The midnight of TDB at seconds since J2000, or the one before them."""
    return int(np.floor((seconds + DAY / 2) / DAY)) * DAY - DAY // 2


@dataclass(frozen=True)
class Requested:
    """The span that is asked for, in seconds since J2000 (TDB), and the granules about it."""

    start: float
    end: float
    grid: Grid


@dataclass(frozen=True)
class _Making:
    """All that a sky is made of."""

    source: Ephemeris
    place: Optional[Place]
    rotation: Optional[EarthRotation]
    model: Model
    bodies: list[str]
    stars: Mapping[str, Star]
    requested: Requested
    moments: Optional[SharedMoments] = None

    @property
    def grid(self) -> Grid:
        """The granules."""
        return self.requested.grid

    def key(self) -> str:
        """The key of the text: by the source, the place, how the Earth turns, the model, the bodies and the
        versions."""
        turns = b"" if self.rotation is None else self.rotation.delta_t(self.grid.starts).tobytes()
        stars = {name: asdict(star) for name, star in self.stars.items()}
        facts = [self.source.sha256, self._place(), self._sentence(), asdict(self.model), self.bodies, stars]
        distances = [ZENITH_DISTANCE, STAR_DISTANCE]
        return key_of(["sky", VERSION, versions(*PACKAGES), *facts, turns, asdict(self.requested), distances])

    def _place(self) -> Optional[list[float]]:
        return None if self.place is None else [self.place.latitude, self.place.longitude, self.place.metres]

    def _sentence(self) -> str:
        return "" if self.rotation is None else self.rotation.sentence(self.grid.start, self.grid.end)

    def make(self) -> Made:
        """The files of the text, and what is known of it."""
        series = Series(self.source, self.grid.start - LIGHT_WAY, self.grid.end)
        sky = ApparentSky(series, self.place, self.rotation, self.model, self.moments)
        names = [*self.bodies, *self.stars]
        fits = fitted(self._motions(sky, names), self.grid, COEFFICIENTS, dict.fromkeys(names, FITTED))
        edges, errors = self._errors(sky, fits)
        words = words_of(names)
        text = EphemerisText(
            self.grid.start,
            int(self.grid.length),
            self.grid.count,
            columns_of({words[name]: (fit, 1) for name, fit in fits.items()}),
            titles=self._titles(words, errors, edges),
        )
        return Made(writing.files(text), self._about(text, words, errors, edges), text)

    def _motions(self, sky: ApparentSky, names: Iterable[str]) -> Motions:
        """The motions of some of the bodies and stars."""
        wanted = set(names)
        bodies = [body for body in self.bodies if body in wanted]
        stars = {name: star.direction for name, star in self.stars.items() if name in wanted}
        return lambda times: sky.places(times, bodies, stars)

    def _about(
        self, text: EphemerisText, words: Mapping[str, str], errors: Mapping[str, FitError], edges: list[Edge]
    ) -> dict[str, Any]:
        """What is known of the text."""
        return {
            "name": "sky",
            "start": text.start,
            "end": text.end,
            "asked": [self.requested.start, self.requested.end],
            "names": {**words, "earth": "earth", "ssb": "ssb"},
            "errors": errors_to_keep(errors),
            "titles": list(text.titles),
            "origin": "earth",
            "frames": ["eq", "ecl"] if self.model.axes == "j2000" else ["eq"],
            "sky": {
                "place": self._place(),
                "model": asdict(self.model),
                "rotation": self._sentence(),
                "edges": [asdict(edge) for edge in edges],
            },
        }

    def _errors(self, sky: ApparentSky, fits: Mapping[str, Floats]) -> tuple[list[Edge], dict[str, FitError]]:
        """The edges, and the errors outside of them: a series that is worse elsewhere is refused."""
        granules, times = times_of_check(self.grid)
        edges: list[Edge] = []
        errors = {}
        for name, each in compared(self._motions(sky, fits), self.grid, fits, granules, times).items():
            near = _near_sun(sky, name, self.stars, self.grid)
            advice = "the source has a jump there, or is none of the solar system"
            refuse(name, each.at(~np.isin(granules, near)), TOLERANCE, advice)
            found, inside = self._edges(sky, name, fits[name], near)
            edges += found
            errors[name] = each.error(~np.isin(granules, inside))
        return edges, errors

    def _edges(self, sky: ApparentSky, name: str, fit: Floats, near: Any) -> tuple[list[Edge], list[int]]:
        """The edges of a body, of the granules in which it is near the Sun; and the granules that they are in."""
        if not len(near):
            return [], []
        granules = np.repeat(near, TIMES_NEAR_SUN)
        part = np.tile((np.arange(TIMES_NEAR_SUN) + 0.5) / TIMES_NEAR_SUN, len(near))
        times = self.grid.starts[granules] + self.grid.length * part
        off = compared(self._motions(sky, [name]), self.grid, {name: fit}, granules, times)[name]
        angles = (off.off / off.far * ARC_SECONDS).reshape(len(near), -1).max(axis=1)
        wrong = near[angles > TOLERANCE.arcseconds]
        made = []
        for run in np.split(wrong, np.flatnonzero(np.diff(wrong) > 1) + 1) if len(wrong) else []:
            largest = float(angles[np.isin(near, run)].max())
            made.append(
                Edge(
                    name, float(self.grid.starts[run[0]]), float(self.grid.starts[run[-1]] + self.grid.length), largest
                )
            )
        return made, wrong.tolist()

    def _titles(self, words: Mapping[str, str], errors: Mapping[str, Any], edges: list[Edge]) -> tuple[str, ...]:
        where = f"from {self.place}" if self.place else "from the centre of the Earth"
        columns = ", ".join(f"{name} in the column {word}" for name, word in words.items() if name != word)
        lines = [
            f"The sky {where}, {span_text(self.grid.start, self.grid.end)}, written by finder.",
            f"Counted: {self.model}.",
            *([self._sentence()] if self.rotation else []),
            f"Source: SHA-256 {self.source.sha256}, {span_text(self.source.start, self.source.end)}.",
            *self.source.titles,
            *([f"Names: {columns}."] if columns else []),
            f"Zenith and nadir are at {ZENITH_DISTANCE:g} km, stars at {STAR_DISTANCE:g} km.",
            f"Versions: {versions(*PACKAGES)}.",
            *(f"Fit of {name}: {error}." for name, error in errors.items()),
            *(f"Edge: {edge}." for edge in edges),
        ]
        return tuple(lines)


def _near_sun(sky: ApparentSky, name: str, stars: Mapping[str, Star], grid: Grid) -> Any:
    """The granules in which a body or a star beyond the Sun comes near it."""
    if name in ("sun", *DIRECTIONS):
        return np.empty(0, int)
    times = grid.start + grid.length / 4 * np.arange(4 * grid.count + 1)
    angles = sky.elongation(times, name, stars[name].direction if name in stars else None)
    least = np.minimum.reduceat(angles[:-1], np.arange(0, 4 * grid.count, 4))
    return np.flatnonzero(np.minimum(least, angles[4::4]) < NEAR_SUN)

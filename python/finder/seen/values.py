"""The numbers at events: distances, directions, angles, elongations. In doubles: nothing is proved of them."""

from __future__ import annotations

from collections.abc import Iterator
from dataclasses import dataclass
from typing import Any, Optional, Union

import numpy as np
import numpy.typing as npt

from .. import spans
from ..ephemeris.named import refuse_sky
from ..ephemeris.names import Files
from ..ephemeris.order import J2000_DATE
from ..ephemeris.series import Series
from ..public import public
from ..reports.windows import Windows
from .apparent import ApparentPlaces
from .curves import Curve
from .seen import GEOMETRIC, Seen, SeenCurve, middles
from .vectors import AU, Floats, angle, floats, latitude, length, longitude, wrapped

# The columns of a place, and their units.
PLACE_UNITS = {"distance_km": "km", "distance_au": "AU", "ra": "deg", "dec": "deg", "lon": "deg", "lat": "deg"}


@public
@dataclass(frozen=True)
class Coordinates:
    """Where a body is from the observer, as arrays with a number for each window: `distance_km`, and in degrees `ra` (0
    to 360) and `dec` of the equator, `lon` (0 to 360) and `lat` of the ecliptic.

    >>> import finder
    >>> year = "examples/de405-2000.asc"
    >>> found = finder.oppositions(year, "jupiter", observer="earth", frame="ecl")
    >>> where = finder.values(found).target
    >>> where.body, where.distance_au.round(3), where.lon.round(2)
    ('jupiter', array([4.05]), array([66.14]))
    """

    body: str
    distance_km: Floats
    ra: Floats
    dec: Floats
    lon: Floats
    lat: Floats

    @property
    def distance_au(self) -> Floats:
        """The distances in astronomical units of 149,597,870.7 km."""
        return floats(self.distance_km / AU)


@public
@dataclass(frozen=True)
class Values:
    """What `values` gives, in doubles and unproved: arrays with a number for each window.

    `seconds` are the times of the numbers, since J2000 (TDB). `angle` is that between target and second body in degrees
    (None without one), `elongation` that between target and Sun in degrees and `east` whether the target's ecliptic
    longitude is ahead of the Sun's, so that it is an evening body. Both are None where the target is the Sun, and from
    the Sun and the barycentre. `function` is the request's function, in `unit`: about 0 at an event, above 0 after a
    rise. `apparent` says whether these are places as they are seen, and `of_date` whether they are on axes of date.
    Where a time is missing numbers are NaN, and `east` is False.

    >>> import finder
    >>> year = "examples/de405-2000.asc"
    >>> found = finder.oppositions(year, "jupiter", observer="earth", frame="ecl")
    >>> numbers = finder.values(found)
    >>> numbers.target.distance_au.round(3), numbers.elongation.round(1), len(numbers)
    (array([4.05]), array([179.1]), 1)
    """

    seconds: Floats
    target: Coordinates
    second: Optional[Coordinates]
    angle: Optional[Floats]
    elongation: Optional[Floats]
    east: Optional[npt.NDArray[np.bool_]]
    function: Floats
    unit: str
    apparent: bool
    of_date: bool

    def __len__(self) -> int:
        return len(self.seconds)

    def __repr__(self) -> str:
        places = "apparent" if self.apparent else "geometric"
        axes = "of date" if self.of_date else "of J2000"
        return f"<Values of {len(self)} events, {places}, {axes}, in doubles, unproved>"

    def __iter__(self) -> Iterator[dict[str, Any]]:
        """The numbers of each window, by the names of their columns."""
        columns = self.columns()
        for place in range(len(self)):
            yield {name: column[place].item() for name, column in columns.items()}

    def time(self) -> Any:
        """The times of the numbers as an astropy `Time` of scale TDB."""
        from astropy.time import Time

        days, rest = np.divmod(self.seconds, spans.DAY)
        return Time(J2000_DATE + days, rest / spans.DAY, format="jd", scale="tdb")

    def _units(self) -> dict[str, tuple[Any, str]]:
        """All columns by their names, each with its unit."""
        made: dict[str, tuple[Any, str]] = {"seconds": (self.seconds, "s")}
        for role, place in (("target", self.target), ("second", self.second)):
            if place is not None:
                made.update({f"{role}_{name}": (getattr(place, name), unit) for name, unit in PLACE_UNITS.items()})
        of_angle = {"angle": (self.angle, "deg"), "elongation": (self.elongation, "deg"), "east": (self.east, "")}
        made.update({name: row for name, row in of_angle.items() if row[0] is not None})
        return {**made, "function": (self.function, "")}

    def columns(self) -> dict[str, Any]:
        """All arrays by names, as for a table: seconds since J2000 (TDB); for target and second body distances in km
        and in astronomical units, and directions in degrees; angles in degrees; the function in `unit`."""
        return {name: column for name, (column, _) in self._units().items()}

    def to_pandas(self) -> Any:
        """A `DataFrame` of pandas with the columns, and in its `attrs` what they are."""
        import pandas

        made = pandas.DataFrame(self.columns())
        made.attrs.update(self._about())
        return made

    def to_table(self) -> Any:
        """A `Table` of astropy with the columns and their units, and in its `meta` what they are."""
        from astropy.table import Table

        units = {name: unit for name, (_, unit) in self._units().items() if unit}
        return Table(self.columns(), units=units, meta=self._about())

    def _about(self) -> dict[str, Any]:
        return {"about": repr(self), "function": self.unit}


@public
def values(
    found: Windows,
    files: Optional[Files] = None,
    *,
    at: Union[Seen, Floats, None] = None,
    apparent: bool = False,
    of_date: bool = False,
    series: Optional[Series] = None,
) -> Values:
    """The numbers at the events of a search: in doubles and unproved, of the files, which are read again, or of
    `series`, what was read of them before.

    They are those of the middle of each window, in which the event is, or of the times `at`: what `seen` gave, or
    seconds since J2000 (TDB), one for each window. Places are geometric, as the search's are, on the axes of J2000;
    with `apparent` they are those of bodies as they are seen, and with `of_date` on the axes of date, which is for
    `apparent` ones alone and needs erfa. Where a time is missing, or the files have no place, numbers are NaN.

    >>> import finder
    >>> year = "examples/de405-2000.asc"
    >>> best = finder.separation_extremes(year, "mercury", "sun", end="2000-04-01", observer="earth", dir="rise")
    >>> finder.values(best).elongation.round(1)
    array([18.1, 27.8])
    """
    if not isinstance(found, Windows):
        raise TypeError(f"the windows of a search are wanted, and not {type(found).__name__}")
    refuse_sky(found.files if files is None else files, "values")
    if of_date and not apparent:
        raise ValueError("places of date are those of bodies as they are seen: apparent=True, of_date=True")
    seconds = middles(found) if at is None else at.seconds if isinstance(at, Seen) else floats(at)
    if seconds.shape != (len(found),):
        raise ValueError(f"one time for each of {len(found)} windows is wanted, and not an array of {seconds.shape}")
    made = series_about(files, series, seconds, found)
    if not apparent or found.request_words["kind"] in GEOMETRIC:
        curve = Curve(made, found.request_words)
    else:
        curve = SeenCurve(made, found.request_words, of_date, bending=True, phases=False)
    return _numbers(curve, ApparentPlaces(made, of_date) if apparent else made, found.request_words, seconds, apparent, of_date)


def _numbers(
    curve: Curve,
    sky: Union[Series, ApparentPlaces],
    asked: dict[str, str],
    seconds: Floats,
    apparent: bool,
    of_date: bool,
) -> Values:
    """The numbers at some times, of the places in a sky and the function of a request."""
    observer, roles = asked["observer"], [role for role in ("target", "second") if asked[role] != "-"]
    eq, ecl = ({role: sky.seen(asked[role], observer, frame, seconds) for role in roles} for frame in ("eq", "ecl"))
    places = {role: _place(asked[role], eq[role], ecl[role]) for role in roles}
    elongation = east = None
    if asked["target"] != "sun" and observer not in ("sun", "ssb"):
        sun = sky.seen("sun", observer, "ecl", seconds)
        elongation, east = angle(ecl["target"], sun), wrapped(longitude(ecl["target"]) - longitude(sun)) > 0
    return Values(
        seconds=seconds,
        target=places["target"],
        second=places.get("second"),
        angle=angle(eq["target"], eq["second"]) if "second" in eq else None,
        elongation=elongation,
        east=east,
        function=curve.at(seconds),
        unit=curve.unit,
        apparent=apparent,
        of_date=of_date,
    )


def series_about(files: Optional[Files], series: Optional[Series], seconds: Floats, found: Windows) -> Series:
    """What is read of the files about some times, or about the begin of a search's span where there are none."""
    if series is not None:
        return series
    files = found.files if files is None else files
    if files is None:
        raise TypeError("the files of the search are wanted, or a series of them")
    some = seconds[~np.isnan(seconds)]
    low, high = (some.min(), some.max()) if len(some) else (found.start / found.tick,) * 2
    # (light comes from some hours before)
    return Series(files, float(low) - spans.DAY, float(high) + spans.DAY)


def _place(body: str, eq: Floats, ecl: Floats) -> Coordinates:
    """A place, of its vectors in both frames."""
    return Coordinates(body, length(eq), longitude(eq) % 360, latitude(eq), longitude(ecl) % 360, latitude(ecl))

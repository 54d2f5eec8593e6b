"""A place on the Earth: latitude, longitude and height above the ellipsoid of WGS84."""

from __future__ import annotations

import math
import re
from collections.abc import Iterable, Mapping
from dataclasses import dataclass
from typing import Any, Optional, Union

from ..public import public

# The heights above the ellipsoid at which an observer may stand, in metres: the shore of the Dead Sea lies at -440,
# and air ends at about 100 km.
LOWEST, HIGHEST = -500.0, 100_000.0
# A number with its minutes and seconds, if it has any, and its letter: `52.52 N`, `52°31'12"N`, `-33.9`.
ANGLE = re.compile(
    r"\s*(?P<sign>[+\-−]?)(?P<degrees>[0-9]+(?:\.[0-9]*)?)\s*(?:°|d|deg)?"
    r"(?:\s*(?P<minutes>[0-9]+(?:\.[0-9]*)?)\s*['′])?"
    r"(?:\s*(?P<seconds>[0-9]+(?:\.[0-9]*)?)\s*(?:\"|″|''))?"
    r"\s*(?P<letter>[NSEWnsew]?)(?![A-Za-z])\s*,?"
)
HEIGHT = re.compile(r"\s*(?P<height>[+\-−]?[0-9]+(?:\.[0-9]*)?)\s*(?P<unit>m|km)?\s*")
EXAMPLE = "write it as 52.52 N 13.40 E, or as 52.52,13.40 with north and east positive"


@public
@dataclass(frozen=True)
class Place:
    """A place on the Earth, by `latitude` and `longitude` in degrees, north and east positive, and `metres` above the
    ellipsoid of WGS84.

    The longitude may be from -180 to 360, and is kept from -180 to 180. A `ValueError` says what is wrong with a place
    that is none: a latitude past 90, a longitude past 360, a height inside the Earth.

    >>> Place(52.52, 13.40, 34)
    Place(latitude=52.52, longitude=13.4, metres=34.0)
    >>> print(Place(-33.8568, 208.7847))
    33.8568 S 151.2153 W, 0 m
    """

    latitude: float
    longitude: float
    metres: float = 0.0

    def __post_init__(self) -> None:
        latitude = _degrees("latitude", self.latitude)
        longitude = _degrees("longitude", self.longitude)
        metres = _number("metres", self.metres, "m", "metres above the ellipsoid, as 34")
        if not -90 <= latitude <= 90:
            swapped = abs(longitude) <= 90 and abs(latitude) <= 360
            hint = "; the latitude comes first, and the longitude after it" if swapped else ""
            raise ValueError(f"a latitude is from -90 to 90 degrees, and not {latitude:g}{hint}")
        if not -180 <= longitude <= 360:
            raise ValueError(f"a longitude is from -180 to 360 degrees, east positive, and not {longitude:g}")
        if metres < LOWEST:
            raise ValueError(
                f"a place at {metres:g} metres lies inside the Earth: write metres above the ellipsoid, from {LOWEST:g}"
            )
        if metres > HIGHEST:
            raise ValueError(f"a place at {metres:g} metres is not on the Earth: write metres, up to {HIGHEST:g}")
        object.__setattr__(self, "latitude", latitude)
        object.__setattr__(self, "longitude", longitude - 360 if longitude > 180 else longitude)
        object.__setattr__(self, "metres", metres)

    @classmethod
    def of(cls, place: Any) -> Place:
        """A place of any usual form: a `Place`, a text, an `EarthLocation` of astropy, a `wgs84.latlon` of Skyfield, or
        two or three numbers.

        >>> Place.of("52.52 N 13.40 E")
        Place(latitude=52.52, longitude=13.4, metres=0.0)
        >>> Place.of("33°51'24\\"S 151°12'55\\"E 40 m").metres
        40.0
        >>> Place.of((52.52, 13.40))
        Place(latitude=52.52, longitude=13.4, metres=0.0)

        A `ValueError` or a `TypeError` says what is wrong.
        """
        if isinstance(place, Place):
            return place
        if isinstance(place, str):
            return _of_text(place)
        made = _of_skyfield(place) or _of_astropy(place)
        if made is not None:
            return made
        if isinstance(place, Iterable) and not isinstance(place, (bytes, Mapping)):
            numbers = list(place)
            if len(numbers) in (2, 3):
                return cls(*numbers)
        raise TypeError(
            f"a place is finder.Place(52.52, 13.40), a text as '52.52 N 13.40 E', an EarthLocation of astropy or a "
            f"wgs84.latlon of Skyfield, and not {place!r}"
        )

    def __str__(self) -> str:
        north, east = "NS"[self.latitude < 0], "EW"[self.longitude < 0]
        return f"{abs(self.latitude):.4f} {north} {abs(self.longitude):.4f} {east}, {self.metres:g} m"


# What a call takes for a place.
PlaceLike = Union[Place, str, tuple[float, float], tuple[float, float, float], Any]


def _number(name: str, value: Any, unit: str, wanted: str) -> float:
    """A finite number, or that of a quantity in the unit."""
    given = value
    if hasattr(value, "to_value"):
        value = value.to_value(unit)
    if isinstance(value, (bool, str, bytes)):
        raise TypeError(f"{name} is a number of {wanted}, and not {given!r}")
    try:
        number = float(value)
    except (TypeError, ValueError):
        raise TypeError(f"{name} is a number of {wanted}, and not {given!r}") from None
    if not math.isfinite(number):
        raise ValueError(f"{name} is a finite number of {wanted}, and not {given!r}")
    return number


def _degrees(name: str, value: Any) -> float:
    return _number(name, value, "deg", "degrees, as 52.52")


def _of_text(text: str) -> Place:
    """The place of a text: two angles, with letters or with signs, and a height after them."""
    first = ANGLE.match(text)
    second = ANGLE.match(text, first.end()) if first else None
    if first is None or second is None:
        raise ValueError(f"no place: {text!r}; {EXAMPLE}")
    rest = text[second.end() :].strip()
    height = HEIGHT.fullmatch(rest)
    if rest and height is None:
        raise ValueError(f"no place: {text!r}, as {rest!r} is no height in metres; {EXAMPLE}")
    angles = _in_order(text, first, second)
    return Place(*angles, _metres_of(height) if rest and height else 0.0)


def _in_order(text: str, first: re.Match[str], second: re.Match[str]) -> tuple[float, float]:
    """The latitude and the longitude of two angles, by their letters."""
    letters = first["letter"].upper() + second["letter"].upper()
    values = _angle(text, first), _angle(text, second)
    if letters == "" or (letters[0] in "NS" and len(letters) == 2 and letters[1] in "EW"):
        return values
    if len(letters) == 2 and letters[0] in "EW" and letters[1] in "NS":
        return values[::-1]
    raise ValueError(f"no place: {text!r} wants a letter of N and S, and one of E and W, or none; {EXAMPLE}")


def _angle(text: str, found: re.Match[str]) -> float:
    """The degrees of an angle of a text: south and west are negative."""
    letter, sign = found["letter"].upper(), found["sign"]
    if letter and sign:
        raise ValueError(f"no place: {text!r} has a sign and a letter: write one of them; {EXAMPLE}")
    minutes, seconds = (float(found[name] or 0) for name in ("minutes", "seconds"))
    if minutes >= 60 or seconds >= 60:
        raise ValueError(f"no place: {text!r} has 60 minutes or seconds of arc or more")
    value = float(found["degrees"]) + minutes / 60 + seconds / 3600
    return -value if letter in ("S", "W") or sign in ("-", "−") else value


def _metres_of(found: re.Match[str]) -> float:
    return float(found["height"].replace("−", "-")) * (1000 if found["unit"] == "km" else 1)


def _of_skyfield(place: Any) -> Optional[Place]:
    """The place of a geographic position of Skyfield, by its own attributes; None for anything else."""
    if not all(hasattr(place, name) for name in ("latitude", "longitude", "elevation")):
        return None
    return Place(place.latitude.degrees, place.longitude.degrees, place.elevation.m)


def _of_astropy(place: Any) -> Optional[Place]:
    """The place of an `EarthLocation` of astropy, of one place; None for anything else."""
    if not hasattr(place, "to_geodetic"):
        return None
    if getattr(place, "shape", ()) != ():
        raise TypeError("one place is wanted, and not an EarthLocation of several")
    longitude, latitude, height = place.to_geodetic("WGS84")
    return Place(latitude, longitude, height)

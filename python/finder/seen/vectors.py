"""Arrays of places: three rows, km, a column for each time. In doubles."""

from __future__ import annotations

from typing import Any

import numpy as np
import numpy.typing as npt

Floats = npt.NDArray[np.float64]
# The kilometres of an astronomical unit (International Astronomical Union, resolution B2 of 2012).
AU = 149_597_870.7


def floats(values: Any) -> Floats:
    """Numbers as an array of doubles."""
    return np.asarray(values, dtype=float)


def many(values: Any) -> Floats:
    """A number, or several, as an array of doubles with a row."""
    return np.atleast_1d(floats(values))


def length(place: Floats) -> Floats:
    """Lengths, in the unit of the places."""
    return floats(np.sqrt((place**2).sum(axis=0)))


def longitude(place: Floats) -> Floats:
    """Longitudes in degrees, from -180 to 180."""
    return floats(np.degrees(np.arctan2(place[1], place[0])))


def latitude(place: Floats) -> Floats:
    """Latitudes in degrees, from -90 to 90."""
    return floats(np.degrees(np.arctan2(place[2], np.hypot(place[0], place[1]))))


def angle(one: Floats, other: Floats) -> Floats:
    """The angles between two places in degrees, from 0 to 180."""
    across = length(np.cross(one, other, axis=0))
    return floats(np.degrees(np.arctan2(across, (one * other).sum(axis=0))))


def wrapped(degrees: Floats) -> Floats:
    """Angles in degrees, turned by whole turns to between -180 and 180."""
    return floats((degrees + 180) % 360 - 180)


def disc(place: Floats, radius: float) -> Floats:
    """The angles in degrees that the radius of a sphere, in km, is seen under from outside of it."""
    return floats(np.degrees(np.arcsin(radius / length(place))))

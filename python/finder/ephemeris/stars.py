"""Stars of a catalogue, with proper motion and parallax: `Star`, and what is taken for one."""

from __future__ import annotations

from dataclasses import dataclass
from typing import Any

import numpy as np

from ..public import public
from ..reports.calendar import DAY
from ..seen.apparent import erfa_package
from ..seen.vectors import AU, Floats, floats
from .order import J2000_DATE

JULIAN_YEAR = 365.25 * DAY
MILLIARCSECONDS = 3_600_000.0
# How far a star is put in km: only its direction means something.
STAR_DISTANCE = 1e9


@public
@dataclass(frozen=True)
class Star:
    """A star of a catalogue on the axes of the ICRS: `ra` and `dec` in degrees at `epoch` (a Julian year of TDB),
    proper motions in milliarcseconds a year (that in right ascension times cos(dec), as catalogues have it), parallax
    in milliarcseconds, and radial velocity in km/s.

    >>> regulus = Star(152.092961, 11.967208, -248.73, 5.59, 41.13, 5.9, 1991.25)
    >>> regulus.direction([0.0], [[0.0], [0.0], [0.0]]).round(4).ravel().tolist()
    [-0.8645, 0.4579, 0.2074]
    """

    ra: float
    dec: float
    pm_ra_cosdec: float = 0.0
    pm_dec: float = 0.0
    parallax: float = 0.0
    radial_velocity: float = 0.0
    epoch: float = 2000.0

    def __post_init__(self) -> None:
        if not -90 <= self.dec <= 90 or not -360 <= self.ra <= 360:
            raise ValueError(
                f"a star has ra= and dec= in degrees, dec= from -90 to 90, and not {self.ra!r}, {self.dec!r}"
            )

    def direction(self, times: Any, here: Any) -> Floats:
        """Its direction at seconds since J2000 (TDB) from places in km from the barycentre of the solar system, 3 by n:
        ERFA's `pmpx`."""
        erfa = erfa_package()
        at, spot = np.atleast_1d(floats(times)), floats(here) / AU
        years = at / JULIAN_YEAR - (self.epoch - 2000.0)
        ra, dec = np.radians(self.ra), np.radians(self.dec)
        # (ERFA counts the motion in right ascension itself, in radians a year)
        along = np.radians(self.pm_ra_cosdec / MILLIARCSECONDS) / np.cos(dec)
        north = np.radians(self.pm_dec / MILLIARCSECONDS)
        made = erfa.pmpx(ra, dec, along, north, self.parallax / 1_000, self.radial_velocity, years, spot.T)
        return floats(made.T)

    def place(self, times: Any) -> Floats:
        """Its place at 10^9 km from the barycentre of the solar system, in its direction from there, in km, 3 by n."""
        return self.direction(times, np.zeros((3, 1))) * STAR_DISTANCE


def star_of(star: Any, name: str = "a star") -> Star:
    """A star of any usual form: a `Star`, a pair of degrees, a `SkyCoord` of astropy, a `Star` of Skyfield."""
    if isinstance(star, Star):
        return star
    if hasattr(star, "icrs") and hasattr(star, "separation"):
        return _of_astropy(star, name)
    if hasattr(star, "ra_mas_per_year"):
        return Star(
            float(star.ra._degrees),
            float(star.dec.degrees),
            float(star.ra_mas_per_year),
            float(star.dec_mas_per_year),
            float(star.parallax_mas),
            float(star.radial_km_per_s),
            2000.0 + (float(star.epoch) - J2000_DATE) / 365.25,
        )
    if isinstance(star, (tuple, list)) and len(star) == 2:
        return Star(float(star[0]), float(star[1]))
    raise TypeError(
        f"{name} is a finder.Star(ra, dec), a pair of degrees (ra, dec), a SkyCoord of astropy or a Star of Skyfield, "
        f"and not {star!r}"
    )


def _of_astropy(star: Any, name: str) -> Star:
    """The star of a `SkyCoord`, of one direction."""
    if getattr(star, "shape", ()) != ():
        raise TypeError(f"{name} is a SkyCoord of {star.shape} directions: give one, as coordinates[0]")
    place = star.icrs
    facts = {"pm_ra_cosdec": "mas/yr", "pm_dec": "mas/yr", "radial_velocity": "km/s"}
    given: dict[str, float] = {}
    for fact, unit in facts.items():
        if "s" in star.data.differentials:
            value = getattr(place, fact).to_value(unit)
            given[fact] = float(value) if np.isfinite(value) else 0.0
    distance = place.distance
    if distance.unit.is_equivalent("pc"):
        given["parallax"] = float(1_000 / distance.to_value("pc"))
    epoch = 2000.0 if star.obstime is None else float(star.obstime.tdb.jyear)
    return Star(float(place.ra.deg), float(place.dec.deg), epoch=epoch, **given)

"""How much the air lifts what is seen: by 34' at the horizon, or by the pressure and the temperature."""

from __future__ import annotations

import math
from typing import Optional

from .packages import erfa_package

# What almanacs take for the horizon, in degrees: refraction, and the Sun's semi-diameter beside it.
HORIZON, SEMI_DIAMETER = 34 / 60, 16 / 60
# The pressure in hPa and the temperature in degrees Celsius for which the 34' stand (G. G. Bennett, "The Calculation of
# Astronomical Refraction in Marine Navigation", Journal of Navigation 35, 1982), the humidity from 0 to 1, and the
# wavelength in micrometres.
PRESSURE, TEMPERATURE, HUMIDITY, WAVELENGTH = 1_010.0, 10.0, 0.5, 0.574
# The altitude in degrees from which erfa's own formula holds; below it Bennett's is used.
LOW = 15.0
LOWEST_PRESSURE, HIGHEST_PRESSURE = 0.0, 1_100.0
COLDEST, HOTTEST = -150.0, 60.0


def constants(pressure: float, temperature: float) -> tuple[float, float]:
    """The constants A and B of the refraction A tan z + B tan^3 z in radians, z being the zenith distance that is seen:
    erfa's `refco` for a pressure in hPa and a temperature in degrees Celsius."""
    a, b = erfa_package().refco(pressure, temperature, HUMIDITY, WAVELENGTH)
    return float(a), float(b)


def refraction(altitude: float, pressure: Optional[float] = None, temperature: Optional[float] = None) -> float:
    """How many degrees a body is lower than it is seen, if it is seen at an altitude in degrees.

    Without `pressure`, in hPa at the place, and `temperature`, in degrees Celsius, they are 1010 and 10. From 15
    degrees up it is erfa's `refco`. Below it is Bennett's formula of 1982, scaled by erfa's constant A, and so that the
    horizon has the 34' of almanacs.

    >>> round(refraction(0.0) * 60, 6)
    34.0
    >>> round(refraction(45.0) * 60, 2), round(refraction(10.0) * 60, 1)
    (0.96, 5.3)
    >>> round(refraction(0.0, pressure=1030, temperature=-20) * 60, 1)
    38.8

    `ValueError` for a pressure or a temperature that no place has.
    """
    pressure, temperature = checked(pressure, temperature)
    a, b = constants(pressure, temperature)
    if altitude >= LOW:
        tangent = math.tan(math.radians(90 - altitude))
        return math.degrees(a * tangent + b * tangent**3)
    scale = a / constants(PRESSURE, TEMPERATURE)[0]
    low = max(altitude, -1.0)
    return HORIZON * scale * _bennett(low) / _bennett(0.0)


def _bennett(altitude: float) -> float:
    """Bennett's refraction in minutes of arc at an altitude that is seen, in degrees."""
    return 1 / math.tan(math.radians(altitude + 7.31 / (altitude + 4.4)))


def checked(pressure: Optional[float], temperature: Optional[float]) -> tuple[float, float]:
    """A pressure and a temperature, those of the 34' in place of None; a `ValueError` for what no place has."""
    made = PRESSURE if pressure is None else float(pressure), TEMPERATURE if temperature is None else float(temperature)
    if not LOWEST_PRESSURE <= made[0] <= HIGHEST_PRESSURE:
        raise ValueError(f"a pressure is from 0 to 1100 hPa, that of the place itself, and not {pressure!r}")
    if not COLDEST <= made[1] <= HOTTEST:
        raise ValueError(f"a temperature is from -150 to 60 degrees Celsius, and not {temperature!r}")
    return made


def true_altitude(
    altitude: float, pressure: Optional[float] = None, temperature: Optional[float] = None, *, airless: bool = True
) -> float:
    """The altitude in degrees without the air at which a body is seen at an altitude. With `airless` the air is left
    out unless a pressure or a temperature is given.

    >>> true_altitude(30.0)
    30.0
    >>> round(true_altitude(30.0, pressure=1010), 4)
    29.9722
    """
    if airless and pressure is None and temperature is None:
        return float(altitude)
    return float(altitude) - refraction(float(altitude), pressure, temperature)

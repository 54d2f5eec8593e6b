"""The shadows of the Earth and the Moon at an eclipse, in doubles: how deep the Moon is in the Earth's, and where the
Moon's passes the Earth. Places are in km from the Earth's centre, as bodies are seen from there."""

from __future__ import annotations

import math
from dataclasses import dataclass

from ..seen.vectors import Floats, length
from .entries import EclipseKind

# Radii in km (docs/guide/recipes.md). The Earth's for its shadow is enlarged by about one part in 100, for the air.
SUN, MOON, EARTH, SHADOW = 695_700.0, 1_737.4, 6_378.1, 6_442.4
# The Moon's radius in that of the Earth's equator for its umbra and for its penumbra, the greatest distance in it at
# which a shadow's axis meets the flat Earth, and the limits below which an eclipse is of both kinds, annular and total
# (J. Meeus, Astronomical Algorithms, chapter 54).
MOON_UMBRA, MOON_PENUMBRA, FLAT = 0.272281, 0.272488, 0.9972
HYBRID, HYBRID_MOST = 0.00464, 0.0047


@dataclass(frozen=True)
class MoonSizes:
    """How deep the Moon is in the Earth's umbra and penumbra, in diameters of the Moon: all of it from 1 on."""

    umbral: float
    penumbral: float


def moon_sizes(
    moon: Floats, sun: Floats, shadow: float = SHADOW, sun_radius: float = SUN, moon_radius: float = MOON
) -> MoonSizes:
    """The magnitudes of a lunar eclipse, of one place of the Moon and one of the Sun. The radii are in km; `shadow` is
    that of the Earth for its shadow."""
    far = float(length(sun)[0])
    behind = -float((moon * sun).sum() / far)
    off = float(length(moon + sun * (behind / far))[0])
    umbra = shadow - behind * (sun_radius - shadow) / far
    penumbra = shadow + behind * (sun_radius + shadow) / far
    umbral, penumbral = ((radius + moon_radius - off) / (2 * moon_radius) for radius in (umbra, penumbra))
    return MoonSizes(umbral, penumbral)


@dataclass(frozen=True)
class Axis:
    """The axis of the Moon's shadow at some times, in km: how far it passes the Earth's centre, `north` of it where it
    is above 0, how far the Moon is along it from there, and how far from the Sun."""

    off: Floats
    north: Floats
    along: Floats
    sun: Floats


def shadow_axis(moon: Floats, sun: Floats) -> Axis:
    """The axis, of places of the Moon and the Sun, three rows each."""
    apart = length(moon - sun)
    toward = (moon - sun) / apart
    along = -(moon * toward).sum(axis=0)
    near = moon + along * toward
    return Axis(length(near), near[2], along, apart)


@dataclass(frozen=True)
class MoonShadow:
    """A solar eclipse at its greatest: its kind, gamma, the radius of the umbra in the plane through the Earth's centre
    in radii of the Earth, below 0 for a total one, and the magnitude of a partial one."""

    kind: EclipseKind
    gamma: float
    umbra: float
    magnitude: float


def moon_shadow(axis: Axis) -> MoonShadow:
    """A solar eclipse of the axis at one time, by the rules of Meeus."""
    off, north, along, far = (float(each[0]) / EARTH for each in (axis.off, axis.north, axis.along, axis.sun))
    umbra = _cone(along, far, -MOON_UMBRA)
    penumbra = _cone(along, far, MOON_PENUMBRA)
    gamma = math.copysign(off, north)
    magnitude = (penumbra + FLAT - off) / (penumbra + umbra)
    return MoonShadow(kind_of(off, umbra), gamma, umbra, magnitude)


def _cone(along: float, far: float, moon: float) -> float:
    """The radius at the Earth of the cone about the Sun and the Moon, whose radius is below 0 for the inner one."""
    sine = (SUN / EARTH + moon) / far
    cosine = math.sqrt(1 - sine**2)
    return along * sine / cosine + moon / cosine


def kind_of(off: float, umbra: float) -> EclipseKind:
    """The kind of a solar eclipse whose axis passes so far from the Earth's centre, and whose umbra has such a radius
    in the plane through it, below 0 for a total one, both in radii of the Earth."""
    if off > FLAT + abs(umbra):
        return EclipseKind.PARTIAL
    if umbra < 0:
        return EclipseKind.TOTAL
    if umbra < HYBRID_MOST and umbra < HYBRID * math.sqrt(max(0.0, 1 - off**2)):
        return EclipseKind.HYBRID
    return EclipseKind.ANNULAR

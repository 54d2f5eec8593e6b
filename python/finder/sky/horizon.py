"""Risings, settings and twilight: when a body passes an altitude, and when it does not."""

from __future__ import annotations

import math
from collections.abc import Sequence
from dataclasses import dataclass
from typing import Any, Optional

import numpy as np

from .. import spans
from ..searches.numbers import cosine_of_degrees
from ..seen.scales import Clock
from ..seen.vectors import length
from .bodies import RADII, rise_name, set_name, title
from .moments import Moment, Moments
from .refraction import SEMI_DIAMETER, refraction
from .searching import Searches, Span, TextOfSky

# The altitudes of the Sun's centre in degrees at which each twilight begins and ends.
TWILIGHTS = {"civil": -6.0, "nautical": -12.0, "astronomical": -18.0}
LIMBS = ("upper", "centre", "lower")
# The limb that rises and sets of a body: the Sun's is that of 16' for its semi-diameter, as almanacs have it.
LIMB_OF = {"moon": "upper"}
# A body that rises and sets does so each day: where it has not for so many seconds, that is said.
LONG = 1.3 * spans.DAY
# A span without any is spoken of from so many seconds on.
SHORT = 0.9 * spans.DAY


@dataclass(frozen=True)
class Horizon:
    """What rises and sets: the `limb` of a body at an altitude in degrees without the air; and the two names."""

    limb: str
    altitude: float
    up: str
    down: str


def horizon_of(
    body: str, altitude: Optional[float], limb: Optional[str], pressure: Optional[float], temperature: Optional[float]
) -> Horizon:
    """The horizon of a body: its limb, and the altitude, which is that of 34' of refraction if none is given, and for
    the Sun's centre 16' lower. A `ValueError` says which words do not go together."""
    if limb is not None and limb not in LIMBS:
        raise ValueError(f"a limb is {', '.join(LIMBS)}, and not {limb!r}")
    if altitude is not None and (pressure is not None or temperature is not None):
        raise ValueError("an altitude is without the air: give altitude=, or pressure= and temperature=")
    made = LIMB_OF.get(body, "centre") if limb is None else limb
    if made != "centre" and body not in RADII:
        raise ValueError(f"{body} is a point and has no {made} limb: leave limb= out")
    if altitude is None:
        by_rule = SEMI_DIAMETER if body == "sun" and limb is None else 0.0
        altitude = -refraction(0.0, pressure, temperature) - by_rule
    return Horizon(made, checked_altitude(altitude), rise_name(body), set_name(body))


def checked_altitude(altitude: float) -> float:
    """An altitude from -90 to 90 degrees: else a `ValueError`."""
    if isinstance(altitude, bool) or not -90 <= float(altitude) <= 90:
        raise ValueError(f"an altitude is from -90 to 90 degrees, and not {altitude!r}")
    return float(altitude)


def twilight_of(kind: str) -> Horizon:
    """The horizon of a twilight, by its name."""
    if kind not in TWILIGHTS:
        raise ValueError(f"a twilight is {', '.join(TWILIGHTS)}, and not {kind!r}")
    return Horizon("centre", TWILIGHTS[kind], f"{kind} dawn", f"{kind} dusk")


def passes(
    text: TextOfSky, searches: Searches, body: str, horizon: Horizon, span: Span, precise: bool
) -> list[Moment]:
    """The moments at which a body passes a horizon, both ways, in order of time."""
    rising = "rise"
    words: tuple[str, str, Optional[str]]
    options: dict[str, Any]
    if horizon.limb == "centre":
        words = "sep", body, "zenith"
        options = {"ref": cosine_of_degrees(_zenith_distance(horizon.altitude))}
    else:
        # (a disc about the nadir that reaches up to the altitude: it covers all of the body until the upper limb rises,
        # and a part of it until the lower one does)
        words = ("full" if horizon.limb == "upper" else "any"), "nadir", body
        options, rising = {"radii": (_disc_below(text, horizon.altitude, span), repr(RADII[body]))}, "fall"
    names = {rising: horizon.up, ("fall" if rising == "rise" else "rise"): horizon.down}

    def name(turn: Optional[str]) -> str:
        return names.get(turn or "", f"{horizon.up} or {horizon.down}")

    return searches.moments(body, name, *words, span, precise, **options)


def _zenith_distance(altitude: float) -> str:
    return repr(90.0 - altitude)


def _disc_below(text: TextOfSky, altitude: float, span: Span) -> str:
    """The radius in km of the disc about the nadir that reaches up to an altitude, which is below 0."""
    if altitude >= 0:
        raise ValueError(f"a limb is searched for below the true horizon, and not at {altitude:g}: take limb='centre'")
    distance = float(length(text.places("nadir", np.array([float(span[0])])))[0])
    return repr(distance * math.sin(math.radians(90.0 + altitude)))


def said_of(searches: Searches, body: str, made: Sequence[Moment], horizon: Horizon, span: Span) -> str:
    """When a body does not pass a horizon for longer than a day, as the Sun in a polar summer, in sentences; else
    nothing. The days are those of UTC."""
    clock = Clock()
    said = []
    times = [float(span[0]), *(each.seconds for each in made), float(span[1])]
    for number, (start, end) in enumerate(zip(times, times[1:])):
        if end - start < (LONG if made else SHORT):
            continue
        below = _is_below(searches, body, horizon, (start + end) / 2)
        first, last = (f"{clock.at(time):%Y-%m-%d}" for time in (start, end))
        whole = number == 0 and not made
        when = f"from {first} to {last}" if not whole else f"at any time from {first} to {last}"
        said.append(f"{title(body)} {_does_not(horizon, below)} {when}.")
    return " ".join(said)


def _is_below(searches: Searches, body: str, horizon: Horizon, seconds: float) -> bool:
    altitude = float(searches.altaz(body, np.array([seconds]))[0][0])
    return altitude < horizon.altitude


def _does_not(horizon: Horizon, below: bool) -> str:
    """What a body does not do: it stays below an altitude, or above it."""
    if horizon.up.endswith(("rise", "rises")):
        return "does not rise" if below else "does not set"
    return f"stays {'below' if below else 'above'} {horizon.altitude:g} degrees"


def only(moments: Sequence[Moment], name: str, said: str) -> Moments:
    """Those of one name, and what may have it where nothing is decided."""
    return Moments([each for each in moments if name in each.name.split(" or ")], said)

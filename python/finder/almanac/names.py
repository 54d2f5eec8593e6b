"""What an almanac calls the events of a search."""

from __future__ import annotations

from typing import Optional

import numpy as np
import numpy.typing as npt

from ..public import public
from ..reports.windows import Windows
from ..searches.kinds import KINDS

PLANETS = "mercury venus mars jupiter saturn uranus neptune pluto".split()
# Those within the orbit of the Earth.
INNER = ("mercury", "venus")
# The names of rise and fall.
Pair = tuple[str, str]
# Those of the discs of Moon and Sun from the Earth, and of a planet and the Sun.
SOLAR: dict[str, Pair] = {
    "any": ("solar eclipse begins", "solar eclipse ends"),
    "full": ("total eclipse begins", "total eclipse ends"),
    "annular": ("annular eclipse begins", "annular eclipse ends"),
}
TRANSIT: dict[str, Pair] = {
    "any": ("exterior ingress (I)", "exterior egress (IV)"),
    "annular": ("interior ingress (II)", "interior egress (III)"),
}
# Those of the Earth before the Sun from the Moon, by the kilometres from which and up to which the Earth's radius goes:
# with the Moon's added a shadow begins to touch it, with the Moon's taken away it holds all of it.
LUNAR: dict[str, tuple[tuple[float, float, Pair], ...]] = {
    "any": (
        (7_000, 9_000, ("penumbral eclipse begins (P1)", "penumbral eclipse ends (P4)")),
        (0, 7_000, ("penumbra reaches the Moon's centre", "penumbra leaves the Moon's centre")),
    ),
    "full": (
        (7_000, 9_000, ("partial eclipse begins (U1)", "partial eclipse ends (U4)")),
        (5_500, 7_000, ("umbra reaches the Moon's centre", "umbra leaves the Moon's centre")),
        (0, 5_500, ("total eclipse begins (U2)", "total eclipse ends (U3)")),
    ),
}
SEASONS: dict[str, Pair] = {
    "x": ("December solstice", "June solstice"),
    "y": ("March equinox", "September equinox"),
}


@public
def names(
    found: Windows, east: Optional[npt.NDArray[np.bool_]] = None, turn: Optional[npt.NDArray[np.str_]] = None
) -> list[str]:
    """What an almanac calls each event of a search, by its request and turn: `perigee`, `new moon`, `opposition`,
    `inferior conjunction`, `station, turns retrograde`, `first quarter`, `exterior ingress (I)`.

    New and full moons, inferior and superior conjunctions are those in ecliptic longitude (`frame="ecl"`); what is of
    the equator says so: `conjunction in right ascension`. With `east`, which `values` gives, a greatest elongation has
    its side. An undecided window is `undecided`, since nothing is proved of it; with the `turn` of what `seen` gave it
    has the name of the time that was found, which is as unproved as that.

    >>> import finder
    >>> year = "examples/de405-2000.asc"
    >>> finder.names(finder.apsides(year, "moon", "2000-01-01", "2000-02-01", observer="earth"))
    ['apogee', 'perigee']
    """
    if not isinstance(found, Windows):
        raise TypeError(f"the windows of a search are wanted, and not {type(found).__name__}")
    rise, fall = pair_of(found.request_words)
    of_turn = {"rise": rise, "fall": fall}
    made = [of_turn.get(word, "undecided") for word in (found.turn if turn is None else turn).tolist()]
    if east is None or rise != "greatest elongation":
        return made
    return [f"{name} {'east' if side else 'west'}" if name == rise else name for name, side in zip(made, east)]


def pair_of(asked: dict[str, str]) -> Pair:
    """The names of rise and fall."""
    kind, bodies = asked["kind"], {asked["target"], asked["second"]}
    named: Optional[Pair] = None
    if kind in ("conj", "oppo", "station"):
        named = _of_longitudes(asked, bodies)
    elif kind == "apsis":
        named = _of_apsides(asked["target"], asked["observer"])
    elif kind == "coord":
        named = _of_coordinates(asked)
    elif kind == "sep" and bodies == {"moon", "sun"} and asked["observer"] == "earth" and _values(asked) == [0]:
        named = ("last quarter", "first quarter")
    elif kind == "sepext" and "sun" in bodies:
        named = ("greatest elongation", "least elongation")
    elif asked["second"] == "sun":
        named = _of_discs(asked)
    return named or KINDS[kind].names


def _values(asked: dict[str, str]) -> list[float]:
    return [float(word) for word in asked["values"].split(",")]


def _of_longitudes(asked: dict[str, str], bodies: set[str]) -> Optional[Pair]:
    """The names of conjunctions, oppositions and stations."""
    kind, observer = asked["kind"], asked["observer"]
    if asked["frame"] == "eq":
        rise, fall = KINDS[kind].names
        plain = rise.partition(",")[0]
        return rise.replace(plain, f"{plain} in right ascension"), fall.replace(plain, f"{plain} in right ascension")
    if observer == "earth" and bodies == {"moon", "sun"}:
        name = "new moon" if kind == "conj" else "full moon"
        return name, name
    if kind == "conj" and observer == "earth" and "sun" in bodies and bodies & set(INNER):
        # (the Sun's longitude grows past that of a planet that moves backward, before the Sun)
        pair = ("inferior conjunction", "superior conjunction")
        return pair if asked["second"] == "sun" else pair[::-1]
    return None


def _of_apsides(target: str, observer: str) -> Optional[Pair]:
    """The names of least and greatest distances, which are those of both bodies."""
    if "sun" in (target, observer) and "ssb" not in (target, observer):
        return "perihelion", "aphelion"
    if {target, observer} == {"moon", "earth"}:
        return "perigee", "apogee"
    return None


def _of_coordinates(asked: dict[str, str]) -> Optional[Pair]:
    """The names of the seasons, and of nodes."""
    if asked["frame"] != "ecl" or _values(asked) != [0]:
        return None
    if asked["axis"] == "z":
        return "ascending node", "descending node"
    if asked["target"] == "sun" and asked["observer"] in ("earth", "emb"):
        return SEASONS[asked["axis"]]
    return None


def _of_discs(asked: dict[str, str]) -> Optional[Pair]:
    """The names of what happens before the Sun."""
    kind, target, observer = asked["kind"], asked["target"], asked["observer"]
    if (target, observer) == ("moon", "earth"):
        return SOLAR.get(kind)
    if (target, observer) == ("earth", "moon"):
        radius = _values(asked)[0]
        return next((pair for low, high, pair in LUNAR.get(kind, ()) if low <= radius < high), None)
    return TRANSIT.get(kind) if target in PLANETS else None

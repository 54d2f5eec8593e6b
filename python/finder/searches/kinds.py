"""The one home of what a kind of event is: its words, what they mean, and what almanacs and curves make of it.

The literals that type checkers read stand beside the table; the texts of help, the hints of refusals, the options of
certificates, the functions in doubles and the names of events are made of its rows. The table of `docs/guide/usage.md`, the
completion and `tools/check-certificate` have rows of their own, which a test compares, with the program's refusals too.
"""

from __future__ import annotations

from dataclasses import dataclass
from typing import Literal, Union, get_args

Kind = Literal["coord", "radius", "apsis", "conj", "oppo", "station", "sep", "sepext", "any", "full", "annular"]
SetKind = Literal["coord", "radius", "apsis", "station", "sep", "sepext"]
Cover = Literal["any", "full", "annular"]
Relation = Literal["less", "atleast", "within", "outside"]
BodyWord = Literal[
    "mercury", "venus", "emb", "mars", "jupiter", "saturn", "uranus", "neptune", "pluto", "moon", "sun", "earth"
]
ObserverWord = Union[BodyWord, Literal["ssb"]]
FrameWord = Literal["eq", "ecl"]
Axis = Literal["x", "y", "z"]
Direction = Literal["any", "rise", "fall"]
Cut = Literal["half", "third"]
Need = Literal["", "may", "must"]

BODIES: tuple[str, ...] = get_args(BodyWord)
HOUR, DAY = 3_600.0, 86_400.0


@dataclass(frozen=True)
class KindRow:
    """A kind: the options that it has, what it is, and what is made of it in doubles.

    `second`, `frame`, `axis`, `ref` and `radii` say whether it may or must have the option, and `sets` whether `set`
    has the kind. `view` is what is looked at: a direction, a distance or a coordinate. `unit` is the quantity that is
    above 0 after a rise; `names` are what almanacs call a rise and a fall; `reach` are the seconds on both sides of a
    window within which the event is seen, besides light time. `meant` are other words for it.
    """

    word: str
    what: str
    rises: str
    view: Literal["direction", "distance", "coordinate"]
    unit: str
    names: tuple[str, str]
    reach: float
    meant: tuple[str, ...] = ()
    second: Need = ""
    frame: Need = ""
    axis: Need = ""
    ref: Need = ""
    radii: Need = ""
    sets: bool = False

    def options(self) -> tuple[str, ...]:
        """The options of the program that only some kinds have, as they stand in its table."""
        needs = {"second": self.second, "frame": self.frame, "axis": self.axis, "ref": self.ref}
        return (*(name for name, need in needs.items() if need), *(("radius1", "radius2") if self.radii else ()))


ROWS = (
    KindRow(
        "coord",
        "a coordinate of the target passes `--ref`",
        "the coordinate grows past it",
        "coordinate",
        "coordinate less the value, km",
        ("coordinate rises past the value", "coordinate falls past the value"),
        1 * DAY,
        ("coordinate", "gfposc"),
        frame="may",
        axis="must",
        ref="may",
        sets=True,
    ),
    KindRow(
        "radius",
        "the target's distance passes `--ref`",
        "the distance grows past it",
        "distance",
        "distance less the value, km",
        ("goes beyond the distance", "comes within the distance"),
        HOUR / 4,
        ("distance", "range", "gfdist"),
        ref="must",
        sets=True,
    ),
    KindRow(
        "apsis",
        "the distance is least or greatest",
        "it is least (`fall`: greatest)",
        "distance",
        "change of the distance, km/s",
        ("least distance", "greatest distance"),
        HOUR / 4,
        ("apsides", "perihelion", "aphelion", "perigee", "apogee", "periapsis", "apoapsis"),
        sets=True,
    ),
    KindRow(
        "conj",
        "the two bodies have one longitude",
        "the second body's longitude grows past the target's",
        "direction",
        "longitude of {second} less that of {target}, degrees",
        ("conjunction", "conjunction"),
        10 * DAY,
        ("conjunction",),
        second="must",
        frame="may",
    ),
    KindRow(
        "oppo",
        "their longitudes are opposite",
        "the target's longitude grows past the one opposite to the second body's",
        "direction",
        "longitude of {target} less the one opposite to {second}, degrees",
        ("opposition", "opposition"),
        3 * DAY,
        ("opposition",),
        second="must",
        frame="may",
    ),
    KindRow(
        "station",
        "the target's motion in longitude turns",
        "it turns from backward to forward",
        "direction",
        "change of the longitude, degrees a day",
        ("station, turns direct", "station, turns retrograde"),
        3 * DAY,
        ("stationary", "retrograde"),
        frame="may",
        sets=True,
    ),
    KindRow(
        "sep",
        "the angle between the bodies passes the one whose cosine is `--ref`",
        "it grows smaller than that angle",
        "direction",
        "the angle of the value less that between {target} and {second}, degrees",
        ("comes within the angle", "leaves the angle"),
        1 * DAY,
        ("separation", "angle", "gfsep"),
        second="must",
        ref="must",
        sets=True,
    ),
    KindRow(
        "sepext",
        "the angle between the bodies is least or greatest",
        "it is greatest (`fall`: least)",
        "direction",
        "decrease of the angle between {target} and {second}, degrees a day",
        ("greatest separation", "closest approach"),
        3 * DAY,
        ("elongation", "appulse"),
        second="must",
        sets=True,
    ),
    KindRow(
        "any",
        "the target's disc begins or ends to cover a part of the second body's",
        "it begins",
        "direction",
        "both radii less the angle between {target} and {second}, degrees",
        ("occultation begins", "occultation ends"),
        0.1 * DAY,
        ("occultation", "eclipse", "transit", "partial", "gfoclt"),
        second="must",
        radii="must",
    ),
    KindRow(
        "full",
        "the target's disc begins or ends to cover all of the second body's",
        "it begins",
        "direction",
        "{target}'s radius less {second}'s and the angle between them, degrees",
        ("full occultation begins", "full occultation ends"),
        0.1 * DAY,
        ("total",),
        second="must",
        radii="must",
    ),
    KindRow(
        "annular",
        "the target's disc begins or ends to lie within the second body's",
        "it begins",
        "direction",
        "{second}'s radius less {target}'s and the angle between them, degrees",
        ("transit begins, wholly within", "transit ends, wholly within"),
        0.1 * DAY,
        ("ring",),
        second="must",
        radii="must",
    ),
)
KINDS = {row.word: row for row in ROWS}
# The kinds whose times are a set, those of the discs of two bodies, and those that are asked from a planet.
SET_KINDS = tuple(row.word for row in ROWS if row.sets)
COVERS = tuple(row.word for row in ROWS if row.radii)


def kinds_with(option: str) -> tuple[str, ...]:
    """The kinds that have an option of the program which not all have."""
    return tuple(row.word for row in ROWS if option in row.options())


def listed(words: tuple[str, ...]) -> str:
    """Words as a sentence lists them: `conj, oppo and station`."""
    return f"{', '.join(words[:-1])} and {words[-1]}" if len(words) > 1 else "".join(words)

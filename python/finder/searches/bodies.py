"""The words of the program for bodies and frames as users of other packages name them: `"Moon"`, 301, `"ECLIPJ2000"`."""

from __future__ import annotations

import re
from numbers import Integral
from typing import Any

from .kinds import BODIES

PLANETS = ("mercury", "venus", "emb", "mars", "jupiter", "saturn", "uranus", "neptune", "pluto")
# By the numbers of NAIF. Those of Mercury, Venus and Mars are of planets whose barycentre is their centre, or within
# some centimetres of it.
CENTRED = {199: "mercury", 299: "venus", 301: "moon", 399: "earth", 499: "mars"}
NUMBERS = {0: "ssb", **dict(enumerate(PLANETS, 1)), 10: "sun", **CENTRED}
# The centres of planets with great moons, of which JPL's files have the barycentre of the system alone.
CENTRES = {599: "jupiter", 699: "saturn", 799: "uranus", 899: "neptune", 999: "pluto"}
# By the names of NAIF, in small letters.
NAMES = {
    **{f"{planet} barycenter": planet for planet in PLANETS if planet != "emb"},
    "earth barycenter": "emb",
    "earth moon barycenter": "emb",
    "solar system barycenter": "ssb",
}
FRAMES = {
    **dict.fromkeys(("equator", "equatorial", "j2000", "eme2000", "icrf", "icrs", "gcrs"), "eq"),
    **dict.fromkeys(("ecliptic", "eclipj2000", "ecliptical"), "ecl"),
}
RELATIONS = {"<": "less", ">": "atleast", ">=": "atleast"}


def body_word(body: Any) -> Any:
    """The program's word for a body: of its name in any case, its number or name of NAIF, or of a Skyfield body, whose
    number is its `target`. What is none of these is returned as it is, for a refusal to name it.

    >>> [body_word(body) for body in ("Moon", 399, "10", "JUPITER BARYCENTER", "Earth-Moon Barycenter")]
    ['moon', 'earth', 'sun', 'jupiter', 'emb']

    A `ValueError` says of a planet's centre that the files have the barycentre of its system.
    """
    number = getattr(body, "target", body)
    if isinstance(number, str) and re.fullmatch("[0-9]{1,3}", number.strip()):
        number = int(number)
    if isinstance(number, Integral) and not isinstance(number, bool):
        return _of_number(int(number), body)
    if not isinstance(body, str):
        return body
    words = " ".join(re.split(r"[\s_-]+", body.strip().lower().replace("barycentre", "barycenter")))
    return NAMES.get(words, words if words in (*BODIES, "ssb") else body)


def _of_number(number: int, body: Any) -> Any:
    if number in CENTRES:
        system = CENTRES[number]
        raise ValueError(
            f"no body is {number}: JPL's files have the barycentre of the system of {system.capitalize()}, and not the "
            f"planet's centre: write {number // 100} or {system!r}"
        )
    return NUMBERS.get(number, body)


def frame_word(frame: Any) -> Any:
    """The program's word for a frame: of `"equator"`, `"J2000"`, `"ecliptic"`, `"ECLIPJ2000"` and others.

    >>> frame_word("ECLIPJ2000"), frame_word("J2000")
    ('ecl', 'eq')
    """
    return FRAMES.get(frame.strip().lower(), frame.strip().lower()) if isinstance(frame, str) else frame


def small(word: Any) -> Any:
    """A word in small letters."""
    return word.strip().lower() if isinstance(word, str) else word

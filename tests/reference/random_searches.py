"""Searches made at random over an ephemeris: their references lie near values that the functions take."""

from __future__ import annotations

from fractions import Fraction
from math import isqrt
from random import Random
from typing import Mapping, Optional, Sequence

from .brute_force import ExactEvents, Vector, dot
from .ephemeris import BODY_COLUMNS, Ephemeris
from .kinds import KINDS, NOTHING, SHADOWS, WITH_REFERENCE, WITH_SECOND, Query
from .random_files import BODIES, plain_word, rounded_word
from .requests import SET_KINDS, WITH_FRAME
from .times import time_text

Options = dict[str, str]
"""The words of options by their names."""

LONGEST_SPAN = 400
"""The most ticks of a span, so that brute force is quick."""


def bodies_of(ephemeris: Ephemeris) -> list[str]:
    """The bodies that can be seen."""
    bodies = [name for number, name in BODIES.items() if ephemeris.has_column(number) and name != "moon"]
    return bodies + ["earth", "moon"] if ephemeris.has_column(3) and ephemeris.has_column(10) else bodies


def _add_some(
    rng: Random, options: Options, chances: Mapping[str, float], choices: Mapping[str, Sequence[str]]
) -> None:
    """Adds each option with its chance, with one of its words."""
    for name, chance in chances.items():
        if rng.random() < chance:
            options[name] = rng.choice(choices[name])


def event_options(rng: Random, ephemeris: Ephemeris, kinds: Sequence[str] = KINDS) -> Options:
    """A kind and what it needs but for its references, and limits of the search."""
    bodies = bodies_of(ephemeris)
    kind, observer = rng.choice(kinds), rng.choice(["ssb", "ssb", *bodies])
    others = [body for body in bodies if body != observer] or bodies
    options = {"kind": kind, "target": rng.choice(others)}
    if kind in WITH_SECOND:
        options["second"] = rng.choice([body for body in others if body != options["target"]] or others)
    if observer != "ssb" or rng.random() < 0.2:
        options["observer"] = observer
    if kind in WITH_FRAME and rng.random() < 0.4:
        options["frame"] = rng.choice(["eq", "ecl", "ecl"])
    if kind == "coord":
        options["axis"] = rng.choice("xyz")
    choices = {
        "cut": ["half", "third"],
        "width": ["1", "2", "3", "10", "60", "1000", "1000000"],
        "depth": ["0", "1", "2", "5", "12", "40"],
        "workers": [str(rng.randrange(1, 65))],
        "tick": ["1", "1000"],
    }
    _add_some(rng, options, {"cut": 0.5, "width": 0.5, "depth": 0.3, "workers": 0.2, "tick": 0.15}, choices)
    return options


def _magnitude(v: Vector) -> Fraction:
    """The length of a vector, rounded down to four digits after the point."""
    return Fraction(isqrt(int(dot(v, v) * 10**8)), 10**4)


def add_references(rng: Random, ephemeris: Ephemeris, options: Options) -> None:
    """References near what the function is at some tick."""
    kind, axis = options["kind"], "xyz".index(options.get("axis", "x"))
    if kind not in (*WITH_REFERENCE, *SHADOWS):
        return
    ticks = ephemeris.in_ticks(int(options.get("tick", "1")))
    time = rng.randrange(ticks.start, ticks.end + 1)
    places = [options["target"], options.get("second", options["target"])]
    query = Query(kind, places[0], places[1], options.get("observer", "ssb"), options.get("frame", "eq"), axis, NOTHING)
    exact = ExactEvents(ticks, query)
    a, b = (exact.state(body, time).position for body in places)
    digits = rng.choice([0, 0, 1, 3, 6])
    if kind == "coord" and rng.random() < 0.8:
        options["ref"] = rounded_word(a[axis], digits)
    elif kind == "radius":
        options["ref"] = rounded_word(_magnitude(a), digits) if rng.random() < 0.97 else "-1"
    elif kind == "sep":
        options["ref"] = _cosine_word(rng, a, b)
    elif kind in SHADOWS:
        for name, place in (("radius1", a), ("radius2", b)):
            options[name] = rounded_word(_magnitude(place) * Fraction(rng.randrange(1200), 1000), digits)


def _cosine_word(rng: Random, a: Vector, b: Vector) -> str:
    """The cosine of the angle between two places, rounded, or one at the edge of what a cosine can be."""
    if rng.random() < 0.1:
        return rng.choice(["1", "-1", "0", "1.0"])
    both = _magnitude(a) * _magnitude(b)
    return rounded_word(dot(a, b) / both if both else Fraction(0), rng.choice([1, 3, 9, 12]))


def _time_word(rng: Random, time: int, tick: int) -> str:
    """A tick in one of the forms of times."""
    return str(time // tick) if time % tick == 0 and rng.random() < 0.5 else time_text(time, tick)


def add_span(rng: Random, ephemeris: Ephemeris, options: Options, most: int = LONGEST_SPAN) -> None:
    """A span of some ticks, often at a border."""
    tick = int(options.get("tick", "1"))
    ticks = ephemeris.in_ticks(tick)
    if ticks.end - ticks.start <= most and rng.random() < 0.4:
        return
    length = min(rng.choice([1, 1, 2, 3, 7, 50, most, most]), ticks.end - ticks.start)
    first = rng.randrange(ticks.start, ticks.end - length + 1)
    columns = [number for number in range(1, BODY_COLUMNS + 1) if ticks.has_column(number)]
    border = ticks.nearest_border(columns, ticks.start, ticks.end) if rng.random() < 0.5 else None
    if border is not None:
        border += ticks.granule_length(rng.choice(columns)) * rng.randrange(-3, 4)
        first = min(max(border - rng.randrange(length + 1), ticks.start), ticks.end - length)
    options["from"], options["to"] = (_time_word(rng, time, tick) for time in (first, first + length))


def search_options(rng: Random, ephemeris: Ephemeris, most: int = LONGEST_SPAN) -> Options:
    """The options of a search by `find`, `cert` or `verify`."""
    options = event_options(rng, ephemeris)
    if rng.random() < 0.5:
        options["dir"] = rng.choice(["any", "rise", "fall"])
    add_references(rng, ephemeris, options)
    add_span(rng, ephemeris, options, most)
    return options


def set_options(rng: Random, ephemeris: Ephemeris, most: int = LONGEST_SPAN // 2) -> Options:
    """The options of a search by `set`."""
    options = event_options(rng, ephemeris, SET_KINDS)
    add_references(rng, ephemeris, options)
    options["relation"] = rng.choice(["less", "atleast"])
    if options["kind"] in WITH_REFERENCE and rng.random() < 0.5:
        options["relation"] = rng.choice(["within", "outside"])
        apart = Fraction(rng.randrange(-9, 40), rng.choice([1, 10, 100]))
        options["ref2"] = plain_word(Fraction(options.get("ref", "0")) + apart)
    add_span(rng, ephemeris, options, most)
    return options


def scalar_options(rng: Random) -> Options:
    """The options of a search by `scalar`, some of them past their limits."""
    p, q = rng.randrange(-9, 10), rng.randrange(-2000, 2001)
    last = 999_999_999_999
    time = rng.choice([0, 0, 10**6, -(10**11), last - 999]) + rng.randrange(-200, 200)
    r = rng.randrange(-500, 500) - p * time * time - q * time
    if rng.random() < 0.1:
        p, q = rng.choice([2**20, -(2**20), 2**20 + 1]), rng.choice([2**20, -(2**20)])
    if rng.random() < 0.1:
        r = rng.choice([2**62, -(2**62), 2**62 + 1, -(2**62) - 1, 10**19])
    first = max(-last, min(last, time + rng.randrange(-300, 200)))
    upto = max(-last, min(last, first + rng.randrange(-2, 500)))
    options = {"quad": f"{p},{q},{r}", "from": str(first), "to": str(upto)}
    choices = {"dir": ["any", "rise", "fall"], "cut": ["half", "third"]}
    choices.update({"width": ["1", "3", "50"], "depth": ["0", "3", "40"]})
    _add_some(rng, options, dict.fromkeys(choices, 0.4), choices)
    return options


def as_words(
    command: str, options: Mapping[str, str], files: Sequence[bytes] = (), rng: Optional[Random] = None
) -> list[bytes]:
    """The words of a command line; with a generator of random numbers in any order and spelling of the options."""
    items = list(options.items())
    if rng:
        rng.shuffle(items)
    words = [command.encode()]
    for name, value in items:
        is_joined = value.startswith("-") or (rng is not None and rng.random() < 0.2)
        words += [f"--{name}={value}".encode()] if is_joined else [f"--{name}".encode(), value.encode()]
    return [*words, *files]

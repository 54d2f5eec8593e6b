"""What `Ephemeris.fit` does: motions of a user's own as a text."""

from __future__ import annotations

from collections.abc import Callable, Mapping
from dataclasses import replace
from typing import Optional, Union

import numpy as np

from ..reports.calendar import DAY
from ..seen.vectors import Floats
from . import writing
from .blocks import Layout, layouts
from .cache import Kept, Made, kept, key_of
from .chebyshev import Grid
from .columns import FREE, MASS_RATIO
from .fitting import (
    FitError,
    Tolerance,
    compared,
    errors_to_keep,
    fitted,
    granule_of,
    places_of,
    refuse,
    times_of_check,
)
from .motions import Motion, Named, motion_of
from .text import AXES, COLUMNS, MAX_COEFFICIENTS, MAX_NUMBERS, Column, EphemerisText, WrongText, span_text
from .versions import versions

MAX_BODIES = 11
# A granule that leaves too much somewhere is halved so many times.
HALVINGS = 8
# The coefficients that a granule may have more than in the places at which it was chosen.
SPARE = 4
Places = Callable[[Floats], Floats]


def fit(
    functions: Mapping[str, Motion],
    start: float,
    end: float,
    tolerance: Union[None, float, Mapping[str, float]],
    cache: bool,
) -> Kept:
    """The text of motions over a span in seconds since J2000 (TDB)."""
    if not isinstance(functions, Mapping) or not functions:
        raise TypeError(
            f"functions are a dictionary of names and motions, as {{'name': function}}, and not {functions!r}"
        )
    if not start < end:
        raise ValueError(f"start is before end, and {span_text(start, end)} is no span")
    named = [_with_tolerance(motion_of(name, given, start, end), tolerance) for name, given in functions.items()]
    words = assigned(list(functions))
    made = _columns(named, words, start, end)
    text, errors = _fitted(made, start, end)
    titles = _titles(named, words, text, errors)
    whole = EphemerisText(text.start, text.block, text.blocks, text.columns, MASS_RATIO, titles)
    earth = {} if "earth" in words or "emb" in words.values() else {"earth": "earth"}
    about = {
        "name": "motions",
        "start": whole.start,
        "end": whole.end,
        "asked": [start, end],
        "names": {**words, **earth, "ssb": "ssb"},
        "errors": errors_to_keep(errors),
        "titles": list(titles),
        "origin": "earth" if earth else "ssb",
    }
    series = [column.coefficients.tobytes() for column in whole.columns.values()]
    return kept(
        key_of(["fit", list(titles), about["names"], whole.start, whole.block, *series]),
        lambda: Made(writing.files(whole), about),
        cache,
    )


def _with_tolerance(motion: Named, tolerance: Union[None, float, Mapping[str, float]]) -> Named:
    """A motion with the tolerance that is asked for, in km."""
    asked = tolerance.get(motion.name) if isinstance(tolerance, Mapping) else tolerance
    if asked is None:
        return motion
    if not float(asked) > 0:
        raise ValueError(f"a tolerance is a number of km above 0, and not {asked!r}")
    return replace(motion, tolerance=Tolerance(kilometres=float(asked)))


def assigned(names: list[str]) -> dict[str, str]:
    """The word of the program for each name: its own where it is one of a body, else the column of one that is free."""
    for name in names:
        if not isinstance(name, str) or not name or name != name.strip() or name == "ssb":
            raise ValueError(f"a name is a word that is not 'ssb', the origin, and not {name!r}")
    if "earth" in names and "emb" in names:
        raise ValueError("of earth, moon and emb two are given at most: leave emb out, which follows from the others")
    words = (*FREE, "earth") if "earth" in names else (*FREE, "emb")
    if len(names) > len(words):
        raise WrongText(f"a text has {MAX_BODIES} bodies at most, and these are {len(names)}: make two texts")
    free = [word for word in words if word not in names]
    return {name: name if name in words else free.pop(0) for name in names}


def _columns(named: list[Named], words: Mapping[str, str], start: float, end: float) -> dict[str, Named]:
    """What stands in each column that is fitted. The Earth's place is the column `emb` less the `moon` column over 1 +
    EMRAT, and the Moon's the Earth's and its column: so a body that is called by their words stands in both."""
    by_word = {words[motion.name]: motion for motion in named}
    moon, earth, center = (by_word.get(word) for word in ("moon", "earth", "emb"))
    made = {word: motion for word, motion in by_word.items() if word not in ("earth", "moon")}
    part = 1 / (1 + MASS_RATIO)
    if earth is not None:
        if moon is not None:
            made["moon"] = _sum(moon, [(1.0, moon), (-1.0, earth)])
            made["emb"] = _sum(earth, [(1 - part, earth), (part, moon)])
        else:
            made["emb"] = earth
    elif moon is not None and center is not None:
        made["moon"] = _sum(moon, [(1 / (1 - part), moon), (-1 / (1 - part), center)])
    elif moon is not None:
        made["moon"] = moon
    return made


def _sum(motion: Named, parts: list[tuple[float, Named]]) -> Named:
    """A sum of motions with weights, in place of one of them."""

    def places(times: Floats) -> Floats:
        return np.asarray(sum(weight * places_of(_motions(each), times)[each.name] for weight, each in parts))

    return replace(motion, places=places)


def _motions(motion: Named) -> Callable[[Floats], dict[str, Floats]]:
    return lambda times: {motion.name: motion.places(times)}


def _fitted(columns: Mapping[str, Named], start: float, end: float) -> tuple[EphemerisText, dict[str, FitError]]:
    """The text without titles, and the errors by body: granules are halved where they leave too much."""
    sizes = {word: granule_of(each.name, _motions(each), start, end, each.tolerance) for word, each in columns.items()}
    refusal: Optional[WrongText] = None
    for _ in range(HALVINGS):
        made: dict[str, Column] = {}
        errors: dict[str, FitError] = {}
        layout = _layout(sizes, start, end)
        for word, motion in columns.items():
            try:
                made[word], errors[motion.name] = _column(motion, layout, *sizes[word])
            except WrongText as error:
                refusal, smaller = error, sizes[word][0] / 2
                sizes[word] = smaller, sizes[word][1]
                break
        else:
            text = EphemerisText(layout.start, layout.block, layout.blocks, _with_origin(made, layout))
            if text.numbers <= MAX_NUMBERS:
                return text.checked(), errors
            sizes = {word: (size, made[word].count) for word, (size, _) in sizes.items()}
        if refusal is not None and min(size for size, _ in sizes.values()) < 1:
            break
    raise refusal or WrongText(
        f"no blocks of the format are found for {span_text(start, end)}: name a shorter span, or fewer bodies"
    )


def _with_origin(columns: Mapping[str, Column], layout: Layout) -> dict[str, Column]:
    """The columns in their order, with those of the Earth and the Moon: zero where no body stands there."""
    zero = Column(np.zeros((layout.blocks, AXES, 1)), 1)
    moon = columns.get("moon", zero)
    center = columns.get("emb", Column(moon.coefficients / (1 + MASS_RATIO), moon.granules))
    every = {**columns, "moon": moon, "emb": center}
    return {word: every[word] for word in COLUMNS if word in every}


def _layout(sizes: Mapping[str, tuple[float, int]], start: float, end: float) -> Layout:
    """The longest blocks that hold the granules of all columns."""
    zeros = 2 * AXES
    for layout in layouts(start, end):
        numbers = sum(AXES * count * layout.granules(size) for size, count in sizes.values())
        double = sizes["moon"] if "moon" in sizes and "emb" not in sizes else None
        more = AXES * double[1] * layout.granules(double[0]) if double else zeros
        if 2 + numbers + more <= MAX_NUMBERS:
            return layout
    quick = min(sizes, key=lambda word: sizes[word][0] / sizes[word][1])
    raise WrongText(
        f"{span_text(start, end)} has more blocks than a search reads, as {quick} needs granules of "
        f"{sizes[quick][0]:g} seconds: name a shorter span, fewer bodies, or a greater tolerance"
    )


def _column(motion: Named, layout: Layout, size: float, count: int) -> tuple[Column, FitError]:
    """The column of a motion, and its error; refused by body and time."""
    granules = layout.granules(size)
    grid = Grid(layout.start, layout.block / granules, layout.blocks * granules)
    places = _motions(motion)
    series = fitted(places, grid, min(MAX_COEFFICIENTS, count + SPARE), {motion.name: motion.tolerance})
    found = compared(places, grid, series, *times_of_check(grid))[motion.name]
    refuse(
        motion.name,
        found,
        motion.tolerance,
        "the motion has a jump or an edge there: name a span without it, or tolerance=",
    )
    return Column(series[motion.name], granules), found.error(np.ones(len(found.times), bool), motion.is_scalar)


def _titles(
    named: list[Named], words: Mapping[str, str], text: EphemerisText, errors: Mapping[str, FitError]
) -> tuple[str, ...]:
    """The lines of the title."""
    packages = sorted({package for motion in named for package in motion.packages})
    lines = [f"Motions of {span_text(text.start, text.end)}, fitted by {versions('numpy', *packages)}."]
    for motion in named:
        word, column = words[motion.name], text.columns.get(words[motion.name], text.columns["emb"])
        hours = text.block / column.granules * 24 / DAY
        axis = ", on the axis x" if motion.is_scalar else ""
        lines.append(f"{motion.name} in the column {word}: {motion.what}{axis}; granules of {hours:g} hours.")
        lines.append(f"Fit of {motion.name}: {errors[motion.name]}; {motion.tolerance} were allowed.")
    return tuple(lines)

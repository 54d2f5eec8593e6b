"""The text of SPK kernels: records of types 2 and 3 as they are, and series that are fitted to all else."""

from __future__ import annotations

import contextlib
import math
from collections.abc import Iterable, Iterator, Mapping
from dataclasses import dataclass, replace
from typing import Optional, Union

import numpy as np

from ..reports.calendar import DAY
from ..seen.vectors import Floats, floats
from .blocks import granules_in
from .chebyshev import Grid
from .columns import FREE
from .fitting import FitError, Tolerance, compared, fitted, granule_of, refuse, times_of_check
from .sources import SourceFile, WrongSource
from .spk import COPIED_TYPES, IDS, Kernels, Leg, Piece, has_spice, on_equator, records
from .text import (
    AXES,
    COLUMNS,
    DATE_STEP,
    MAX_BLOCKS,
    MAX_DAYS,
    MAX_NUMBERS,
    Column,
    EphemerisText,
    WrongText,
    span_text,
)

Bodies = Union[None, Iterable[Union[str, int]], Mapping[str, Union[str, int]]]
# EMRAT if a kernel has no Earth and Moon from their barycentre: that of DE440.
MASS_RATIO = 81.3005682214972154
# What is fitted may be so far from the kernel, in km: the doubles of a place at 40 au have 10^-6.
TOLERANCE = Tolerance(kilometres=1e-6)
# jplephem takes one double for a time of other types, which has 4 10^-5 seconds, in which a planet goes by a metre.
COARSE = Tolerance(kilometres=1e-2)
COEFFICIENTS = 24
# The shortest block, in seconds, and how often 32 days are halved for one at most.
SHORTEST, POWERS = 675, 13


@dataclass(frozen=True)
class Records:
    """The grid of the records that a column copies: an instant at which one begins, and their length in seconds."""

    start: int
    length: int
    count: int


@dataclass(frozen=True)
class Wanted:
    """What a column holds: a sum of legs, of which each has its weight."""

    name: str
    legs: tuple[Leg, ...]
    weights: tuple[float, ...]

    @property
    def records(self) -> Optional[Records]:
        """The grid of its records, where all legs have the same; else None, and it is fitted."""
        found: set[tuple[int, int]] = set()
        most = 0
        for piece in self.pieces:
            if piece.segment.data_type not in COPIED_TYPES:
                return None
            start, length, _ = records(piece.segment)
            if start != int(start) or length != int(length) or int(length) % DATE_STEP:
                return None
            found.add((int(start) % int(length), int(length)))
            most = max(most, piece.segment.load_array()[2].shape[2])
        if len(found) != 1 or most > 32:
            return None
        start, size = found.pop()
        return Records(start, size, most)

    @property
    def tolerance(self) -> Tolerance:
        """How far its series may be from it."""
        is_exact = has_spice() or all(piece.segment.data_type in COPIED_TYPES for piece in self.pieces)
        return TOLERANCE if is_exact else COARSE

    @property
    def pieces(self) -> list[Piece]:
        """The pieces of all legs."""
        return [piece for leg in self.legs for piece in leg.pieces]

    @property
    def start(self) -> float:
        """From when on it is known, in seconds since J2000 (TDB)."""
        return max(leg.start for leg in self.legs)

    @property
    def end(self) -> float:
        """Until when it is known."""
        return min(leg.end for leg in self.legs)

    def places(self, kernels: Kernels, times: Floats) -> Floats:
        """Its places in km."""
        return floats(sum(weight * kernels.places([leg], times) for leg, weight in zip(self.legs, self.weights)))

    def copied(self, starts: Floats, length: int, count: int) -> Floats:
        """The coefficients of the records that begin at times: by record, component and coefficient."""
        made = np.zeros((len(starts), AXES, count))
        for leg, weight in zip(self.legs, self.weights):
            for piece in leg.pieces:
                inside = (starts >= piece.start) & (starts < piece.end)
                first = records(piece.segment)[0]
                place = ((starts[inside] - first) // length).astype(int)
                part = on_equator(floats(piece.segment.load_array()[2][:AXES, place]), piece.segment.frame)
                made[inside, :, : part.shape[2]] += weight * leg.sign * np.moveaxis(part, 0, 1)
        return made


@dataclass(frozen=True)
class KernelText:
    """The text of kernels, the errors of what was fitted, the names of its bodies, and the span of the kernels."""

    text: EphemerisText
    errors: dict[str, FitError]
    names: dict[str, str]
    start: float
    end: float


def read(
    files: list[SourceFile], start: Optional[float], end: Optional[float], margin: float, bodies: Bodies
) -> KernelText:
    """The text of kernels over a span in seconds since J2000 (TDB), with so many seconds around it where they have
    it."""
    with contextlib.closing(Kernels.of(files)) as kernels:
        return _read(kernels, start, end, margin, bodies)


def _read(kernels: Kernels, start: Optional[float], end: Optional[float], margin: float, bodies: Bodies) -> KernelText:
    """What `read` does, of kernels that are open."""
    if bodies is None:
        kernels.refuse_two_series()
    wanted, names, mass_ratio = _wanted(kernels, bodies)
    low, high = max(each.start for each in wanted.values()), min(each.end for each in wanted.values())
    least = max(wanted.values(), key=lambda each: each.start), min(wanted.values(), key=lambda each: each.end)
    first, last = low if start is None else start, high if end is None else end
    for body, is_outside in zip(least, (first < low, last > high)):
        if is_outside or first >= last:
            raise WrongSource(
                f"{kernels.names} have {body.name} in {span_text(low, high)}, and {span_text(first, last)} is asked "
                "for: name a span within it, or kernels that have more"
            )
    around = first if start is None else max(low, first - margin), last if end is None else min(high, last + margin)
    layout = _layout(wanted, (low, high), (first, last), around, kernels.names)
    columns, errors = {}, {}
    for word, each in wanted.items():
        columns[word], error = _column(kernels, each, layout)
        if error is not None:
            errors[each.name] = error
    titles = [f"Columns of {', '.join(wanted)}: records of types 2 and 3 as they are, all else fitted."]
    titles += [f"Fit of {name}: {error}." for name, error in errors.items()]
    text = replace(layout, columns=columns, mass_ratio=mass_ratio, titles=tuple(titles))
    return KernelText(text, errors, names, low, high)


def _wanted(kernels: Kernels, bodies: Bodies) -> tuple[dict[str, Wanted], dict[str, str], float]:
    """What each column holds, the names of its bodies, and EMRAT."""
    names = _names(kernels, bodies)
    made: dict[str, Wanted] = {}
    words: dict[str, str] = {}
    mass_ratio = MASS_RATIO
    if {"earth", "moon"} & set(names):
        for body in ("earth", "moon"):
            if body not in names and kernels.target(body) is None:
                raise _lacking(kernels, body)
        made, mass_ratio = _earth_and_moon(kernels)
        words = {"earth": "earth", "moon": "moon", "emb": "emb"}
    others = {name: number for name, number in names.items() if name not in words}
    free = [word for word in FREE if word not in made and word not in others]
    for name, number in others.items():
        word = name if name in COLUMNS else free.pop(0) if free else ""
        if not word:
            raise WrongText(f"a text has no column for {name}: name fewer bodies, by bodies=")
        legs = tuple(kernels.legs(number))
        made[word], words[name] = Wanted(name, legs, (1.0,) * len(legs)), word
    return {word: made[word] for word in COLUMNS if word in made}, {**words, "ssb": "ssb"}, mass_ratio


def _names(kernels: Kernels, bodies: Bodies) -> dict[str, int]:
    """NAIF's numbers of the bodies that are asked for; without names those that have a column of their own."""
    if bodies is None:
        for body in ("earth", "moon"):
            if kernels.target(body) is None:
                raise _lacking(kernels, body)
        found = {body: kernels.target(body) for body in IDS}
        return {body: number for body, number in found.items() if number is not None}
    asked = dict(bodies) if isinstance(bodies, Mapping) else {_name_of(each): each for each in bodies}
    made = {}
    for name, body in asked.items():
        number = kernels.target(body) if isinstance(body, str) and body in IDS else body
        if isinstance(number, str):
            number = _number_of(number)
        if number is None or kernels.path(number) is None:
            raise _lacking(kernels, str(name) if name == body else f"{name} ({body})")
        made[str(name)] = number
    return made


def _name_of(body: Union[str, int]) -> str:
    """The name of a body that is given by name or by NAIF's number."""
    from jplephem.names import target_names

    return body if isinstance(body, str) else str(target_names.get(body, body)).lower().replace(" ", "_")


def _number_of(name: str) -> Optional[int]:
    """NAIF's number of a name, or None."""
    from jplephem.names import target_name_pairs

    return next((number for number, each in target_name_pairs if each.lower() == name.lower()), None)


def _lacking(kernels: Kernels, body: str) -> WrongSource:
    """The refusal of kernels that have no places of a body."""
    ends = sorted({pair[0] for pair in kernels.segments})
    return WrongSource(
        f"{kernels.names} have no places of {body} from the barycentre of the solar system: there are segments of "
        f"{', '.join(map(str, ends))}; open them together with a kernel that has it, as [.., 'de440.bsp'], or name "
        "bodies= that they have"
    )


def _earth_and_moon(kernels: Kernels) -> tuple[dict[str, Wanted], float]:
    """The columns of the barycentre of Earth and Moon and of the Moon from the Earth, and EMRAT."""
    earth, moon = (kernels.target(body) for body in ("earth", "moon"))
    assert earth is not None and moon is not None
    between = tuple(kernels.legs(moon, earth))
    difference = Wanted("moon", between, (1.0,) * len(between))
    if (earth, 3) not in kernels.segments:
        legs = (*kernels.legs(earth), *between)
        weights = (*(1.0 for _ in kernels.legs(earth)), *(1 / (1 + MASS_RATIO) for _ in between))
        return {"emb": Wanted("emb", legs, weights), "moon": difference}, MASS_RATIO
    center = tuple(kernels.legs(3))
    return {"emb": Wanted("emb", center, (1.0,) * len(center)), "moon": difference}, _mass_ratio(kernels, earth, moon)


def _mass_ratio(kernels: Kernels, earth: int, moon: int) -> float:
    """EMRAT: how many times the Moon from the barycentre is as far as the Earth, on the other side, at ten times."""
    away = kernels.leg((earth, 3), 1)
    times = np.linspace(away.start, away.end, 12)[1:-1]
    ours = kernels.places([away], times)
    other = kernels.places(kernels.legs(moon, earth), times) + ours
    ratio = -float((ours * other).sum() / (ours * ours).sum())
    if not 1 <= ratio <= 1_000:
        raise WrongSource(
            f"{kernels.names} have the Moon {ratio:g} times as far from their barycentre as the Earth: EMRAT is 1 to "
            "1,000"
        )
    return float(f"{ratio:.13g}")


def _layout(
    wanted: Mapping[str, Wanted],
    known: tuple[float, float],
    asked: tuple[float, float],
    around: tuple[float, float],
    names: str,
) -> EphemerisText:
    """Blocks without columns: as long as the longest records, where they cover the span that is asked for; else
    shorter."""
    best: Optional[EphemerisText] = None
    for block, anchor in _candidates([each.records for each in wanted.values()], around[0]):
        first = math.ceil((known[0] - anchor) / block)
        first = max(first, math.floor((around[0] - anchor) / block))
        last = min(math.floor((known[1] - anchor) / block), math.ceil((around[1] - anchor) / block))
        made = EphemerisText(anchor + first * block, block, last - first, {})
        if last <= first or _numbers(wanted, block) > MAX_NUMBERS or made.blocks > MAX_BLOCKS:
            continue
        if made.start <= asked[0] and made.end >= asked[1]:
            return made
        if best is None or made.end - made.start > best.end - best.start + block:
            best = made
    if best is None or best.start - asked[0] > DAY or asked[1] - best.end > DAY:
        raise WrongText(
            f"{names} have {span_text(*known)}, for which no blocks of the format are found with at most {MAX_NUMBERS} "
            f"numbers and {MAX_BLOCKS} blocks: name a shorter span by start= and end=, or fewer bodies by bodies="
        )
    return best


def _candidates(grids: list[Optional[Records]], start: float) -> Iterator[tuple[int, int]]:
    """The lengths of blocks that are tried, the longest first, and a time at which one of them begins: those of the
    records, and shorter ones. JPL's lengths are powers of two, so that the longest is a multiple of all."""
    longest = MAX_DAYS * DAY
    known = [grid for grid in grids if grid is not None and grid.length <= longest]
    lengths = sorted({grid.length for grid in known}, reverse=True)
    least = min(lengths) if lengths else longest + 1
    shorter = [longest >> power for power in range(POWERS) if SHORTEST <= longest >> power < least]
    for block in (*lengths, *shorter):
        anchors = [grid.start for grid in known if grid.length == block]
        anchor = anchors[0] if anchors else math.ceil(start / DATE_STEP) * DATE_STEP
        if anchor % DATE_STEP == 0:
            yield block, anchor


def _numbers(wanted: Mapping[str, Wanted], block: int) -> int:
    """About how many numbers a block has."""
    total = 2
    for each in wanted.values():
        grid = each.records
        size, count = (grid.length, grid.count) if grid is not None else (4 * DAY, 13)
        total += AXES * count * max(1, -(-block // size))
    return total


def _column(kernels: Kernels, wanted: Wanted, layout: EphemerisText) -> tuple[Column, Optional[FitError]]:
    """The column of what is wanted: copied where its records lie in the blocks, else fitted, with its error."""
    grid = wanted.records
    if grid is not None and layout.block % grid.length == 0 and (layout.start - grid.start) % grid.length == 0:
        granules = layout.block // grid.length
        starts = layout.start + grid.length * floats(np.arange(layout.blocks * granules))
        return Column(wanted.copied(starts, grid.length, grid.count), granules), None

    def motions(times: Floats) -> dict[str, Floats]:
        # (a node may round to a time before the first second)
        return {wanted.name: wanted.places(kernels, np.clip(times, layout.start, layout.end))}

    size, count = granule_of(wanted.name, motions, layout.start, layout.end, wanted.tolerance)
    granules = granules_in(layout.block, size)
    made = Grid(layout.start, layout.block / granules, layout.blocks * granules)
    allowed = {wanted.name: wanted.tolerance}
    series = fitted(motions, made, max(count, COEFFICIENTS), allowed)
    each = compared(motions, made, series, *times_of_check(made))[wanted.name]
    refuse(wanted.name, each, wanted.tolerance, "the kernel has a jump there: name a span without it")
    return Column(series[wanted.name], granules), each.error(np.ones(len(each.times), bool))

"""Motions fitted by Chebyshev series: how long a granule is and of which degree, and how far the series is from
them."""

from __future__ import annotations

from collections.abc import Callable, Mapping
from dataclasses import asdict, dataclass
from typing import Any, Optional

import numpy as np
import numpy.typing as npt

from ..public import public
from ..reports.calendar import DAY
from ..seen.vectors import Floats, floats, length
from .chebyshev import Grid, nodes, series_of
from .text import MAX_KILOMETRES, WrongText, span_text, time_text

# Several motions at once: seconds since J2000 (TDB), an array of n, to places in km by name, arrays of 3 by n.
Motions = Callable[[Floats], Mapping[str, Floats]]
Mask = npt.NDArray[np.bool_]
Numbers = npt.NDArray[np.int_]
ARC_SECONDS = float(np.degrees(1) * 3_600)
# The coefficients that are looked at to choose a granule, of which the last ones have to be nothing.
TRIED = 24
# A series is cut off where what is left is below this part of the tolerance, which is put at so many doubles of a place
# where it is below them.
SHARE = 0.25
# The last coefficients show how doubles scatter, if they no longer fall: so many times that may be left, up to a half
# of the tolerance.
LAST, SCATTERS, MOST_NOISE = 6, 1.5, 0.5
# The coefficients, of those that are tried, that have to be over.
SPARE = 3
LAST_BITS = 16 * np.finfo(float).eps
# The lengths of granules that are tried, in seconds, and in how many places of the span.
LENGTHS = (*(32 * DAY / 2**power for power in range(13)), 225.0, 75.0, 25.0, 5.0, 1.0)
PLACES = 16
# The random times within a granule at which a fit is compared with its motion, and the fewest of all.
TIMES_EACH = 6
FEWEST_TIMES = 2_000
INSIDE = 1e-3
SEED = 66


@dataclass(frozen=True)
class Tolerance:
    """How far a series may be from its motion: in km, or in arc seconds as seen from the origin."""

    kilometres: float = 0.0
    arcseconds: float = 0.0

    def at(self, distance: Floats) -> Floats:
        """In km, at distances from the origin in km: no less than the doubles of a place hold."""
        asked = self.kilometres + self.arcseconds / ARC_SECONDS * distance
        return np.maximum(asked, LAST_BITS * distance)

    def __str__(self) -> str:
        return f"{self.arcseconds:g} arc seconds" if self.arcseconds else f"{self.kilometres:g} km"


@public
@dataclass(frozen=True)
class FitError:
    """How far the series of a body is from its motion at random times and at the ends of granules: the largest distance
    and the one that 99 in 100 are below, in km and in arc seconds as seen from the origin; at how many times, and the
    time of the largest in seconds since J2000 (TDB). Of a scalar the distance is in its own unit, and no angle is a
    number (NaN).

    >>> print(FitError(2e-7, 1e-7, 4e-8, 2e-8, 2_000, 43_200.0))
    largest 2e-07 km, 4e-08 arc seconds; 99 in 100 below 1e-07 km, 2e-08 arc seconds; of 2000 times
    """

    largest_km: float
    most_km: float
    largest_arcseconds: float
    most_arcseconds: float
    times: int
    worst: float

    def __str__(self) -> str:
        angles = ["", ""]
        if np.isfinite(self.largest_arcseconds):
            angles = [f" km, {angle:.3g} arc seconds" for angle in (self.largest_arcseconds, self.most_arcseconds)]
        most = f"99 in 100 below {self.most_km:.3g}{angles[1]}"
        return f"largest {self.largest_km:.3g}{angles[0]}; {most}; of {self.times} times"


@dataclass(frozen=True)
class Comparison:
    """A series beside its motion: by time the distance between both and the body's from the origin, in km."""

    granules: Numbers
    times: Floats
    off: Floats
    far: Floats

    def at(self, kept: Mask) -> Comparison:
        """What is compared at the times of a mask."""
        return Comparison(self.granules[kept], self.times[kept], self.off[kept], self.far[kept])

    def error(self, kept: Mask, is_scalar: bool = False) -> FitError:
        """The error at the times of a mask."""
        far = np.full(int(kept.sum()), np.nan) if is_scalar else np.maximum(self.far[kept], np.finfo(float).tiny)
        off, angle = self.off[kept], self.off[kept] / far * ARC_SECONDS
        if not len(off):
            return FitError(0.0, 0.0, 0.0, 0.0, 0, float("nan"))
        worst = float(self.times[kept][np.argmax(off)])
        most = (float(np.quantile(each, 0.99)) for each in (off, angle))
        return FitError(float(off.max()), next(most), float(angle.max()), next(most), len(off), worst)


def errors_to_keep(errors: Mapping[str, FitError]) -> dict[str, Any]:
    """Errors as they are kept beside a text."""
    return {name: asdict(error) for name, error in errors.items()}


def places_of(motions: Motions, times: Floats) -> dict[str, Floats]:
    """The places of motions, where each is an array of 3 by n finite numbers below 2^36 km: else `WrongText`."""
    made = {}
    for name, values in motions(times).items():
        places = np.asarray(values)
        if places.shape != (3, len(times)) or not np.issubdtype(places.dtype, np.number) or np.iscomplexobj(places):
            raise WrongText(
                f"{name} gives {_shape(places)} for {len(times)} times: it has to give an array of 3 by "
                f"{len(times)} kilometres, or for a scalar one of {len(times)} numbers"
            )
        places = floats(places)
        wrong = ~(np.abs(places) < MAX_KILOMETRES).all(axis=0)
        if wrong.any():
            at = int(np.argmax(wrong))
            raise WrongText(
                f"{name} gives {places[:, at].tolist()} at {time_text(times[at])} TDB ({times[at]!r} seconds since "
                "J2000), in "
                f"{span_text(times.min(), times.max())}: numbers below 2^36 (68,719,476,736 km, 459 au) are wanted; "
                "name a span in which it has them, and for what is farther give a direction, at a distance of your own"
            )
        made[name] = places
    return made


def _shape(places: object) -> str:
    """What a function gave, in words."""
    if not isinstance(places, np.ndarray) or places.dtype == object:
        return "no array of numbers"
    return f"an array of shape {places.shape} and type {places.dtype}"


def coefficients_needed(series: Floats, allowed: Floats) -> int:
    """How many coefficients series of granules need, of those that they have, where so much is allowed for each
    granule, in km: the others together leave a part of it, or are the scatter of doubles, which the last ones show."""
    count = series.shape[2]
    squares = (series**2).sum(axis=1)
    tails = np.sqrt(squares[:, ::-1].cumsum(axis=1)[:, ::-1])
    scatter = np.sqrt(squares[:, -min(LAST, count) :].mean(axis=1))
    noise = SCATTERS * scatter[:, None] * np.sqrt(np.arange(count, 0, -1))
    least = np.minimum(MOST_NOISE * allowed[:, None], noise)
    needed = (tails > np.maximum(SHARE * allowed[:, None], least)).any(axis=0)
    return int(np.flatnonzero(needed)[-1]) + 1 if needed.any() else 1


def fitted(motions: Motions, grid: Grid, count: int, tolerance: Mapping[str, Tolerance]) -> dict[str, Floats]:
    """Series of motions over a grid, of at most `count` coefficients, and of no more than their tolerance needs."""
    times, late = grid.times(count)
    made = {}
    for name, places in places_of(motions, times).items():
        distance = length(places).reshape(grid.count, count).min(axis=1)
        series = grid.series(places, late, count)
        made[name] = series[:, :, : coefficients_needed(series, tolerance[name].at(distance))]
    return made


def times_of_check(grid: Grid) -> tuple[Numbers, Floats]:
    """The granules and the times at which a fit is compared: random ones, and both ends of each granule, a millisecond
    inside, as the source itself may jump at them: the Moon of DE405 does by up to a centimetre."""
    random = np.random.default_rng(SEED)
    each = max(TIMES_EACH, -(-FEWEST_TIMES // grid.count))
    granules = np.repeat(np.arange(grid.count), each)
    times = grid.starts[granules] + grid.length * random.uniform(0, 1, len(granules))
    ends = np.concatenate([grid.starts, [grid.end]])
    order = np.arange(grid.count)
    inside = min(INSIDE, grid.length / 4)
    return np.concatenate([granules, order, order]), np.concatenate([times, ends[:-1] + inside, ends[1:] - inside])


def compared(
    motions: Motions, grid: Grid, series: Mapping[str, Floats], granules: Numbers, times: Floats
) -> dict[str, Comparison]:
    """Series beside their motions at times, each within its granule."""
    true = places_of(motions, times)
    made = {}
    for name, each in series.items():
        off = length(grid.sums(each, granules, times) - true[name])
        made[name] = Comparison(granules, times, off, length(true[name]))
    return made


def refuse(name: str, compared_with: Comparison, tolerance: Tolerance, advice: str) -> None:
    """Refuses a series that is farther from its motion than the tolerance, by body and time."""
    wrong = compared_with.off > tolerance.at(compared_with.far)
    if wrong.any():
        over = np.where(wrong, compared_with.off / tolerance.at(compared_with.far), 0)
        at = int(np.argmax(over))
        off = compared_with.off[at]
        angle = off / max(compared_with.far[at], np.finfo(float).tiny) * ARC_SECONDS
        raise WrongText(
            f"{name} is {off:.3g} km ({angle:.3g} arc seconds) from its series at {time_text(compared_with.times[at])} "
            f"TDB, and {tolerance} are allowed: {advice}"
        )


def granule_of(name: str, motions: Motions, start: float, end: float, tolerance: Tolerance) -> tuple[float, int]:
    """The length of a granule in seconds and its coefficients, by which the series of a motion has the fewest numbers
    among those that are within the tolerance in some places of a span; the last ones first, as they leave most."""
    best: Optional[tuple[float, float, int]] = None
    least = np.inf
    for size in LENGTHS:
        if size > max(end - start, 1.0) and size > LENGTHS[-1]:
            continue
        count, tail = _coefficients_needed(name, motions, start, end, size, tolerance)
        least = min(least, tail)
        if count is not None and (best is None or count / size < best[0]):
            best = count / size, size, count
        elif best is not None and size < best[1] / 4:
            break
    if best is None:
        raise WrongText(
            f"{name} in {span_text(start, end)} is no smooth motion to {tolerance}: by series of {TRIED} coefficients, "
            "of whatever "
            f"length, it scatters by {least:.3g} km and more; name a span without jumps, or a tolerance= above its "
            "scatter, as that of doubles of time"
        )
    return best[1], best[2]


def _coefficients_needed(
    name: str, motions: Motions, start: float, end: float, size: float, tolerance: Tolerance
) -> tuple[Optional[int], float]:
    """The coefficients that granules of a length need in some places of a span, or None where those that are tried are
    not enough; and what the last ones are, in km."""
    random = np.random.default_rng(SEED)
    free = max(0.0, end - start - size)
    starts = start + np.concatenate([[0.0, free], random.uniform(0, free, PLACES)])
    offsets = size * (nodes(TRIED) + 1) / 2
    times = starts[:, None] + offsets
    places = places_of(motions, times.ravel())[name]
    series = series_of(places.reshape(3, len(starts), TRIED), offsets - (times - starts[:, None]), size)
    allowed = tolerance.at(length(places).reshape(len(starts), TRIED).min(axis=1))
    count = coefficients_needed(series, allowed)
    return (count if count <= TRIED - SPARE else None), float(np.abs(series[:, :, -SPARE:]).max())

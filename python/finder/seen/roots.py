"""The times at which functions grow past 0 near given ones, many of them at once. In doubles."""

from __future__ import annotations

from collections.abc import Callable

import numpy as np
import numpy.typing as npt

from .vectors import Floats, floats

Places = npt.NDArray[np.intp]
# A function of seconds, each for the event whose place stands beside it.
Function = Callable[[Floats, Places], Floats]
# The seconds on each side of a time within which most are; those that are not are looked for on a grid.
NEAR = (900.0, 7_200.0, 43_200.0)
GRID = np.linspace(-1, 1, 49) ** 3
# The seconds to which a time is found, and the most steps that are taken.
FINE = 5e-4
STEPS = 60


def roots(function: Function, middle: Floats, reach: Floats) -> Floats:
    """The time nearest to each middle at which its function grows past 0, within its reach on both sides, to about a
    millisecond; NaN if there is none. All are seconds."""
    brackets = np.full((4, len(middle)), np.nan)
    for half in NEAR:
        left = np.flatnonzero(np.isnan(brackets[0]) & (reach >= half))
        if len(left):
            _bracket(function, middle, left, half, brackets)
    left = np.flatnonzero(np.isnan(brackets[0]))
    if len(left):
        _on_grid(function, middle, left, reach, brackets)
    made = np.full(len(middle), np.nan)
    some = np.flatnonzero(~np.isnan(brackets[0]))
    if len(some):
        low, high, below, above = brackets[:, some]
        times = illinois(lambda at: function(at, some), low, high, below, above)
        # (where a longitude jumps by a whole turn, the function is not small)
        jumps = abs(function(times, some)) > np.maximum(-below, above) / 2
        made[some] = np.where(jumps, np.nan, times)
    return made


def _bracket(function: Function, middle: Floats, left: Places, half: float, brackets: Floats) -> None:
    """Sets the ends, and the function at both, of those that are left and grow past 0 within so many seconds."""
    low, high = middle[left] - half, middle[left] + half
    below, above = function(low, left), function(high, left)
    there = (below < 0) & (above >= 0)
    brackets[:, left[there]] = np.stack([low, high, below, above])[:, there]


def _on_grid(function: Function, middle: Floats, left: Places, reach: Floats, brackets: Floats) -> None:
    """Sets those of the steps nearest to the middle, of steps that grow with the distance from it."""
    times = middle[left, None] + reach[left, None] * GRID
    values = function(times.ravel(), np.repeat(left, len(GRID))).reshape(times.shape)
    grows = (values[:, :-1] < 0) & (values[:, 1:] >= 0)
    best = np.where(grows, abs(GRID[:-1] + GRID[1:]), np.inf).argmin(axis=1)
    rows = np.flatnonzero(grows.any(axis=1))
    best = best[rows]
    ends = times[rows, best], times[rows, best + 1], values[rows, best], values[rows, best + 1]
    brackets[:, left[rows]] = np.stack(ends)


def illinois(function: Callable[[Floats], Floats], low: Floats, high: Floats, below: Floats, above: Floats) -> Floats:
    """Times between `low` and `high`, in seconds, at which a function passes 0, which is `below` it at the ones and
    `above` at the others: to about a millisecond, by secants whose resting end is halved (the method of Illinois)."""
    low, high, below, above = (end.copy() for end in (low, high, below, above))
    last = np.zeros(len(low))
    time = low
    for _ in range(STEPS):
        before, time = time, high - above * (high - low) / (above - below)
        value = function(time)
        up = value >= 0
        above[~up & (last < 0)] /= 2
        below[up & (last > 0)] /= 2
        high, above = np.where(up, time, high), np.where(up, value, above)
        low, below = np.where(up, low, time), np.where(up, below, value)
        last = np.where(up, 1.0, -1.0)
        if (np.minimum(abs(time - before), high - low) < FINE).all():
            break
    return floats(time)

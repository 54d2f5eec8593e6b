"""Chebyshev series: nodes, the series through values there, sums and rates, in doubles."""

from __future__ import annotations

from dataclasses import dataclass
from functools import lru_cache

import numpy as np
import numpy.typing as npt
from numpy.polynomial.chebyshev import chebder, chebvander

from ..seen.vectors import Floats, floats

Numbers = npt.NDArray[np.int_]


def sums(series: Floats, at: Floats) -> Floats:
    """Sums of Chebyshev series, whose coefficients are along the first axis, each at its place from -1 to 1, by
    Clenshaw's recurrence (Clenshaw 1955)."""
    if len(series) == 1:
        return floats(series[0] + 0 * at)
    twice = 2 * at
    made = series[-1] + 0 * at
    last, part = np.zeros_like(made), np.empty_like(made)
    for row in series[-2:0:-1]:
        # (in place: `last` becomes row - last + twice * made, and then changes its name with `made`)
        np.subtract(row, last, out=last)
        np.add(last, np.multiply(twice, made, out=part), out=last)
        last, made = made, last
    return floats(series[0] - last + at * made)


def columns_at(table: Floats, granules: Numbers) -> Floats:
    """The columns of a table of series by coefficient, component and granule, a granule for each time. The
    numbers of a coefficient follow one another in memory, by which `sums` is three times as fast."""
    return table.take(granules, axis=2, mode="clip")


@lru_cache(maxsize=None)
def nodes(count: int) -> Floats:
    """The roots of T_n, where values give the coefficients of a series."""
    return floats(np.cos(np.pi * (np.arange(count) + 0.5) / count))


@lru_cache(maxsize=None)
def transform(count: int) -> Floats:
    """The matrix that takes values at the nodes to the coefficients of the series through them."""
    turns = np.outer(np.arange(count), 2 * np.arange(count) + 1) % (4 * count)
    made = 2.0 / count * np.cos(np.pi * turns / (2 * count))
    made[0] /= 2
    return floats(made)


@lru_cache(maxsize=None)
def rates(count: int) -> Floats:
    """The matrix that takes values at the nodes to the derivatives of their series there, by the argument."""
    derived = chebder(transform(count))  # type: ignore[no-untyped-call]
    return floats(chebvander(nodes(count), count - 2) @ derived)  # type: ignore[no-untyped-call]


def series_of(values: Floats, late: Floats, length: float) -> Floats:
    """The coefficients, by granule, component and coefficient, of the series through values by component, granule and
    node: each is carried on by so many seconds to its node, by the rate of their series over granules of a length."""
    count = values.shape[2]
    # (differences to one value keep the digits that sums of all of them would lose)
    first = values[:, :, :1]
    rest = values - first
    if count > 1:
        rest = rest + np.einsum("kn,agn->agk", rates(count), rest) * (2 / length) * late
    made = np.einsum("kn,agn->gak", transform(count), rest)
    made[:, :, 0] += first[:, :, 0].T
    return floats(made)


@dataclass(frozen=True)
class Grid:
    """Granules of one length that follow one another: `count` of `length` seconds, from `start`, a whole second since
    J2000 (TDB)."""

    start: int
    length: float
    count: int

    @property
    def end(self) -> float:
        """The end of the last granule."""
        return self.start + self.length * self.count

    @property
    def starts(self) -> Floats:
        """The seconds at which the granules begin."""
        return floats(self.start + self.length * np.arange(self.count))

    def times(self, count: int) -> tuple[Floats, Floats]:
        """The times of so many nodes in each granule, granule by granule, as doubles; and by how many seconds the nodes
        are after them: a double of a time today has 10^-7 seconds, in which a satellite moves by a millimetre."""
        starts = self.starts[:, None]
        offsets = self.length * (nodes(count) + 1) / 2
        made = starts + offsets
        return made.ravel(), (offsets - (made - starts)).ravel()

    def series(self, values: Floats, late: Floats, count: int) -> Floats:
        """The coefficients of the series through values, whose last axis is that of the times of `count` nodes: by
        granule, component and coefficient. The values are carried on to the nodes by the rate of their own series."""
        return series_of(values.reshape(-1, self.count, count), late.reshape(self.count, count), self.length)

    def sums(self, series: Floats, granules: Numbers, times: Floats) -> Floats:
        """The sums of series of granules, each at a time within its granule: components by times."""
        at = 2 * (times - self.starts[granules]) / self.length - 1
        return sums(columns_at(np.ascontiguousarray(series.transpose(2, 1, 0)), granules), at)

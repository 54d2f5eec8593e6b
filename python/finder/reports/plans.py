"""Plans of parts: a span cut at borders of blocks, or a part for each file."""

from __future__ import annotations

from collections.abc import Sequence
from typing import Optional

from .calendar import DAY
from .joining import WrongParts
from .report import Summary

# The milliseconds of a part of a search for bodies that almost cancel: of much longer ones no bound tells their signs.
YEAR = 365 * DAY * 1_000


def cut(count: int, summary: Summary, start: Optional[int] = None, end: Optional[int] = None) -> list[tuple[int, int]]:
    """At most so many parts of a span, in milliseconds since J2000, cut at borders of blocks. The span is that of the
    files where it is not given."""
    low = summary.start * 1_000 if start is None else start
    high = summary.end * 1_000 if end is None else end
    if not summary.start * 1_000 <= low < high <= summary.end * 1_000:
        raise WrongParts("the span holds no time, or is not within the files")
    first = (low - summary.start * 1_000) // (summary.block * 1_000) + 1
    last = -((summary.start * 1_000 - high) // (summary.block * 1_000)) - 1
    inside = max(0, last - first + 1)
    parts = max(1, min(count, inside + 1))
    numbers = [first - 1 + (inside + 1) * part // parts for part in range(1, parts)]
    ends = [low, *((summary.start + summary.block * number) * 1_000 for number in numbers), high]
    return list(zip(ends, ends[1:]))


def count_of_years(summary: Summary, start: Optional[int] = None, end: Optional[int] = None) -> int:
    """How many parts of at most a year a span has, in milliseconds since J2000; it is that of the files where it is not
    given."""
    low = summary.start * 1_000 if start is None else start
    high = summary.end * 1_000 if end is None else end
    return max(1, -(-(high - low) // YEAR))


def spans_of_files(
    names: Sequence[str], found: Sequence[Summary], start: Optional[int] = None, end: Optional[int] = None
) -> list[tuple[int, int, str]]:
    """A part for each file that a span reaches, in milliseconds since J2000, and the file's name: from its begin to
    that of the next file, whose first block it has to hold, so that the border is read from the same block in both."""
    for name, this, later in zip(names, found, found[1:]):
        if this.block != later.block:
            raise WrongParts(f"{name} has blocks of another length than the next file")
        if not this.start < later.start <= this.end - this.block:
            raise WrongParts(f"{name} does not hold the block with which the next file begins")
        if (later.start - this.start) % this.block:
            raise WrongParts(f"the blocks of {name} and of the next file do not fall on one another")
    ends = [summary.start * 1_000 for summary in found] + [summary.end * 1_000 for summary in found[-1:]]
    low, high = ends[0] if start is None else start, ends[-1] if end is None else end
    if not ends[0] <= low < high <= ends[-1]:
        raise WrongParts("the span holds no time, or is not within the files")
    parts = zip((max(low, begin) for begin in ends), (min(high, stop) for stop in ends[1:]), names)
    return [(begin, stop, name) for begin, stop, name in parts if begin < stop]

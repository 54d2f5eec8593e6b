"""Windows paired into the times during which something lasts."""

from __future__ import annotations

from dataclasses import dataclass
from typing import Optional

import numpy as np

from ..ephemeris.names import Files
from ..ephemeris.series import Series
from ..public import public
from ..seen.curves import Curve
from ..seen.values import series_about
from .windows import Window, Windows

# The kinds that are moments: their function has another sign on both sides, but also jumps by a turn between them.
MOMENTS = ("conj", "oppo")


@public
@dataclass(frozen=True)
class Interval:
    """The times between two windows that follow one another, at which the function of a search is 0 or more: something
    lasts.

    `begin` is the window before, or None where the span begins, and `end` the one after, or None where it ends. `on` is
    True; where it is not known whether it lasts it is None. With `proved` this follows from a certain window at one end
    at least, else from the function's sign in doubles, or nothing is known. An undecided window parts two intervals.

    >>> import finder
    >>> year = "examples/de405-2000.asc"
    >>> near = finder.separation(year, "venus", "jupiter", degrees=1, observer="earth")
    >>> interval = finder.intervals(near)[0]
    >>> interval.on, interval.proved, interval.has(11_800_000)
    (True, True, True)
    """

    begin: Optional[Window]
    end: Optional[Window]
    on: Optional[bool] = True
    proved: bool = True

    def has(self, tick: int) -> Optional[bool]:
        """Whether it lasts at a tick since J2000 (TDB): None within a window of more than one tick at an end, and
        between the ends where it is not known whether it lasts."""
        if self.begin is not None and tick < self.begin.last:
            return False if tick < self.begin.first else None
        if self.end is not None and tick >= self.end.first:
            return False if tick >= self.end.last else None
        return self.on


@public
def intervals(
    found: Windows, files: Optional[Files] = None, *, series: Optional[Series] = None
) -> list[Interval]:
    """The times at which a search's function is 0 or more, in order: each rise with the fall after it. `found` are all
    windows of the search, and no slice of them, by which nothing would be proved of the times of the others.

    That is while the coordinate or the distance is at least the value, the distance grows (`apsis`), the longitude
    grows (`station`), the angle is at most the one of the value (`sep`), it grows smaller (`sepext`), and one disc
    covers a part of the other, covers all of it, or lies within it. Conjunctions and oppositions are moments, and
    refused.

    It is proved as the windows are: of a search for both directions rises and falls take turns, so what holds on one
    side of a certain window is known. Where the first is a fall it was on at the span's start, and the first interval
    begins with None; where the last is a rise the last one ends with None. Where no window tells, as where nothing was
    found, the sign is taken of the `files` in doubles, and the interval is not `proved`; without files an interval says
    with `on=None` that it is not known.

    >>> import finder
    >>> year = "examples/de405-2000.asc"
    >>> near = finder.separation(year, "venus", "jupiter", degrees=1, observer="earth")
    >>> [(each.begin.text(), each.end.text()) for each in finder.intervals(near)]
    [('2000-05-16T10:14:47', '2000-05-18T10:35:20')]
    """
    turns = _turns(found)
    rows: list[Optional[Window]] = [None, *found, None]
    made = []
    for number, (begin, end) in enumerate(zip(rows, rows[1:])):
        after = {"rise": True, "fall": False}.get(turns[number - 1]) if begin is not None else None
        before = {"rise": False, "fall": True}.get(turns[number]) if end is not None else None
        if after is not None and before is not None and after != before:
            raise ValueError("two turns of one direction follow one another: these are not all windows of a search")
        known = before if after is None else after
        low, high = found.start if begin is None else begin.last, found.end if end is None else end.first - 1
        if known is None and low <= high:
            sign = _sign(found, files, series, (low + high) / 2)
            if sign is not False:
                made.append(Interval(begin, end, sign, proved=False))
        elif known:
            made.append(Interval(begin, end))
    return made


@public
def on_at_start(found: Windows, files: Optional[Files] = None, *, series: Optional[Series] = None) -> Optional[bool]:
    """Whether the function of a search for both directions is 0 or more at the start of its span: by the first window
    where that is certain, which is proved; else in doubles of the files, which is not; None without files.

    >>> import finder
    >>> year = "examples/de405-2000.asc"
    >>> finder.on_at_start(finder.separation(year, "venus", "jupiter", degrees=1, observer="earth"))
    False
    """
    turns = _turns(found)
    if turns and turns[0]:
        return turns[0] == "fall"
    return _sign(found, files, series, found.start)


def _turns(found: Windows) -> list[str]:
    """The turns of the windows of a search whose rises and falls take turns."""
    if not isinstance(found, Windows):
        raise TypeError(f"the windows of a search are wanted, and not {type(found).__name__}")
    if found.request_words["kind"] in MOMENTS:
        raise ValueError("conjunctions and oppositions are moments, and last no time")
    if found.request_words["dir"] != "any":
        raise ValueError("intervals want a search for both directions: dir='any'")
    turns: list[str] = found.turn.tolist()
    return turns


def _sign(found: Windows, files: Optional[Files], series: Optional[Series], tick: float) -> Optional[bool]:
    """Whether the function is 0 or more at a tick, in doubles; None without files."""
    if files is None and series is None:
        return None
    at = np.array([tick / found.tick])
    value = float(Curve(series_about(files, series, at, found), found.request_words).at(at)[0])
    return None if np.isnan(value) else value >= 0

"""Pictures of windows and of sets of times. They need matplotlib; `curve` does not.

Windows and sets are drawn as they were found. The function around a window is drawn of positions in doubles, for the
picture alone: its caption says so. What is written fits into the picture, which can be printed as it comes.
"""

from __future__ import annotations

import textwrap
from collections.abc import Mapping
from typing import Any, NamedTuple, Optional, Union

import numpy as np
import numpy.typing as npt

from .. import spans
from ..ephemeris.names import Files
from ..ephemeris.series import Series
from ..reports.sets import Spans, TimeSet
from ..reports.windows import Windows
from ..seen.curves import Curve
from ..seen.vectors import Floats

Drawn = Union[Windows, TimeSet, Spans]
CAPTION = "Window: found by the proved search. Curve: positions in doubles, for the picture alone."
# The turns with their marks, colours, and how far from the line of a row they stand, below it where above 0.
MARKS = {"rise": ("^", "tab:red", -0.17), "fall": ("v", "tab:blue", 0.17)}
UNDECIDED = "tab:orange"
SURE, POSSIBLE = "tab:green", "tab:olive"
# A row with more marks than this in one direction has lines in place of triangles.
CROWDED = 120
# The units of an axis, with the most seconds for which each is taken, and the seconds that it has.
UNITS = (("seconds", 300.0, 1.0), ("minutes", 3.0 * 3_600, 60.0), ("hours", 4.0 * spans.DAY, 3_600.0))
DAYS = ("days", np.inf, float(spans.DAY))
# The inches from an axis of time to what is said below its name, and the letters of a label in an inch.
BELOW = 0.4
LETTERS = 11
# The times that matplotlib has as dates; those of other files are drawn as years.
FIRST_DATE, LAST_DATE = np.datetime64("0002-01-01"), np.datetime64("9998-01-01")


class Points(NamedTuple):
    """What is drawn around a window: seconds since J2000 (TDB), the values of its function there, and their unit."""

    times: Floats
    values: Floats
    unit: str


def curve(
    found: Windows,
    files: Optional[Files] = None,
    number: int = 0,
    *,
    margin: float = 8.0,
    points: int = 201,
    series: Optional[Series] = None,
) -> Points:
    """The function of a search around its window of this number, over `margin` seconds on each side, in doubles: it is
    above 0 after a rise, and below 0 after a fall. The files are read again, or `series` is what was read of them."""
    window = found[number]
    low, high = (window.first - 1) / found.tick - margin, window.last / found.tick + margin
    if series is None:
        if files is None:
            raise TypeError("the files of the search are wanted, or a series of them")
        series = Series(files, low - spans.DAY, high + spans.DAY)
    of_kind = Curve(series, found.request_words)
    times = np.linspace(low, high, points)
    return Points(times, of_kind.at(times), of_kind.unit)


def timeline(rows: Mapping[str, Drawn], axes: Any = None, title: Optional[str] = None) -> Any:
    """Draws the windows of several searches, and sets of times, on a line of time each, with their names, on axes of
    matplotlib, and returns these. A triangle is a certain window: above the line a rise, below it a fall, and lines in
    their place where there are many. A bar is an undecided window, or a span of a set: dark its sure times, light its
    possible ones."""
    import matplotlib.pyplot as plt

    if axes is None:
        axes = plt.subplots(figsize=(10, 0.45 * len(rows) + 1.6), layout="constrained")[1]
    as_dates = all(_are_dates(found) for found in rows.values())
    labels: dict[str, Any] = {}
    for height, found in enumerate(rows.values()):
        if isinstance(found, TimeSet):
            _draw_bars(axes, found.possible, height, POSSIBLE, "possible times", as_dates, labels)
            _draw_bars(axes, found.sure, height, SURE, "sure times", as_dates, labels)
        elif isinstance(found, Spans):
            _draw_bars(axes, found, height, SURE, "times", as_dates, labels)
        else:
            _draw_marks(axes, found, height, as_dates, labels)
            undecided = found[~found.certain]
            _draw_bars(axes, undecided, height, UNDECIDED, "undecided window", as_dates, labels)
    axes.set_yticks(range(len(rows)), [textwrap.fill(name, 36) for name in rows])
    axes.set_ylim(len(rows) - 0.4, -0.6)
    axes.grid(axis="x", alpha=0.4)
    _name_times(axes, as_dates)
    if labels:
        _explain(axes, labels)
    if title:
        axes.set_title(_fitted(title, axes, wide=True, size=1.2))
    return axes


def _explain(axes: Any, labels: dict[str, Any]) -> None:
    """Says below the axis of time what is drawn."""
    from matplotlib.transforms import ScaledTranslation

    below = axes.transAxes + ScaledTranslation(0, -BELOW, axes.figure.dpi_scale_trans)
    place = {"loc": "upper center", "bbox_to_anchor": (0.5, 0), "bbox_transform": below, "frameon": False}
    axes.legend(labels.values(), labels.keys(), ncol=min(5, len(labels)), fontsize="small", **place)


def _are_dates(found: Drawn) -> bool:
    """Whether all times are within those that matplotlib has as dates."""
    parts = (found.possible, found.sure) if isinstance(found, TimeSet) else (found,)
    ends = [times for part in parts for times in (part.datetime64("first"), part.datetime64("last"))]
    return all(bool((times > FIRST_DATE).all() and (times < LAST_DATE).all()) for times in ends)


def _places(times: npt.NDArray[np.datetime64], as_dates: bool) -> Any:
    """Times as they are drawn: as they are, or as Julian years."""
    if as_dates:
        return times
    days = (times - np.datetime64("2000-01-01T12:00:00")) / np.timedelta64(1, "D")
    return 2_000 + days / 365.25


def _draw_marks(axes: Any, found: Windows, height: int, as_dates: bool, labels: dict[str, Any]) -> None:
    """Draws the certain windows of a row, rises above its line and falls below."""
    times = _places(found.datetime64(), as_dates)
    crowded = max(int(found.rises.sum()), int(found.falls.sum())) > CROWDED
    for turn, (mark, colour, aside) in MARKS.items():
        here = found.turn == turn
        if not here.any():
            continue
        heights = np.full(int(here.sum()), height + aside)
        size, edge = (8, 0.5) if crowded else (5, 1.0)
        shape = {"marker": "|" if crowded else mark, "markersize": size, "markeredgewidth": edge}
        (drawn,) = axes.plot(times[here], heights, linestyle="none", color=colour, **shape)
        labels.setdefault(f"certain window, {turn}" + (" (many)" if crowded else ""), drawn)


def _draw_bars(
    axes: Any,
    row: Union[Windows, Spans],
    height: int,
    colour: str,
    label: str,
    as_dates: bool,
    labels: dict[str, Any],
) -> None:
    """Draws the spans of a row as bars, each of them to be seen however short it is."""
    ends = _places(row.datetime64("first"), as_dates), _places(row.datetime64("last"), as_dates)
    shape = {"linewidth": 7, "solid_capstyle": "butt", "markersize": 7, "markeredgewidth": 1}
    for low, high in zip(*ends):
        (drawn,) = axes.plot([low, high], [height, height], "|-", color=colour, **shape)
        labels.setdefault(label, drawn)


def _name_times(axes: Any, as_dates: bool) -> None:
    """The marks of the axis of time, and its name."""
    import matplotlib.dates

    if as_dates:
        where = matplotlib.dates.AutoDateLocator()
        axes.xaxis.set_major_locator(where)
        axes.xaxis.set_major_formatter(matplotlib.dates.ConciseDateFormatter(where))
    axes.set_xlabel(f"{'TDB' if as_dates else 'Julian years (TDB)'}. What was searched for is nowhere else.")


def around(
    found: Windows,
    files: Optional[Files] = None,
    number: int = 0,
    *,
    margin: float = 8.0,
    axes: Any = None,
    series: Optional[Series] = None,
) -> Any:
    """Draws the function of a search around its window of this number, over `margin` seconds on each side, and the
    window, on axes of matplotlib, and returns these. Times are seconds, minutes, hours or days from the window's last
    tick, as they fit. The caption says that the curve is of positions in doubles."""
    import matplotlib.pyplot as plt

    if axes is None:
        axes = plt.subplots(figsize=(7, 4.5), layout="constrained")[1]
    window, drawn = found[number], curve(found, files, number, margin=margin, series=series)
    zero = window.last / found.tick
    length = float(drawn.times[-1] - drawn.times[0])
    unit, _, seconds = next((row for row in UNITS if length <= row[1]), DAYS)
    colour = MARKS[window.turn][1] if window.turn else UNDECIDED
    begin = (window.first - 1) / found.tick - zero
    # (a second in a span of days is a line)
    label = f"window: {window.turn or 'undecided'}"
    axes.axvspan(begin / seconds, 0, color=colour, alpha=0.25 if -begin > length / 200 else 1.0, label=label)
    axes.plot((drawn.times - zero) / seconds, drawn.values, color="black", linewidth=1)
    axes.axhline(0, color="black", linewidth=0.6)
    axes.set_xlabel(_fitted(f"{unit} from {window.text()} TDB", axes) + "\n" + _fitted(CAPTION, axes))
    axes.set_ylabel(_fitted(drawn.unit, axes, wide=False))
    axes.legend()
    return axes


def _fitted(text: str, axes: Any, wide: bool = True, size: float = 1.0) -> str:
    """A text in lines that fit to the width of a picture's axes, or to their height; of letters so much wider."""
    box = axes.get_position()
    width, height = axes.figure.get_size_inches()
    inches = box.width * width if wide else box.height * height
    return textwrap.fill(text, max(12, int(inches * LETTERS / size)))

"""One table for all that is found: the same columns whatever the kind and the tick, so that tables can be joined."""

from __future__ import annotations

import html
from collections.abc import Mapping, Sequence
from typing import TYPE_CHECKING, Any, Optional

import numpy as np
import numpy.typing as npt

if TYPE_CHECKING:
    from ..seen.seen import Seen
    from ..seen.values import Values
    from .windows import Windows

Columns = dict[str, Any]
# How many rows a `repr` shows, and a notebook.
SHOWN, SHOWN_IN_NOTEBOOK = 5, 20
SECONDS_TO_2000 = np.datetime64("2000-01-01T12:00:00.000", "ms")


def milliseconds_of(ticks: npt.NDArray[np.int64], tick: int) -> npt.NDArray[np.int64]:
    """Ticks since J2000 (TDB) in milliseconds, exactly."""
    made: npt.NDArray[np.int64] = ticks * (1_000 // tick)
    return made


def calendar_of(milliseconds: npt.NDArray[np.int64]) -> npt.NDArray[np.datetime64]:
    """Milliseconds since J2000 (TDB) on its calendar, as `datetime64[ms]`."""
    made: npt.NDArray[np.datetime64] = SECONDS_TO_2000 + milliseconds.astype("m8[ms]")
    return made


def columns_of(found: Windows, seen: Optional[Seen] = None, numbers: Optional[Values] = None) -> Columns:
    """The columns of windows: what each is, its first and last time, and what is computed beside it.

    `kind`, `target` and `second` (None without one) are words of the request, `name` what an almanac calls the event,
    `turn` `rise`, `fall`, or None where the window is undecided, `certain` whether it is not; `first` and `last` are
    times of TDB, `first_ms` and `last_ms` the same in milliseconds since J2000. Of `seen` there are `seen_utc` and
    `later_s`, and of `numbers` their columns.
    """
    from ..almanac.names import names

    asked, bodies = found.request_words, found.bodies
    turn = np.array([turn or None for turn in found.turn.tolist()], dtype=object)
    east = None if numbers is None else numbers.east
    made: Columns = {
        "kind": _same(asked["kind"], len(found)),
        "target": _same(bodies["target"], len(found)),
        "second": _same(bodies.get("second"), len(found)),
        "name": np.array(names(found, east), dtype=object),
        "turn": turn,
        "certain": found.certain,
        **times_of(found.first, found.last, found.tick),
    }
    if seen is not None:
        made.update({"seen_utc": seen.utc64(), "later_s": seen.later})
    if numbers is not None:
        made.update({name: column for name, column in numbers.columns().items() if name != "seconds"})
    return made


def times_of(first: npt.NDArray[np.int64], last: npt.NDArray[np.int64], tick: int) -> Columns:
    """The columns of first and last times."""
    milliseconds = {"first": milliseconds_of(first, tick), "last": milliseconds_of(last, tick)}
    calendar = {name: calendar_of(each) for name, each in milliseconds.items()}
    return {**calendar, **{f"{name}_ms": each for name, each in milliseconds.items()}}


def _same(word: Optional[str], count: int) -> npt.NDArray[Any]:
    """A column that has one word."""
    made = np.empty(count, dtype=object)
    made[:] = word
    return made


def frame_of(columns: Columns, about: Mapping[str, Any]) -> Any:
    """A `DataFrame` of pandas, with what it is in its `attrs`. Times are `datetime64` to the millisecond, or to the
    nanosecond where pandas has no other; of years that it then has not they are numpy's, as objects."""
    import pandas

    made = pandas.DataFrame(index=range(len(next(iter(columns.values())))))
    for name, column in columns.items():
        try:
            made[name] = column
        except pandas.errors.OutOfBoundsDatetime:
            made[name] = pandas.Series(list(column), dtype=object)
    made.attrs.update(about)
    return made


def lines_of(found: Windows) -> list[str]:
    """The first windows, a line each: its time, its turn and its name."""
    from ..almanac.names import names

    rows = [
        f"  {window.text()} {window.turn or 'undecided':<9} {name}"
        for window, name in zip(found[:SHOWN], names(found[:SHOWN]))
    ]
    return [*rows, *([f"  .. and {len(found) - SHOWN} more"] if len(found) > SHOWN else [])]


def html_of(columns: Columns, caption: str) -> str:
    """A table of HTML for a notebook, with its first rows."""
    shown = {name: [_text(value) for value in column[:SHOWN_IN_NOTEBOOK]] for name, column in columns.items()}
    count = len(next(iter(columns.values())))
    more = f" (the first {SHOWN_IN_NOTEBOOK} of {count})" if count > SHOWN_IN_NOTEBOOK else ""
    head = _row("th", list(shown))
    body = "\n".join(_row("td", row) for row in zip(*shown.values()))
    title = html.escape(caption + more)
    return f"<table>\n<caption>{title}</caption>\n<thead>{head}</thead>\n<tbody>\n{body}\n</tbody>\n</table>"


def _text(value: Any) -> str:
    return "" if value is None else str(value).replace("T", " ") if isinstance(value, np.datetime64) else str(value)


def _row(cell: str, words: Sequence[str]) -> str:
    return "<tr>" + "".join(f"<{cell}>{html.escape(word)}</{cell}>" for word in words) + "</tr>"

"""The windows of a search, as a sequence and as arrays."""

from __future__ import annotations

from collections.abc import Iterator, Mapping, Sequence
from typing import Any, Optional, Union, overload

import numpy as np
import numpy.typing as npt

from .. import spans
from ..ephemeris.named import bodies_of
from ..ephemeris.names import Files
from ..public import public, renamed
from ..spans import Report
from .ends import End, Ends, datetime64_of
from .table import columns_of, frame_of, html_of, lines_of


@public
class Window(spans.Window):
    """A window: its first and its last tick since J2000 (TDB), and its turn, which is `rise` or `fall` where it is
    certain, and None where it is undecided. It is a tuple of these three; `tick` of its ticks are in a second.

    >>> import finder
    >>> window = finder.Window(12_801_349, 12_801_349, "fall")
    >>> window.text(), window.turn
    ('2000-05-28T15:55:49', 'fall')
    """

    tick: int = 1

    def __new__(cls, first: int, last: int, turn: Optional[str] = None, tick: int = 1) -> Window:
        made = super().__new__(cls, first, last, turn)
        made.tick = tick
        return made

    def text(self, which: End = "last") -> str:
        """The first or the last tick as a report has it, on the calendar of TDB."""
        return spans.time_text(_end_of(self, which), self.tick)

    def datetime64(self, which: End = "last") -> np.datetime64:
        """The first or the last tick on the calendar of TDB, exactly, to the second or the millisecond."""
        made: np.datetime64 = datetime64_of(np.array([_end_of(self, which)]), self.tick)[0]
        return made


def _end_of(window: Window, which: End) -> int:
    if which not in ("first", "last"):
        raise ValueError(f"`first` or `last` is wanted, not {which!r}")
    return window.first if which == "first" else window.last


@public
class Windows(Ends, Sequence[Window]):
    """The windows of a search, in order of time, after `start` and up to `end`.

    `first` and `last` are arrays of int64, ticks since J2000 (TDB) of which `tick` are in a second; `turn` is an array
    of `rise`, `fall` and, for an undecided window, the empty text. The event of a certain window of one tick has
    happened at that tick and had not happened one before. A slice holds some of the windows of the same search.

    `names` are those that an `Ephemeris` has for words of the program, by these words, and `bodies` those of the
    request. `files` are what was searched, or None of a report that was read.

    >>> import finder
    >>> finder.apsides("examples/de405-2000.asc", "moon", "2000-03-01", "2000-05-01", observer="earth")
    <Windows of 'FIND apsis target moon second - observer earth frame eq axis - values - dir any width 1 depth 40 cut \
half': 4 certain, 0 undecided
      2000-03-14T23:39:59 rise      perigee
      2000-03-27T17:20:43 fall      apogee
      2000-04-08T22:06:56 rise      perigee
      2000-04-24T12:26:28 fall      apogee>
    """

    def __init__(
        self, report: Report, names: Optional[Mapping[str, str]] = None, files: Optional[Files] = None
    ) -> None:
        self.names = dict(names or {})
        self.files = files
        self.request = report.request
        self.tick = report.tick
        self.start = report.start
        self.end = report.end
        self.first = np.array([window.first for window in report.windows], dtype=np.int64)
        self.last = np.array([window.last for window in report.windows], dtype=np.int64)
        self.turn: npt.NDArray[np.str_] = np.array([window.turn or "" for window in report.windows], dtype="<U4")
        for array in (self.first, self.last, self.turn):
            array.flags.writeable = False

    def __reduce__(self) -> tuple[type[Windows], tuple[Report, dict[str, str], Any]]:
        # (arrays that are pickled can be written to where they arrive, those that are made of a report cannot)
        return Windows, (self.report, self.names, self.files)

    @classmethod
    def of_text(cls, text: str) -> Windows:
        """The windows of a report, whose lines and counts are checked: `WrongReport` where it is not whole."""
        return cls(spans.read_report(text))

    @classmethod
    def of_report(cls, report: Report, names: Optional[Mapping[str, str]] = None) -> Windows:
        """The windows of a report that was read."""
        return cls(report, names)

    @property
    def report(self) -> Report:
        """The report that has these windows."""
        return Report(self.request, self.tick, self.start, self.end, tuple(self))

    @property
    def text(self) -> str:
        """The report as the command prints it, letter for letter."""
        return self.report.text()

    @property
    def request_words(self) -> dict[str, str]:
        """The words of the request by their names, with each option at its value or default."""
        return self.report.request_words

    asked = renamed("asked", "request_words")

    @property
    def bodies(self) -> dict[str, str]:
        """Target, second body and observer of the request, by the names of the `Ephemeris` that was searched.

        >>> import finder
        >>> sky = finder.Ephemeris.open("examples/de405-2000.asc").sky(start="2000-05-01", end="2000-06-01",
        ...     stars={"regulus": finder.Star(152.093, 11.967)})
        >>> finder.conjunctions(sky, "moon", "regulus").bodies
        {'target': 'moon', 'second': 'regulus', 'observer': 'earth'}
        """
        return bodies_of(self.request_words, self.names)

    def __len__(self) -> int:
        return len(self.first)

    def __iter__(self) -> Iterator[Window]:
        for first, last, turn in zip(self.first.tolist(), self.last.tolist(), self.turn.tolist()):
            yield Window(first, last, turn or None, self.tick)

    @overload
    def __getitem__(self, place: int) -> Window:
        ...

    @overload
    def __getitem__(self, place: Union[slice, npt.NDArray[Any]]) -> Windows:
        ...

    def __getitem__(self, place: Any) -> Union[Window, Windows]:
        """A window, or those of a slice, of a mask or of places."""
        if isinstance(place, (int, np.integer)):
            return self._window(int(place))
        chosen = [self._window(number) for number in np.arange(len(self))[place]]
        return Windows(Report(self.request, self.tick, self.start, self.end, tuple(chosen)), self.names, self.files)

    def _window(self, place: int) -> Window:
        return Window(int(self.first[place]), int(self.last[place]), str(self.turn[place]) or None, self.tick)

    def __eq__(self, other: object) -> bool:
        return isinstance(other, Windows) and self.report == other.report

    def __hash__(self) -> int:
        return hash(self.report)

    def __repr__(self) -> str:
        return "\n".join([f"<{self._title()}", *lines_of(self)]) + ">"

    def _repr_html_(self) -> str:
        """The first windows as a table, for a notebook."""
        columns = self.columns()
        return html_of({name: columns[name] for name in ("name", "turn", "first", "last")}, f"{self._title()} (TDB)")

    def _title(self) -> str:
        certain = int(self.certain.sum())
        return f"Windows of {self.request!r}: {certain} certain, {len(self) - certain} undecided"

    @property
    def certain(self) -> npt.NDArray[np.bool_]:
        """Which windows are certain, as a mask."""
        mask: npt.NDArray[np.bool_] = self.turn != ""
        return mask

    @property
    def rises(self) -> npt.NDArray[np.bool_]:
        """Which windows are certain and rise, as a mask."""
        mask: npt.NDArray[np.bool_] = self.turn == "rise"
        return mask

    @property
    def falls(self) -> npt.NDArray[np.bool_]:
        """Which windows are certain and fall, as a mask."""
        mask: npt.NDArray[np.bool_] = self.turn == "fall"
        return mask

    def to_pandas(self, *, seen: Any = False, values: Any = False, files: Optional[Files] = None) -> Any:
        """A `DataFrame` of pandas with a row for each window, of the same columns for every kind and tick: `kind`,
        `target`, `second`, `name`, `turn` (None where it is undecided), `certain`, `first` and `last` (TDB), and both in
        milliseconds since J2000.

        >>> import finder
        >>> found = finder.conjunctions("examples/de405-2000.asc", "moon", "sun", observer="earth", frame="ecl")
        >>> print(found[:2].to_pandas()[["name", "turn", "certain", "last", "last_ms"]].to_string(index=False))
            name turn  certain                last    last_ms
        new moon fall     True 2000-01-06 18:15:27  454527000
        new moon fall     True 2000-02-05 13:05:03 3027903000
        >>> print(found[:1].to_pandas(seen=True, values=True)[["seen_utc", "target_distance_km"]].round(0).to_string())
                         seen_utc  target_distance_km
        0 2000-01-06 18:13:38.123            404695.0

        With `seen` there are `seen_utc`, the time at which it is seen, and `later_s`, by how many seconds that is later;
        with `values` the numbers of `finder.values` at the window. Both are computed in doubles of the files of the search,
        or of `files`, and unproved; each may be what `finder.seen` or `finder.values` gave.
        """
        return frame_of(self.columns(seen=seen, values=values, files=files), {"request": self.request})

    def columns(self, *, seen: Any = False, values: Any = False, files: Optional[Files] = None) -> dict[str, Any]:
        """The columns of `to_pandas` as arrays, for other tables: those of Arrow, polars or a file of one's own.

        >>> import finder
        >>> found = finder.oppositions("examples/de405-2000.asc", "jupiter", observer="earth", frame="ecl")
        >>> {name: column.tolist() for name, column in found.columns().items() if name in ("name", "certain", "last_ms")}
        {'name': ['opposition'], 'certain': [True], 'last_ms': [28648938000]}
        """
        from ..seen import seen as of_seen
        from ..seen import values as of_values

        times = of_seen.seen(self, files) if seen is True else seen or None
        numbers = of_values.values(self, files) if values is True else values or None
        return columns_of(self, times, numbers)

    def to_table(self, *, seen: Any = False, values: Any = False, files: Optional[Files] = None) -> Any:
        """A `Table` of astropy with the columns of `to_pandas`, in which `first` and `last` are `Time`s of scale TDB, and
        with the request in its `meta`.

        >>> import finder
        >>> found = finder.oppositions("examples/de405-2000.asc", "jupiter", observer="earth", frame="ecl")
        >>> found.to_table()["last"][0].utc.iso
        '2000-11-28 02:01:13.817'
        """
        from astropy.table import Table

        columns = self.columns(seen=seen, values=values, files=files)
        return Table({**columns, "first": self.time("first"), "last": self.time("last")}, meta={"request": self.request})

"""Sets of times, of which some are sure and others possible, and what is made of several of them."""

from __future__ import annotations

import datetime
from collections.abc import Iterator, Mapping, Sequence
from typing import Any, NamedTuple, Optional, Union, overload

import numpy as np
import numpy.typing as npt

from .. import spans
from ..ephemeris.named import bodies_of
from ..public import public, renamed
from ..searches.times import Time, seconds_of_length, ticks_of_time
from .ends import End, Ends
from .table import SHOWN, frame_of, html_of, times_of


@public
class WrongSets(ValueError):
    """Sets of different spans or ticks, of which no set is made.

    >>> import finder
    >>> year = "examples/de405-2000.asc"
    >>> one, other = (finder.retrograde(year, "mars", tick=tick, observer="earth") for tick in (1, 1000))
    >>> try:
    ...     one & other
    ... except finder.WrongSets as error:
    ...     print(error)
    sets of different ticks: 1 and 1000 in a second
    """


@public
class Span(NamedTuple):
    """Times in a row: the first and the last tick since J2000 (TDB), both of them in it.

    >>> import finder
    >>> span = finder.Span(0, 86_400)
    >>> span.last - span.first
    86400
    """

    first: int
    last: int


@public
class Spans(Ends, Sequence[Span]):
    """Spans in order of time. Between two of them there is a tick that is in none.

    `first` and `last` are arrays of int64, ticks since J2000 (TDB) of which `tick` are in a second; both ends of a span
    are in it. A slice holds some of the spans, and `in` looks for a tick in them.

    >>> import finder
    >>> spans = finder.Spans(1, [0, 100], [60, 160])
    >>> spans[1], 30 in spans, 80 in spans
    (Span(first=100, last=160), True, False)
    """

    def __init__(self, tick: int, first: Any, last: Any) -> None:
        self.tick = tick
        self.first = np.array(first, dtype=np.int64)
        self.last = np.array(last, dtype=np.int64)
        for array in (self.first, self.last):
            array.flags.writeable = False

    def __len__(self) -> int:
        return len(self.first)

    def __iter__(self) -> Iterator[Span]:
        return map(Span, self.first.tolist(), self.last.tolist())

    @overload
    def __getitem__(self, place: int) -> Span:
        ...

    @overload
    def __getitem__(self, place: Union[slice, npt.NDArray[Any]]) -> Spans:
        ...

    def __getitem__(self, place: Any) -> Union[Span, Spans]:
        """A span, or those of a slice, of a mask or of places."""
        if isinstance(place, (int, np.integer)):
            return Span(int(self.first[place]), int(self.last[place]))
        return Spans(self.tick, self.first[place], self.last[place])

    def __contains__(self, sought: object) -> bool:
        """Whether a tick is in one of the spans, or a span is one of them."""
        if isinstance(sought, tuple):
            return any(span == sought for span in self)
        if isinstance(sought, bool) or not isinstance(sought, (int, np.integer)):
            raise TypeError(f"a tick or a span is wanted: {sought!r}")
        return Spans(self.tick, [sought], [sought])._within(self)

    def __eq__(self, other: object) -> bool:
        return isinstance(other, Spans) and self._key() == other._key()

    def __hash__(self) -> int:
        return hash(self._key())

    def __repr__(self) -> str:
        more = f", and {len(self) - SHOWN} more" if len(self) > SHOWN else ""
        return f"<Spans: {', '.join(self[:SHOWN]._lines('')) or 'none'}{more}>"

    def to_pandas(self) -> Any:
        """A `DataFrame` of pandas: `first` and `last`, times of TDB, and both in milliseconds since J2000.

        >>> import finder
        >>> back = finder.retrograde("examples/de405-2000.asc", "mercury", observer="earth", frame="ecl")
        >>> print(back.sure[:1].to_pandas().to_string(index=False))
                      first                last   first_ms    last_ms
        2000-02-21 12:41:03 2000-03-14 20:35:20 4408863000 6338120000
        """
        return frame_of(times_of(self.first, self.last, self.tick), {})

    def to_table(self) -> Any:
        """A `Table` of astropy with the columns of `to_pandas`, in which `first` and `last` are `Time`s of scale TDB."""
        from astropy.table import Table

        columns = times_of(self.first, self.last, self.tick)
        return Table({**columns, "first": self.time("first"), "last": self.time("last")})

    def _repr_html_(self) -> str:
        """The first spans as a table, for a notebook."""
        columns = times_of(self.first, self.last, self.tick)
        return html_of({name: columns[name] for name in ("first", "last")}, f"{len(self)} spans (TDB)")

    def total(self) -> datetime.timedelta:
        """How long the spans last together, each from its first tick to its last one, to the microsecond.

        >>> Spans(1, [0, 100], [60, 130]).total()
        datetime.timedelta(seconds=90)
        """
        ticks = int((self.last - self.first).sum())
        return datetime.timedelta(microseconds=ticks * 1_000_000 // self.tick)

    def longer_than(self, length: Any) -> Spans:
        """The spans that last longer than a length of time, from their first tick to their last one.

        >>> Spans(1, [0, 100], [60, 130]).longer_than("45s")
        <Spans: 2000-01-01T12:00:00 2000-01-01T12:01:00>
        """
        least = seconds_of_length(length) * self.tick
        # (of whole ticks those are longer that have more than the whole ticks of the length)
        return self[self.last - self.first > least // 1]

    def _key(self) -> tuple[int, bytes, bytes]:
        return self.tick, self.first.tobytes(), self.last.tobytes()

    def _lines(self, letter: str) -> list[str]:
        """The lines of a report that has these spans."""
        return [f"{letter}{spans.span_text(first, last, self.tick)}" for first, last in self]

    def _within(self, other: Spans) -> bool:
        """Whether each time is one of the other's."""
        place = np.searchsorted(other.first, self.first, "right") - 1
        return bool((place >= 0).all() and (self.last <= other.last[place]).all())

    def _or(self, other: Spans) -> Spans:
        """The times of either. Spans that overlap or touch are one."""
        first = np.concatenate([self.first, other.first])
        order = np.argsort(first, kind="stable")
        first = first[order]
        # (how far the spans up to each one reach)
        last = np.maximum.accumulate(np.concatenate([self.last, other.last])[order])
        begins = np.ones(len(first), dtype=bool)
        begins[1:] = first[1:] > last[:-1] + 1
        return Spans(self.tick, first[begins], last[np.roll(begins, -1)])

    def _not(self, start: int, end: int) -> Spans:
        """The other times of a span in which these are."""
        first = np.insert(self.last + 1, 0, start)
        last = np.append(self.first - 1, np.int64(end))
        some = first <= last
        return Spans(self.tick, first[some], last[some])


class Total(NamedTuple):
    """How long a set lasts: its sure times together, and its possible ones. The set itself is between both."""

    sure: datetime.timedelta
    possible: datetime.timedelta


@public
class TimeSet:
    """A set of times of a span, which are ticks from `start` to `end`, both among them.

    `sure` and `possible` are `Spans`: each sure time is in the set, and each time of the set is possible. What is sure
    is possible. `request` is the request of the search whose answer the set is, or None where it is made of other sets;
    `made_of` are the requests of all searches that it comes from.

    Of sets of one span and one tick, `a & b` has the times that are in both, `a | b` those in either, and `~a` those of
    the span that are not in `a`. The sure times of `a & b` are sure in both and its possible ones possible in both, and
    so with either; the sure times of `~a` are not possible in `a`, and its possible ones are not sure there. So what is
    made keeps both promises. Sets are equal where span, tick, sure and possible times are, whatever the requests.

    >>> import finder
    >>> year = "examples/de405-2000.asc"
    >>> near = finder.near(year, "venus", "sun", degrees=10, observer="earth")
    >>> far = ~near
    >>> len(near.sure), len(far.sure), len((near & far).sure)
    (1, 2, 0)
    """

    def __init__(
        self, start: int, end: int, sure: Spans, possible: Spans, made_of: Sequence[str], request: Optional[str] = None
    ) -> None:
        self.tick = sure.tick
        self.start = start
        self.end = end
        self.sure = sure
        self.possible = possible
        self.made_of = tuple(dict.fromkeys(made_of))
        self.request = request
        self.names: Mapping[str, str] = {}

    @classmethod
    def of_text(cls, text: str) -> TimeSet:
        """The set of a report, whose lines and counts are checked: `WrongReport` where it is not whole."""
        return cls.of_report(spans.one_of(text, spans.SetReport))

    @classmethod
    def of_report(cls, report: spans.SetReport, made_of: Sequence[str] = ()) -> TimeSet:
        """The set of a report that was read; of a set that is made of others, of their requests."""
        sure, possible = (
            Spans(report.tick, [first for first, _ in rows], [last for _, last in rows])
            for rows in (report.sure, report.possible)
        )
        if not sure._within(possible):
            raise spans.WrongReport("a sure time is not among the possible ones")
        request = None if made_of else report.request
        return cls(report.start, report.end, sure, possible, made_of or [report.request], request)

    @classmethod
    def joined(cls, parts: Sequence[TimeSet]) -> TimeSet:
        """The set of the whole span, of those of its parts in order: at the time at which two parts meet, which is in
        both, the earlier one counts. `WrongParts` where they are of different requests, overlap or do not meet."""
        whole = spans.join_sets([part._report() for part in parts])
        return cls.of_report(whole, () if parts[0].request else parts[0].made_of)

    def _report(self) -> spans.SetReport:
        """The report that has this set, whose request is all those of which the set is made."""
        sure, possible = (tuple(zip(rows.first.tolist(), rows.last.tolist())) for rows in (self.sure, self.possible))
        request = self.request or " and ".join(self.made_of)
        return spans.SetReport(request, self.tick, self.start, self.end, sure, possible)

    @property
    def text(self) -> str:
        """The report as the command prints it, letter for letter; of a set that is made of others, its spans and its
        counts, without the first line."""
        head = [] if self.request is None else [f"{self.request} span {self.span}"]
        counts = f"END sure {len(self.sure)} possible {len(self.possible)}"
        return "\n".join([*head, *self.sure._lines("S "), *self.possible._lines("P "), counts, ""])

    @property
    def span(self) -> str:
        """The span as a report has it."""
        return spans.span_text(self.start, self.end, self.tick)

    @property
    def request_words(self) -> dict[str, str]:
        """The words of the request by their names, with each option at its value or default; of a set that is made of
        others, none."""
        return {} if self.request is None else spans.words_of(self.request, spans.SET_REQUEST)

    asked = renamed("asked", "request_words")

    @property
    def bodies(self) -> dict[str, str]:
        """Target, second body and observer of the request, by the names of the `Ephemeris` that was searched."""
        return bodies_of(self.request_words, self.names)

    def __and__(self, other: TimeSet) -> TimeSet:
        if not isinstance(other, TimeSet):
            return NotImplemented
        return ~(~self | ~other)

    def __or__(self, other: TimeSet) -> TimeSet:
        if not isinstance(other, TimeSet):
            return NotImplemented
        return self._made(other, self.sure._or(other.sure), self.possible._or(other.possible))

    def __sub__(self, other: TimeSet) -> TimeSet:
        if not isinstance(other, TimeSet):
            return NotImplemented
        return self & ~other

    def __invert__(self) -> TimeSet:
        return self._made(self, self.possible._not(self.start, self.end), self.sure._not(self.start, self.end))

    def longer_than(self, length: Any) -> TimeSet:
        """The times in spans that last longer than a length, as `"2h"`, `"90min"`, a `timedelta` or a number of seconds.

        A sure span that is longer lies in a span of the set that is longer, and a span of the set lies in a possible one;
        so what is made keeps both promises."""
        return self._made(self, self.sure.longer_than(length), self.possible.longer_than(length))

    def total(self) -> Total:
        """How long the sure times and the possible times last."""
        return Total(self.sure.total(), self.possible.total())

    def contains(self, time: Time) -> Optional[bool]:
        """Whether a time of TDB, or an astropy `Time` of any scale, is in the set: None where it is not known, as the
        time is possible and not sure. Between two ticks it is known where both say the same. `ValueError` outside of the
        span of the set."""
        ticks = [ticks_of_time(time, self.tick, up) for up in (False, True)]
        if not self.start <= ticks[0] <= ticks[1] <= self.end:
            raise ValueError(f"the time {time} is outside of the set's span, {self.span}")
        sure, possible = ([Spans(self.tick, [each], [each])._within(rows) for each in ticks] for rows in self.rows)
        return True if all(sure) else None if any(possible) else False

    @property
    def rows(self) -> tuple[Spans, Spans]:
        """The sure spans and the possible ones."""
        return self.sure, self.possible

    def up_to(self, wider: TimeSet) -> TimeSet:
        """A set of which nothing is known but that it has each time of this one, and no time that the wider one has
        not: its sure times are those of this one, its possible ones those of the wider one."""
        made = self._made(wider, self.sure, wider.possible)
        if not made.sure._within(made.possible):
            raise WrongSets("a sure time of the one set is no possible time of the wider one")
        return made

    def _made(self, other: TimeSet, sure: Spans, possible: Spans) -> TimeSet:
        """A set that is made of this one and another."""
        if self.tick != other.tick:
            raise WrongSets(f"sets of different ticks: {self.tick} and {other.tick} in a second")
        if (self.start, self.end) != (other.start, other.end):
            raise WrongSets(f"sets of different spans: {self.span} and {other.span}")
        return TimeSet(self.start, self.end, sure, possible, self.made_of + other.made_of)

    def __eq__(self, other: object) -> bool:
        return isinstance(other, TimeSet) and self._key() == other._key()

    def __hash__(self) -> int:
        return hash(self._key())

    def __len__(self) -> int:
        """How many possible spans there are; `sure` and `possible` have lengths of their own."""
        return len(self.possible)

    def __iter__(self) -> Iterator[Span]:
        """The possible spans, in order."""
        return iter(self.possible)

    def __contains__(self, time: object) -> bool:
        raise TypeError("a time may be sure, or possible alone: ask `time in found.sure` or `time in found.possible`")

    def columns(self) -> dict[str, Any]:
        """A row for each sure and for each possible span, as arrays: `kind`, `target`, `second` (None in a set that is
        made of others), `certain`, whether it is one of the sure ones, `first` and `last` (TDB), and both in milliseconds
        since J2000."""
        asked = self.request_words
        words = {name: asked.get(name) for name in ("kind", "target", "second")}
        first, last = (np.concatenate([getattr(rows, end) for rows in self._both()]) for end in ("first", "last"))
        sure = np.arange(len(first)) < len(self.sure)
        rows = {name: np.array([None if word == "-" else word] * len(first), dtype=object) for name, word in words.items()}
        return {**rows, "certain": sure, **times_of(first, last, self.tick)}

    def _both(self) -> tuple[Spans, Spans]:
        return self.sure, self.possible

    def to_pandas(self) -> Any:
        """A `DataFrame` of pandas with the columns of `columns`.

        >>> import finder
        >>> back = finder.retrograde("examples/de405-2000.asc", "mercury", end="2000-06-01", observer="earth", frame="ecl")
        >>> print(back.to_pandas()[["kind", "target", "certain", "first"]].to_string(index=False))
           kind  target  certain               first
        station mercury     True 2000-02-21 12:41:03
        station mercury    False 2000-02-21 12:41:03
        """
        return frame_of(self.columns(), {"made_of": list(self.made_of)})

    def time(self, which: End = "last") -> Any:
        """The first or last times of the possible spans, as an astropy `Time` of scale TDB."""
        return self.possible.time(which)

    def _repr_html_(self) -> str:
        """The first spans as a table, for a notebook."""
        columns = self.columns()
        return html_of({name: columns[name] for name in ("certain", "first", "last")}, f"{self!r} (TDB)")

    def __bool__(self) -> bool:
        raise TypeError("a set is neither true nor false: ask `sure` or `possible`, and join sets by & and |")

    def __repr__(self) -> str:
        source = f"made of {len(self.made_of)} searches" if self.request is None else f"of {self.request!r}"
        return f"<TimeSet {source}: {len(self.sure)} sure, {len(self.possible)} possible spans>"

    def _key(self) -> tuple[int, int, Spans, Spans]:
        return self.start, self.end, self.sure, self.possible

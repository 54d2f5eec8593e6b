"""The least and the greatest distance and separation of a span, with two searches that prove them to a margin."""

from __future__ import annotations

from dataclasses import dataclass, field
from fractions import Fraction
from typing import Any, Optional, Union

import numpy as np

from .. import spans
from ..ephemeris.named import held
from ..ephemeris.names import Files
from ..ephemeris.series import Series
from ..process.program import runs_of
from ..public import public
from ..reports.certificates import Certificate, certificate
from ..reports.sets import Span
from ..reports.windows import Window, Windows
from ..seen.vectors import Floats, angle, length
from .kinds import Kind
from .numbers import Number, cosine_of_degrees, decimal_text
from .options import Body, SetOptions, Unpack, searches
from .search import find
from .times import Time

# The margins where none is named: a kilometre, and an arc second in degrees.
KILOMETRE = 1.0
ARC_SECOND = Fraction(1, 3_600)
DEGREES = 180
# The digits that the command takes of a length in km, and how many after the point are used at most.
DIGITS, MOST_PLACES = 18, 9
Margin = Union[Number, Fraction, None]


@public
class NotProved(ValueError):
    """The two searches do not prove an extreme to this margin.

    >>> import finder
    >>> try:
    ...     finder.least("examples/de405-2000.asc", "moon", observer="earth", margin=1e6)
    ... except finder.NotProved as error:
    ...     print(error)
    the quantity changes by less than the margin: name a smaller one
    """


@public
@dataclass(frozen=True)
class Extreme:
    """The least or the greatest distance (km) or separation (degrees) of a span, proved to a margin.

    `window` is that of the search for apsides or for extremes of a separation in which the value is, or one end of the
    span, a window of one second without a turn. `value` is its number, in doubles. Proved is: at no second of the span
    the quantity lies beyond `value` by more than `margin`, and at some second it lies short of it by at most the
    margin; all such seconds are in the spans `where`. `beyond` and `short` are the windows of the two searches that
    prove it: the first has none (or is no search, where nothing can lie so far), and the second has certain ones alone.

    >>> import finder
    >>> year = "examples/de405-2000.asc"
    >>> nearest = finder.least(year, "mars", observer="earth")
    >>> nearest.quantity, round(nearest.value), nearest.margin
    ('distance', 253213816, 1.0)
    """

    quantity: str
    window: Window
    value: float
    margin: float
    where: tuple[Span, ...]
    beyond: Optional[Windows]
    short: Windows
    _files: Files = field(repr=False)
    _words: dict[str, Any] = field(repr=False, compare=False)

    def certificates(self) -> tuple[Certificate, ...]:
        """The certificates of the searches that prove it, of the files as they are now: of `beyond` where there is one,
        and of `short`."""
        kind: Kind = "radius" if self.quantity == "distance" else "sep"
        found = [windows for windows in (self.beyond, self.short) if windows is not None]
        return tuple(certificate(self._files, kind, ref=row.request_words["values"], **self._words) for row in found)

    def __repr__(self) -> str:
        unit = "km" if self.quantity == "distance" else "degrees"
        return f"<Extreme {self.quantity} {self.value!r} {unit}, proved to {self.margin!r}, in {self.window}>"


@public
@searches(SetOptions)
def least(
    files: Files,
    target: Body,
    second: Optional[Body] = None,
    start: Optional[Time] = None,
    end: Optional[Time] = None,
    *,
    margin: Margin = None,
    **options: Unpack[SetOptions],
) -> Extreme:
    """The least distance of a body from the observer in the span, in km, or with a second body the least angle between
    both, in degrees, proved to a margin in the same unit: a kilometre or an arc second where none is named.

    >>> import finder
    >>> nearest = finder.least("examples/de405-2000.asc", "mars", observer="earth")
    >>> print(round(nearest.value), nearest.margin, nearest.window.text())
    253213816 1.0 2001-01-11T00:00:00

    Candidates are the events of `apsides` or `separation_extremes` and both ends of the span; their values are doubles.
    Then two searches prove the best of them: at no second of the span the quantity lies below it by more than the
    margin, and at some second it lies at most the margin above it. The seconds are those from `start` to `end`, both of
    them too. `NotProved` where the quantity changes by less than the margin, or a search leaves something undecided.
    """
    return _extreme(files, target, second, -1, margin, {"start": start, "end": end, **options})


@public
@searches(SetOptions)
def greatest(
    files: Files,
    target: Body,
    second: Optional[Body] = None,
    start: Optional[Time] = None,
    end: Optional[Time] = None,
    *,
    margin: Margin = None,
    **options: Unpack[SetOptions],
) -> Extreme:
    """The greatest distance of a body from the observer in the span, in km, or with a second body the greatest angle
    between both, in degrees, proved to a margin: as `least`, the other way round.

    >>> import finder
    >>> year = "examples/de405-2000.asc"
    >>> farthest = finder.greatest(year, "mercury", "sun", "2000-03-01", "2000-05-01", observer="earth")
    >>> print(round(farthest.value, 2), farthest.quantity, farthest.window.text())
    27.83 separation 2000-03-28T21:04:23
    """
    return _extreme(files, target, second, 1, margin, {"start": start, "end": end, **options})


def _extreme(
    files: Files,
    target: Body,
    second: Optional[Body],
    way: int,
    margin: Margin,
    options: dict[str, Any],
) -> Extreme:
    """The extreme in one direction: -1 is the least, 1 the greatest."""
    if options.get("tick", 1) != 1:
        raise ValueError("extremes are those of whole seconds: leave tick= out, and name a margin")
    kept, slack = held(files), _margin_of(margin, second)
    asked: dict[str, Any] = {"target": target, "second": second, **options}
    asked.pop("timeout", None)
    # (`timeout` is of all three searches)
    runs = runs_of(options.get("program"), options.get("timeout"), options.get("in_process", False))
    words: dict[str, Any] = {**asked, "program": runs}
    windows, numbers = _candidates(find(kept, "apsis" if second is None else "sepext", **words), kept)
    best = int(np.nanargmax(way * numbers))
    value = Fraction(float(numbers[best]))
    beyond = _search(kept, words, value + way * slack, -way)
    short = _search(kept, words, value - way * slack, way)
    proved = _proved(beyond, short)
    where = _spans(proved, way if second is None else -way)
    quantity = "distance" if second is None else "separation"
    return Extreme(quantity, windows[best], float(value), float(slack), where, beyond, proved, kept, asked)


def _margin_of(margin: Margin, second: Optional[Body]) -> Fraction:
    """A margin in km, or with a second body in degrees."""
    if margin is None:
        return Fraction(KILOMETRE) if second is None else ARC_SECOND
    unit = "km" if second is None else "deg"
    made = margin if isinstance(margin, Fraction) else Fraction(decimal_text(margin, unit))
    if made <= 0:
        raise ValueError(f"a margin is above 0: {margin!r}")
    return made


def _proved(beyond: Optional[Windows], short: Optional[Windows]) -> Windows:
    """The windows of the search short of an extreme, where it and the one beyond prove it."""
    if short is None or not len(short):
        raise NotProved("the quantity changes by less than the margin: name a smaller one")
    for found in (beyond, short):
        if found is not None and not found.certain.all():
            raise NotProved("a search leaves times undecided: name another margin, or a greater depth")
    if beyond is not None and len(beyond):
        raise NotProved(f"a time lies beyond it by more than the margin, {beyond[0]}: name a wider one")
    return short


def _candidates(events: Windows, files: Files) -> tuple[list[Window], Floats]:
    """The windows in which an extreme may be, both ends of the span among them, and their numbers."""
    ends = [Window(time, time, None) for time in (events.start, events.end)]
    windows = [*events, *ends]
    times = np.array([(window.first + window.last) / 2 for window in windows])
    series = Series(files, events.start - spans.DAY, events.end + spans.DAY)
    asked = events.request_words
    places = [
        series.seen(asked[role], asked["observer"], "eq", times) for role in ("target", "second") if asked[role] != "-"
    ]
    return windows, length(places[0]) if len(places) == 1 else angle(places[0], places[1])


def _search(files: Files, words: dict[str, Any], bound: Fraction, up: int) -> Optional[Windows]:
    """The times at which the quantity passes a bound, which is rounded to a decimal towards the extreme: `up` says
    where that is. None where no quantity can pass it."""
    if words["second"] is None:
        return find(files, "radius", ref=_kilometres(bound, up), **words) if bound > 0 else None
    if not 0 < bound < DEGREES:
        return None
    # (a cosine that is rounded down is of a greater angle)
    return find(files, "sep", ref=cosine_of_degrees(bound, up=up < 0), **words)


def _kilometres(bound: Fraction, up: int) -> str:
    """A length as a decimal of at most 18 digits, nine of them after the point at most, rounded up or down."""
    places = max(0, min(MOST_PLACES, DIGITS - len(str(int(bound)))))
    units = bound * 10**places
    whole = -(-units.numerator // units.denominator) if up > 0 else units.numerator // units.denominator
    # (a length that is rounded up to a power of ten has a digit more, and no places)
    return f"{whole // 10**places}.{whole % 10**places:0{places}}".rstrip("0").rstrip(".")


def _spans(short: Windows, way: int) -> tuple[Span, ...]:
    """The spans of ticks in which the function of a search is at least 0 (1) or below 0 (-1), with the certain windows
    in which it becomes so."""
    inside = "rise" if way > 0 else "fall"
    made: list[Span] = []
    begin = short.start if short[0].turn != inside else None
    for first, last, turn in short:
        if turn == inside:
            begin = first
        elif begin is not None:
            # (it has become otherwise at the last tick of the window)
            made.append(Span(begin, last - 1))
            begin = None
    return (*made, *([Span(begin, short.end)] if begin is not None else []))

"""Moments of a sky: each a certain window, and inside it the time that is shown."""

from __future__ import annotations

import datetime
from collections.abc import Callable, Iterable, Iterator, Sequence
from dataclasses import dataclass
from typing import Any, Optional, Union, overload

import numpy as np
import numpy.typing as npt

from .. import spans
from ..public import public
from ..reports.windows import Window, Windows
from ..searches.times import J2000, J2000_DAYS
from ..seen.scales import Clock, Scale
from ..seen.vectors import Floats, floats
from .refraction import HORIZON

# What a clock is made of: a zone or a scale, by its name or itself.
ClockLike = Union[Clock, Scale, datetime.tzinfo, str]
# The points of the compass, from north over east.
COMPASS = ("N", "NNE", "NE", "ENE", "E", "ESE", "SE", "SSE", "S", "SSW", "SW", "WSW", "W", "WNW", "NW", "NNW")


@public
@dataclass(frozen=True)
class Moment:
    """A moment: its `name`, as `sunrise`, and the `body` that it is of.

    `window` is proved: it is that of a search at a tick of a second, or of a millisecond where that of a second was
    undecided, and holds exactly one event of the search, if it is certain. `fine` is the window of a search at a tick
    of a millisecond inside it, or None where none was made. `seconds` is the time that is shown, in seconds since
    J2000 (TDB): the middle of `fine`, else that of `window`. A time that has no window, as that of a greatest
    magnitude, is computed in doubles. `altitude` and `azimuth` are those of the centre of the body then, in degrees,
    without refraction, and NaN where there is no place; they are doubles too. `is_within` is None where a set of times
    was named by `within=` and it is not sure that the moment lies in it.

    >>> import finder
    >>> eph = finder.Ephemeris.open("examples/de405-2000.asc")
    >>> sky = eph.sky("51.4769 N 0 E 46 m", "2000-01-20", "2000-01-23")
    >>> moment = sky.rises("sun")[0]
    >>> moment.name, moment.body, moment.compass
    ('sunrise', 'sun', 'ESE')
    """

    name: str
    body: str
    seconds: float
    window: Optional[Window] = None
    fine: Optional[Window] = None
    request: str = ""
    altitude: float = float("nan")
    azimuth: float = float("nan")
    is_within: Optional[bool] = True

    @property
    def is_certain(self) -> bool:
        """Whether its window is certain."""
        return self.window is not None and self.window.turn is not None

    @property
    def error(self) -> float:
        """Half the width in seconds of the window that the time is the middle of; NaN if there is none."""
        window = self.fine or self.window
        return float("nan") if window is None else (window.last - window.first + 1) / 2 / window.tick

    @property
    def is_up(self) -> bool:
        """Whether the centre of the body is above the horizon, lifted by 34' of refraction; not where there is no
        place."""
        return self.altitude > -HORIZON

    @property
    def compass(self) -> str:
        """The point of the compass of its azimuth, as `ENE`; nothing where there is no place.

        >>> Moment("sunrise", "sun", 0.0, azimuth=68.0).compass
        'ENE'
        """
        return "" if np.isnan(self.azimuth) else COMPASS[round(self.azimuth / 22.5) % 16]

    def at(self, clock: ClockLike = "utc") -> datetime.datetime:
        """The time by a clock: that of a zone, as `"Europe/Berlin"` or `"+02:00"`, or of `"utc"`, `"tt"`, `"tdb"`."""
        return Clock.of(clock).at(self.seconds)


@public
class Moments(Sequence[Moment]):
    """Moments in order of time, and the sentence `said` if there is something to say of them, as that the Sun does not
    set for some weeks.

    >>> print(Moments([Moment("sunrise", "sun", 0.0, azimuth=128.1)]))
    2000-01-01 11:58:56 UTC  sunrise  SE
    """

    def __init__(self, moments: Iterable[Moment], said: str = "") -> None:
        self._moments = tuple(sorted(moments, key=lambda each: each.seconds))
        self.said = said

    def __len__(self) -> int:
        return len(self._moments)

    def __iter__(self) -> Iterator[Moment]:
        return iter(self._moments)

    @overload
    def __getitem__(self, place: int) -> Moment:
        ...

    @overload
    def __getitem__(self, place: slice) -> Moments:
        ...

    def __getitem__(self, place: Union[int, slice]) -> Union[Moment, Moments]:
        """A moment, or those of a slice."""
        return Moments(self._moments[place], self.said) if isinstance(place, slice) else self._moments[place]

    def __eq__(self, other: object) -> bool:
        return isinstance(other, Moments) and self._moments == other._moments

    def __hash__(self) -> int:
        return hash(self._moments)

    def __add__(self, other: Moments) -> Moments:
        """The moments of both, in order."""
        if not isinstance(other, Moments):
            return NotImplemented
        return Moments([*self, *other], " ".join(filter(None, [self.said, other.said])))

    def above_horizon(self) -> Moments:
        """Those at which the body is above the horizon.

        >>> risen = Moment("moonrise", "moon", 0.0, altitude=2.0)
        >>> len(Moments([risen, Moment("moonset", "moon", 40_000.0, altitude=-1.0)]).above_horizon())
        1
        """
        return Moments([each for each in self if each.is_up])

    def __repr__(self) -> str:
        certain = sum(each.is_certain for each in self)
        return f"<Moments: {len(self)}, of which {certain} have a certain window>"

    def __str__(self) -> str:
        return self.text()

    def without_said(self) -> Moments:
        """The same moments, of which nothing is said."""
        return Moments(self)

    def named(self, *names: str) -> Moments:
        """Those of some names."""
        return Moments([each for each in self if each.name in names], self.said)

    @property
    def seconds(self) -> Floats:
        """The times in seconds since J2000 (TDB)."""
        return floats([each.seconds for each in self])

    @property
    def certain(self) -> npt.NDArray[np.bool_]:
        """Which windows are certain, as a mask."""
        return np.array([each.is_certain for each in self], dtype=bool)

    def times(self, clock: ClockLike = "utc") -> list[datetime.datetime]:
        """The times by a clock: of a zone, as `"Europe/Berlin"` or `"+02:00"`, or of `"utc"`, `"tt"`, `"tdb"`."""
        return Clock.of(clock).all_at(self.seconds)

    def datetime64(self) -> npt.NDArray[np.datetime64]:
        """The times on the calendar of TDB, to the nearest millisecond."""
        milliseconds = (self.seconds * 1_000).round().astype("m8[ms]")
        made: npt.NDArray[np.datetime64] = J2000.astype("datetime64[ms]") + milliseconds
        return made

    def time(self) -> Any:
        """The times as an astropy `Time` of scale TDB."""
        from astropy.time import Time

        days, rest = np.divmod(self.seconds, spans.DAY)
        made = Time(J2000_DAYS + days, rest / spans.DAY, format="jd", scale="tdb")
        made.format = "isot"
        return made

    def text(self, clock: ClockLike = "utc") -> str:
        """A line for each: the time to the second, the name, and where the body is; at the end what is said."""
        made = Clock.of(clock)
        wide = max((len(each.name) for each in self), default=0)
        lines = []
        for each in self:
            shown = made.at(each.seconds + 0.5)
            unsure = "" if each.window is None or each.is_certain else "  (undecided)"
            lines.append(f"{shown:%Y-%m-%d %H:%M:%S} {made.name}  {each.name:<{wide}}  {each.compass}{unsure}".rstrip())
        return "\n".join([*lines, *filter(None, [self.said])])

    def to_pandas(self, clock: ClockLike = "utc") -> Any:
        """A `DataFrame` of pandas: the times by a clock, the names, the bodies, altitude and azimuth in degrees,
        whether the window is certain, and its ends as texts of TDB."""
        import pandas

        return pandas.DataFrame(self._columns(clock))

    def to_table(self, clock: ClockLike = "utc") -> Any:
        """A `Table` of astropy with the same columns, whose times are a `Time` of scale TDB."""
        from astropy.table import Table

        return Table({**self._columns(clock), "time": self.time()})

    def _columns(self, clock: ClockLike) -> dict[str, Any]:
        ends = [
            (each.window.text("first"), each.window.text("last")) if each.window is not None else ("", "")
            for each in self
        ]
        return {
            "time": self.times(clock),
            "name": [each.name for each in self],
            "body": [each.body for each in self],
            "altitude": floats([each.altitude for each in self]),
            "azimuth": floats([each.azimuth for each in self]),
            "certain": self.certain,
            "first_tdb": [first for first, _ in ends],
            "last_tdb": [last for _, last in ends],
        }


def middle(window: Window) -> float:
    """The middle of a window in seconds since J2000 (TDB): its event is after the tick before the first, up to the
    last."""
    return (window.first - 1 + window.last) / 2 / window.tick


def moments_of(
    body: str, coarse: Windows, fine: Optional[Windows], name: Callable[[Optional[str]], str]
) -> list[Moment]:
    """A moment for each window at a second, with the time of the windows at a millisecond that lie in it.

    One that is certain at a second and has no certain window at a millisecond in it, has the middle of what is
    undecided there; so it is certain to the second, and its time is that of its window. In place of one that is
    undecided at a second stand the windows at a millisecond in it, unless one of them reaches out of it. `name` names
    a moment by its turn."""
    if fine is None:
        return [Moment(name(each.turn), body, middle(each), each, None, coarse.request) for each in coarse]
    made = []
    touching = _windows_touching(coarse, fine)
    for window, within, touched in zip(coarse, _windows_inside(coarse, fine), touching):
        if window.turn is None and touched == len(within):
            made += [Moment(name(each.turn), body, middle(each), each, each, fine.request) for each in within]
            continue
        best = _best(window, within)
        made.append(Moment(name(window.turn), body, middle(best or window), window, best, coarse.request))
    return made


def _windows_inside(coarse: Windows, fine: Windows) -> list[list[Window]]:
    """The windows at a millisecond that lie in each of those at a second."""
    scale = fine.tick // coarse.tick
    low = np.searchsorted(fine.first, (coarse.first - 1) * scale, "right")
    high = np.searchsorted(fine.last, coarse.last * scale, "right")
    return [[fine[place] for place in range(first, last)] for first, last in zip(low.tolist(), high.tolist())]


def _windows_touching(coarse: Windows, fine: Windows) -> list[int]:
    """How many windows at a millisecond have a time in common with each of those at a second."""
    scale = fine.tick // coarse.tick
    low = np.searchsorted(fine.last, (coarse.first - 1) * scale, "right")
    high = np.searchsorted(fine.first, coarse.last * scale, "right")
    counts: list[int] = (high - low).tolist()
    return counts


def _best(window: Window, within: list[Window]) -> Optional[Window]:
    """The certain window of the same turn, or what is undecided from its first tick to its last one, or None."""
    certain = [each for each in within if each.turn is not None and each.turn == window.turn]
    if len(certain) == 1 and len(within) == 1:
        return certain[0]
    if not within:
        return None
    return Window(within[0].first, within[-1].last, None, within[0].tick)


def with_places(moments: Sequence[Moment], altitudes: Floats, azimuths: Floats) -> list[Moment]:
    """Moments with the altitudes and azimuths of their bodies."""
    rows = zip(moments, altitudes.tolist(), azimuths.tolist())
    return [
        Moment(each.name, each.body, each.seconds, each.window, each.fine, each.request, altitude, azimuth, each.is_within)
        for each, altitude, azimuth in rows
    ]

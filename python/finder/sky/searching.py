"""Searches over the text of a sky, kept so that one that is asked for again is not made again, and what they give as
moments with the places of bodies."""

from __future__ import annotations

import concurrent.futures
import difflib
import math
from collections.abc import Callable, Mapping, Sequence
from typing import Any, Optional, Protocol

import numpy as np

from ..ephemeris.excerpts import Excerpts
from ..process.program import Runs
from ..reports.sets import TimeSet
from ..reports.windows import Windows
from ..searches.durations import times
from ..searches.search import find
from ..seen.vectors import Floats, angle, floats, length
from .bodies import DIRECTIONS
from .moments import Moment, moments_of, with_places

SECOND, MILLISECOND = 1, 1_000
# A name for a turn: `rise`, `fall`, or None where the window is undecided.
Naming = Callable[[Optional[str]], str]
Span = tuple[int, int]
# The kind of a search, its target, and its second body if it has one.
Bodies = tuple[str, str, Optional[str]]


def observer_of(target: str, second: Optional[str]) -> str:
    """The program's word for the observer of two bodies, who is at the origin of a sky's text.

    The Earth is at the origin too, as the difference of two columns that are equal. The origin itself, which the program
    calls `ssb`, has none to be read, so that a search of a body and the zenith takes two thirds of the time. The Moon
    is placed by the Earth's columns.
    """
    return "ssb" if second == "zenith" and target != "moon" else "earth"


class TextOfSky(Protocol):
    """What is needed of the text of a sky: its files, its span in seconds since J2000 (TDB), the columns of its names,
    and where bodies are in it, in km from the observer."""

    @property
    def files(self) -> Sequence[str]:
        """The files of the text."""

    @property
    def names(self) -> Mapping[str, str]:
        """The column of the text by the name of a body."""

    def places(self, body: str, seconds: Any) -> Floats:
        """The places of a body at seconds since J2000 (TDB): three rows in km on the axes of the text."""


class Searches:
    """The searches over one text."""

    def __init__(self, text: TextOfSky, program: Runs, axes: str) -> None:
        self._text = text
        self._excerpts = Excerpts(text.files)
        self._program = program
        self._axes = axes
        #: How many searches were made.
        self.count = 0
        self._windows: dict[Any, Windows] = {}
        self._sets: dict[Any, TimeSet] = {}

    def column(self, body: str) -> str:
        """The column of a body; a `ValueError` names the bodies that there are."""
        names = self._text.names
        if body in names:
            return names[body]
        bodies = [name for name in names if name not in DIRECTIONS]
        near = difflib.get_close_matches(str(body), bodies, 1)
        hint = f"did you mean {near[0]!r}? " if near else ""
        raise ValueError(
            f"this sky has no {body!r}: {hint}There are {', '.join(bodies)}; bodies= and stars= name others"
        )

    def _words_of(self, words: Bodies, span: Span, options: Mapping[str, Any]) -> tuple[Any, ...]:
        """The files that a search needs of the text, and its kind and the columns of its bodies."""
        kind, target, second = words
        columns = self.column(target), None if second is None else self.column(second)
        bodies = [column for column in (*columns, options["observer"]) if column is not None]
        return self._excerpts.files(bodies, *span), kind, *columns

    def _of(self, span: Span, tick: int) -> dict[str, Any]:
        return {"tick": tick, "start": span[0], "end": span[1], "program": self._program}

    def windows(self, kind: str, target: str, second: Optional[str], span: Span, tick: int, **words: Any) -> Windows:
        """The windows of a search from the place, or the centre, that the text is of."""
        key = kind, target, second, span, tick, *sorted(words.items())
        if key not in self._windows:
            self.count += 1
            options = {"observer": observer_of(target, second), **words}
            search: Callable[..., Windows] = find
            words_of_search = self._words_of((kind, target, second), span, options)
            self._windows[key] = search(*words_of_search, **self._of(span, tick), **options)
        return self._windows[key]

    def both(self, kind: str, target: str, second: Optional[str], span: Span, **words: Any) -> tuple[Windows, Windows]:
        """The windows at a second and those at a millisecond, of two searches at once."""
        with concurrent.futures.ThreadPoolExecutor(2) as pool:
            ticks = [
                pool.submit(self.windows, kind, target, second, span, tick, **words) for tick in (SECOND, MILLISECOND)
            ]
            return ticks[0].result(), ticks[1].result()

    def times(self, kind: str, target: str, second: Optional[str], span: Span, tick: int, **words: Any) -> TimeSet:
        """The set of times of a search."""
        key = kind, target, second, span, tick, *sorted(words.items())
        if key not in self._sets:
            self.count += 1
            options = {"observer": observer_of(target, second), **words}
            search: Callable[..., TimeSet] = times
            words_of_search = self._words_of((kind, target, second), span, options)
            self._sets[key] = search(*words_of_search, **self._of(span, tick), **options)
        return self._sets[key]

    def moments(
        self,
        body: str,
        name: Naming,
        kind: str,
        target: str,
        second: Optional[str],
        span: Span,
        precise: bool,
        **words: Any,
    ) -> list[Moment]:
        """The moments of a search, of which each is named by the turn of its window, with the places of a body."""
        if precise:
            coarse, fine = self.both(kind, target, second, span, **words)
        else:
            coarse, fine = self.windows(kind, target, second, span, SECOND, **words), None
        return self.placed(body, moments_of(body, coarse, fine, name))

    def placed(self, body: str, made: Sequence[Moment]) -> list[Moment]:
        """Moments with the altitude and the azimuth of a body, where there is a place."""
        if "zenith" not in self._text.names or not made:
            return list(made)
        return with_places(made, *self.altaz(body, [each.seconds for each in made]))

    def altaz(self, body: str, seconds: Any) -> tuple[Floats, Floats]:
        """The altitude and the azimuth of a body in degrees, without refraction, at seconds since J2000 (TDB). The
        azimuth is from north over east; it is NaN where the axes of the text are not those of the equator of date."""
        self.column(body)
        at, up = (self._text.places(each, seconds) for each in (body, "zenith"))
        altitude = floats(90.0 - angle(at, up))
        if self._axes != "equator":
            return altitude, np.full(altitude.shape, math.nan)
        up = up / length(up)
        # (east is where the pole of the equator and the zenith have it, north is across both)
        east = np.array([-up[1], up[0], np.zeros(up.shape[1])])
        north = np.cross(up, east, axis=0)
        azimuth = np.degrees(np.arctan2((at * east).sum(axis=0), (at * north).sum(axis=0))) % 360
        return altitude, floats(azimuth)

"""What an almanac searches: JPL's numbers, and the texts of what is seen from the Earth's centre that are made of
them."""

from __future__ import annotations

import functools
from collections.abc import Mapping, Sequence
from dataclasses import dataclass, field
from enum import Enum
from typing import Any, Optional, Protocol

from ..ephemeris.apparent_places import Model, SharedMoments
from ..ephemeris.ephemeris import Ephemeris
from ..ephemeris.series import Series
from ..ephemeris.stars import Star
from ..process.program import Runs
from ..reports.windows import Windows
from ..seen.vectors import Floats
from ..sky.flat import FlatText
from ..sky.moments import Moment, moments_of
from ..sky.searching import MILLISECOND, SECOND, Searches, Span
from ..sky.sky import Sky
from .entries import PLANETS, Contact, Entry, Group
from .names import Pair, pair_of

# The stars of the first magnitude that the Moon may cover, by the Hipparcos catalogue (ESA SP-1200, 1997): right
# ascension and declination of the ICRS in degrees at 1991.25, proper motions in milliarcseconds a year, parallax in
# milliarcseconds.
STARS = {
    "aldebaran": Star(68.98000195, 16.50976164, 62.78, -189.36, 50.09, 54.3, 1991.25),
    "regulus": Star(152.09358075, 11.96719513, -249.40, 4.91, 42.09, 5.9, 1991.25),
    "spica": Star(201.29835230, -11.16124491, -42.50, -31.73, 12.44, 1.0, 1991.25),
    "antares": Star(247.35194804, -26.43194608, -10.16, -23.21, 5.40, -3.4, 1991.25),
}


class Text(Enum):
    """What is searched, as notes say it."""

    FILES = "where bodies are, on the axes of J2000"
    EQUATOR = "as seen from the Earth's centre, on the equator of date"
    ECLIPTIC = "as seen from the Earth's centre, on the ecliptic of date"
    FLAT = "as seen from the Earth's centre, without latitude on the ecliptic of date"
    STARS = "stars and the Moon as seen from the Earth's centre, on the equator of date"


@dataclass(frozen=True)
class Search:
    """A search that an almanac makes: of a text, for a kind of event of one or two bodies, with the program's options.
    `names` are those of the events at `rise` and at `fall`."""

    text: Text
    kind: str
    target: str
    second: Optional[str] = None
    options: Mapping[str, Any] = field(default_factory=dict)
    names: Optional[Pair] = None

    @property
    def pair(self) -> Pair:
        """What its events are called at `rise` and at `fall`."""
        if self.names is not None:
            return self.names
        is_ecliptic = self.text in (Text.ECLIPTIC, Text.FLAT)
        asked = {"kind": self.kind, "target": self.target, "second": self.second or "-", "axis": "-", "values": "-"}
        asked.update(observer=self.options.get("observer", "earth"), frame="ecl" if is_ecliptic else "eq")
        asked.update(axis=self.options.get("axis", "-"), values=str(self.options.get("ref", "-")))
        return pair_of(asked)


@dataclass(frozen=True)
class Found:
    """What a search found: the windows at a second, and those at a millisecond, if there are any."""

    search: Search
    coarse: Windows
    fine: Optional[Windows]

    @property
    def contacts(self) -> list[Contact]:
        """A contact for each window."""
        named = dict(zip(("rise", "fall"), self.search.pair))
        made = moments_of(self.search.target, self.coarse, self.fine, lambda turn: named.get(turn or "", "undecided"))
        return [contact_of(moment, self.search.text) for moment in made]


def contact_of(moment: Moment, text: Text) -> Contact:
    """A contact with the window and the time of a moment."""
    return Contact(moment.name, moment.window, moment.request, moment.seconds, text.value)


class Texts:
    """The texts over a source about a span of seconds since J2000 (TDB); each is made when it is first needed."""

    def __init__(self, source: Ephemeris, span: Span, runs: Runs, pluto: bool = False, cache: bool = True) -> None:
        self.source = source
        self.span = span
        self._runs = runs
        self.cache = cache
        self.planets = (*PLANETS, "pluto") if pluto else PLANETS
        self._moments = SharedMoments()

    def _sky(self, axes: str) -> Sky:
        bodies = [body for body in ("sun", "moon", *self.planets) if body in self.source.names]
        words = {"bodies": bodies, "cache": self.cache, "moments": self._moments}
        made = Sky.of(self.source, None, *map(float, self.span), Model(axes=axes), **words)
        return made.run_by(self._runs)

    @functools.cached_property
    def equator(self) -> Sky:
        """What is seen from the Earth's centre, on the equator of date."""
        return self._sky("equator")

    @functools.cached_property
    def ecliptic(self) -> Sky:
        """What is seen from the Earth's centre, on the ecliptic of date."""
        return self._sky("ecliptic")

    @functools.cached_property
    def stars(self) -> Sky:
        """The Sun, the Moon and stars from the Earth's centre, on the equator of date."""
        span = map(float, self.span)
        made = self.source.sky(None, *span, bodies=["sun", "moon"], stars=STARS, cache=self.cache)
        return made.run_by(self._runs)

    @functools.cached_property
    def _flat(self) -> Searches:
        return Searches(FlatText(self.ecliptic, self.cache), self._runs, "ecliptic")

    @functools.cached_property
    def _files(self) -> Searches:
        return Searches(_Numbers(self.source), self._runs, "j2000")

    def sky(self, text: Text) -> Sky:
        """The sky of a text, for places in it."""
        if text is Text.STARS:
            return self.stars
        return self.equator if text is Text.EQUATOR else self.ecliptic

    def searches(self, text: Text) -> Searches:
        """The searches over a text."""
        if text is Text.FILES:
            return self._files
        return self._flat if text is Text.FLAT else self.sky(text).searches

    def found(self, search: Search) -> Found:
        """What a search finds in the span."""
        searches = self.searches(search.text)
        words = search.kind, search.target, search.second, self.span
        coarse = searches.windows(*words, SECOND, **search.options)
        # (where no window is found at a second, none is at a millisecond)
        fine = searches.windows(*words, MILLISECOND, **search.options) if len(coarse) else None
        return Found(search, coarse, fine)

    @functools.cached_property
    def _series(self) -> Series:
        return Series(self.source, *map(float, self.span))

    def geometric(self, body: str, seconds: Floats) -> Floats:
        """Where a body is from the Earth's centre at seconds since J2000 (TDB), in km on the axes of J2000."""
        return self._series.seen(body, "earth", "eq", seconds)

    def places(self, body: str, seconds: Floats, text: Text = Text.EQUATOR) -> Floats:
        """Where a body is seen at seconds since J2000 (TDB), in km on the axes of a text."""
        return self.sky(text).places(body, seconds)


@dataclass(frozen=True)
class _Numbers:
    """The source itself as a text that is searched."""

    source: Ephemeris

    @property
    def files(self) -> Sequence[str]:
        """Its files."""
        return self.source.files

    @property
    def names(self) -> Mapping[str, str]:
        """Its names."""
        return self.source.names

    def places(self, body: str, seconds: Any) -> Floats:
        """Places from the Earth's centre, in km on the axes of J2000."""
        return Series(self.source).seen(body, "earth", "eq", seconds)


class Recipe(Protocol):
    """A part of an almanac: the searches that it needs, and entries of what they find."""

    @property
    def group(self) -> Group:
        """The group of its entries."""

    @property
    def searches(self) -> tuple[Search, ...]:
        """Its searches."""

    def entries(self, texts: Texts, found: Sequence[Found]) -> list[Entry]:
        """The entries of what the searches found, in the order of the searches."""

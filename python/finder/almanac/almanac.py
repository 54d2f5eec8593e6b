"""An almanac of a span: the searches of all its groups over the texts of what is seen, and the entries of their
windows.

The windows of each entry are certified, as those of every search, and its times are the windows' own. Numbers, and the
kinds of solar eclipses, are doubles, and unproved.
"""

from __future__ import annotations

import concurrent.futures
import math
from collections.abc import Iterable, Sequence
from dataclasses import dataclass
from typing import Any, Optional, Union

import numpy as np

from ..ephemeris.ephemeris import Ephemeris
from ..ephemeris.names import Files, HasFiles, file_names
from ..ephemeris.order import WrongFiles
from ..ephemeris.sources import WrongSource
from ..ephemeris.text import DATE_STEP
from ..process.program import Program, Runs, runs_of
from ..public import public
from ..reports.calendar import DAY, time_text
from ..searches.parts import Progress, results
from ..searches.times import Time, ticks_of_time
from ..searches.words import count, one_of
from ..seen.apparent import erfa_package
from ..seen.vectors import Floats, length, longitude, wrapped
from ..sky.place import Place, PlaceLike
from .eclipses import eclipses
from .entries import PLANETS, Almanac, Curves, Entry, Group
from .events import meetings, moon_and_seasons, planets
from .local import LOCAL, local_entries, local_year
from .texts import STARS, Found, Recipe, Search, Text, Texts

# The days before and after a span that are searched too, so that an eclipse at an end is whole.
MARGIN = 1
# The seconds that light takes at most, from Pluto at its farthest: the texts begin so much after their source.
LIGHT_WAY = 27_000


@public
class SpanNotHeld(WrongFiles):
    """The files do not hold all of the span of an almanac.

    >>> import finder
    >>> try:
    ...     finder.almanac("examples/de405-2000.asc", "2001", "2002", groups="seasons")
    ... except finder.SpanNotHeld as error:
    ...     print(str(error)[:14])
    the files hold
    """


def groups_of(groups: Union[Group, str, Iterable[Union[Group, str]]]) -> tuple[Group, ...]:
    """Groups, or those of names, in the order of all. The refusal of an unknown one names the nearest."""
    given = [groups] if isinstance(groups, (Group, str)) else list(groups)
    for each in given:
        if not isinstance(each, Group):
            one_of("group", each, [group.value for group in Group])
    wanted = {Group(each) for each in given}
    return tuple(group for group in Group if group in wanted)


def recipes(groups: Iterable[Group], pluto: bool = False, stars: bool = False) -> list[Recipe]:
    """The recipes of some groups; with Pluto, and with stars that the Moon passes and covers."""
    wanted, bodies = set(groups), (*PLANETS, "pluto") if pluto else PLANETS
    more = tuple(STARS) if stars else ()
    made: list[Recipe] = [*moon_and_seasons(), *planets(bodies), *meetings(bodies, more), *eclipses(bodies, more)]
    return [recipe for recipe in made if recipe.group in wanted]


def search_count(groups: Iterable[Group], pluto: bool = False, stars: bool = False) -> int:
    """How many searches an almanac of some groups makes of the Earth's centre."""
    return sum(len(recipe.searches) for recipe in recipes(groups, pluto, stars))


@dataclass(frozen=True)
class Wanted:
    """What an almanac is of: its title, its ends in seconds since J2000 (TDB), its groups, and a place if it has one,
    with `delta_t`, TT less UT1 in seconds, in place of the table of UT1."""

    title: str
    start: float
    end: float
    groups: Optional[tuple[Group, ...]] = None
    place: Optional[Place] = None
    delta_t: Optional[float] = None
    pluto: bool = False
    stars: bool = False

    @property
    def all_groups(self) -> tuple[Group, ...]:
        """The groups that are asked for, or all that there are: those of a place have one."""
        local = [group for group in self.groups or () if group in LOCAL]
        if local and self.place is None:
            raise ValueError(f"the group {local[0].value} is of a place: name one, as place='52.52 N 13.40 E'")
        if self.groups is not None:
            return self.groups
        return tuple(group for group in Group if self.place is not None or group not in LOCAL)


@public
def almanac(
    files: Files,
    start: Time,
    end: Time,
    *,
    title: str = "Almanac",
    groups: Union[None, Group, str, Iterable[Union[Group, str]]] = None,
    place: Optional[PlaceLike] = None,
    delta_t: Optional[float] = None,
    pluto: bool = False,
    stars: bool = False,
    jobs: int = 1,
    program: Program = None,
    timeout: Optional[float] = None,
    progress: Optional[Progress] = None,
) -> Almanac:
    """The almanac of what is seen from `start` on and before `end`, which are times of TDB, or astropy's of any scale.

    `files` are what `Ephemeris.open` takes, or an `Ephemeris`. `groups` are those that are looked for, as `"eclipses"`.
    With a `place` it has the Sun and the Moon by day, planets by week, and eclipses and occultations as they are seen
    there; UT1 is by the table of the IERS that astropy ships, or TT less `delta_t` seconds. With `pluto` it has Pluto's
    events, with `stars` the Moon passes and covers stars of the first magnitude. Searches are processes of their own,
    `jobs` of them at once; `progress` is called with the number of searches that are done. It needs the package erfa,
    which comes with astropy: `NoErfa` if it is missing. A `ValueError` names the files that are not one series, and
    `SpanNotHeld` says that they do not hold the span, before any search.

    >>> import finder
    >>> year = "examples/de405-2000.asc"
    >>> made = finder.almanac(year, "2000-03-01", "2000-04-01", groups="seasons")
    >>> [entry.name for entry in made.entries]
    ['March equinox']
    """
    first, last = (ticks_of_time(time, 1_000, up=False) / 1_000 for time in (start, end))
    spot = None if place is None else Place.of(place)
    chosen = None if groups is None else groups_of(groups)
    wanted = Wanted(title, first, last, chosen, spot, delta_t, pluto, stars)
    source = files if isinstance(files, HasFiles) else file_names(files)
    return almanac_of(Machine(source, runs_of(program, timeout), count("jobs", jobs), progress), wanted)


@dataclass(frozen=True)
class Machine:
    """The source that is searched, and how: `jobs` of the `runs` at once, and `progress` is called after each."""

    source: Any
    runs: Runs
    jobs: int = 1
    progress: Optional[Progress] = None

    def opened(self, start: float, end: float) -> tuple[Ephemeris, tuple[int, int]]:
        """The ephemeris about a span, and the seconds in which events are searched for: the span and a day on both
        sides, as far as the source goes."""
        if isinstance(self.source, Ephemeris):
            made = self.source
            if start - LIGHT_WAY < made.start or end > made.end:
                raise SpanNotHeld(_not_held(time_text(made.start), time_text(made.end), start, end))
        else:
            made = self._opened(start, end)
        low = -(-(made.start + LIGHT_WAY) // DATE_STEP) * DATE_STEP
        first = max(math.floor(start) - MARGIN * DAY, low)
        last = min(math.ceil(end) + MARGIN * DAY, first + (made.end - first) // DAY * DAY)
        if first > start or last < end:
            raise SpanNotHeld(_not_held(time_text(made.start), time_text(made.end), start, end))
        return made, (first, last)

    def _opened(self, start: float, end: float) -> Ephemeris:
        """What is opened about a span, with as much around it as there is."""
        whole = Ephemeris.open(self.source) if _is_text(self.source) else None
        if whole is not None and (start < whole.start or end > whole.end):
            raise SpanNotHeld(_not_held(time_text(whole.start), time_text(whole.end), start, end))
        around = (MARGIN + 1) * DAY
        low, high = (start - around, end + around)
        if whole is not None:
            low, high = max(low, whole.start), min(high, whole.end)
        try:
            return Ephemeris.open(self.source, low, high)
        except WrongSource as error:
            raise SpanNotHeld(str(error)) from None

    def found(self, texts: Texts, searches: Sequence[Search]) -> list[Found]:
        """What each search finds; where one fails, all are ended."""
        for text in {search.text for search in searches}:
            texts.searches(text)
        with concurrent.futures.ThreadPoolExecutor(self.jobs) as pool:
            try:
                return results([pool.submit(texts.found, search) for search in searches], self.progress)
            except BaseException:
                self.runs.stop()
                raise


def _is_text(source: Any) -> bool:
    """Whether a source is JPL's text, whose span costs little to read."""
    from ..ephemeris.sources import Form, source_files

    return source_files(source)[0].form is Form.ASCII


def _not_held(low: str, high: str, start: float, end: float) -> str:
    first, last = time_text(round(start)), time_text(round(end))
    return f"the files hold {low} to {high} (TDB), and not all of {first} to {last}"


def almanac_of(machine: Machine, wanted: Wanted) -> Almanac:
    """The almanac of what is wanted."""
    erfa_package()
    start, end, groups = wanted.start, wanted.end, wanted.all_groups
    if not start < end:
        raise ValueError("an almanac ends after it starts")
    source, span = machine.opened(start, end)
    texts = Texts(source, span, machine.runs, wanted.pluto)
    made = recipes(groups, wanted.pluto, wanted.stars)
    found = machine.found(texts, [search for recipe in made for search in recipe.searches])
    entries: list[Entry] = []
    done = 0
    for recipe in made:
        size = len(recipe.searches)
        entries += recipe.entries(texts, found[done : done + size])
        done += size
    local = None
    if wanted.place is not None:
        local = local_year(texts, wanted.place, wanted.delta_t, machine.runs, (start, end), groups)
        entries = local_entries(texts, local, entries, groups)
        done += local.searches
    inside = sorted((each for each in entries if start <= each.seconds < end), key=lambda each: each.seconds)
    names = tuple(source.files) if isinstance(machine.source, HasFiles) else tuple(_names(machine.source))
    return Almanac(
        title=wanted.title,
        start=start,
        end=end,
        entries=tuple(inside),
        groups=groups,
        searches=done,
        files=names,
        first_searched=span[0],
        last_searched=span[1],
        curves=_curves(texts, start, end, groups),
        local=local,
        bodies=texts.planets,
    )


def _names(source: Any) -> list[str]:
    """The names of the files of a source."""
    from ..ephemeris.sources import source_files

    return [file.name for file in source_files(source)]


def _curves(texts: Texts, start: float, end: float, groups: Iterable[Group]) -> Curves:
    """The curves of a span, at times of at most a day apart or so."""
    times: Floats = np.linspace(start, end, max(2, round((end - start) / DAY) + 1))
    wanted = set(groups)
    from_sun: dict[str, Floats] = {}
    if Group.PLANETS in wanted:
        longitudes = {body: longitude(texts.places(body, times, Text.ECLIPTIC)) for body in ("sun", *texts.planets)}
        from_sun = {body: wrapped(longitudes[body] - longitudes["sun"]) for body in texts.planets}
        backward = tuple(body for body in texts.planets if wrapped(np.diff(longitudes[body][:2]))[0] < 0)
    else:
        backward = ()
    return Curves(times, length(texts.geometric("moon", times)), from_sun, backward)

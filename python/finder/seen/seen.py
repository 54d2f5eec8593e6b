"""Events as an almanac prints them: by bodies as they are seen, of the equator or ecliptic of date, in doubles.

Nothing is proved here. A certified window says when the geometric event of the file happens; around each window the
same function is solved for bodies seen by light time, aberration and the bending of light by the Sun.
"""

from __future__ import annotations

from collections.abc import Iterator
from typing import Any, Optional

import numpy as np
import numpy.typing as npt

from .. import spans
from ..ephemeris.named import refuse_sky
from ..ephemeris.names import Files
from ..ephemeris.order import J2000_DATE
from ..ephemeris.series import Series
from ..public import public
from ..reports.windows import Window, Windows
from ..searches.bodies import body_word
from ..searches.kinds import KINDS, ROWS
from ..searches.options import Body
from ..searches.times import J2000
from .apparent import ApparentPlaces
from .curves import Curve
from .roots import roots
from .scales import utc_of
from .vectors import Floats, floats, longitude, wrapped

# The kinds of distances, which an almanac prints geometric, and those whose function does not depend on axes.
GEOMETRIC = tuple(row.word for row in ROWS if row.view == "distance")
OF_ANGLES = tuple(row.word for row in ROWS if row.view == "direction" and not row.frame)
# So many times the way of light are added to the seconds within which an event of a kind is seen: where two bodies move
# almost alike in longitude, they may be seen to meet days from where their places do.
LIGHT_WAYS = 4.0
# Precession moves a coordinate of a slow body by years in a century: there so many times the estimate of the distance
# are added, up to the most.
ESTIMATES = 4.0
MOST = 400.0 * spans.DAY
# The seconds of an undecided window that is looked at, and those on both sides by which the turn of its function and
# the changes of a function are taken.
MINUTE = 60
ASIDE = 900.0
# Two times that are less than so many seconds apart are one.
SAME = 0.5


class SeenCurve(Curve):
    """The function of a request, of bodies as they are seen. With `phases` it is that of the quarters of the Moon."""

    def __init__(self, series: Series, asked: dict[str, str], of_date: bool, bending: bool, phases: bool) -> None:
        super().__init__(series, asked)
        self._phases = phases
        self._sky = ApparentPlaces(series, of_date and (phases or asked["kind"] not in OF_ANGLES), bending)

    def _place(self, role: str, times: Floats) -> Floats:
        frame = "ecl" if self._phases else self._asked["frame"]
        return self._sky.seen(self._asked[role], self._asked["observer"], frame, times)

    def _plain(self, times: Floats) -> Floats:
        if not self._phases:
            return super()._plain(times)
        ahead = longitude(self._place("target", times)) - longitude(self._place("second", times))
        return floats(90 - abs(wrapped(ahead)))


@public
class Seen:
    """When the events of `found`, the windows of a search, are seen: a time beside each, in doubles and unproved.

    `seconds` are those since J2000 (TDB), NaN where no time was found near the window; `missing` is the mask of these,
    and `reasons` says of each why, or is the empty text. `turn` is that of each window, and of an undecided one that of
    the time that was found for it, as unproved as that.

    >>> import finder
    >>> year = "examples/de405-2000.asc"
    >>> found = finder.conjunctions(year, "moon", "sun", "2000-01-01", "2000-02-01", observer="earth", frame="ecl")
    >>> seen = finder.seen(found)
    >>> print(seen.utc.iso, seen.later.round(1))
    ['2000-01-06 18:13:38.123'] [-44.2]
    """

    def __init__(self, found: Windows, seconds: Floats, turn: npt.NDArray[np.str_], reasons: tuple[str, ...]) -> None:
        self.found = found
        self.seconds = seconds
        self.turn = turn
        self.reasons = reasons
        self.missing: npt.NDArray[np.bool_] = np.isnan(seconds)

    def __len__(self) -> int:
        return len(self.seconds)

    def __repr__(self) -> str:
        have = len(self) - int(self.missing.sum())
        return f"<Seen of {self.found.request!r}: {have} of {len(self)} have a time, in doubles, unproved>"

    @property
    def unsolved(self) -> list[tuple[Window, str]]:
        """The windows without a time, each with the reason."""
        return [(window, reason) for window, reason in zip(self.found, self.reasons) if reason]

    @property
    def later(self) -> Floats:
        """The seconds by which each is seen after its window, below 0 before it."""
        return self.seconds - middles(self.found)

    def __iter__(self) -> Iterator[tuple[Window, float]]:
        """Each window, with the seconds since J2000 (TDB) at which it is seen: NaN where missing."""
        return iter(zip(self.found, self.seconds.tolist()))

    def utc64(self) -> npt.NDArray[np.datetime64]:
        """The times of UTC as `datetime64[ms]`, to the nearest millisecond; NaT where missing."""
        made = np.full(len(self), np.datetime64("NaT"), dtype="datetime64[ms]")
        for place in np.flatnonzero(~self.missing).tolist():
            made[place] = np.datetime64(utc_of(float(self.seconds[place]) + 5e-4).replace(tzinfo=None), "ms")
        return made

    def to_pandas(self) -> Any:
        """A `DataFrame` of pandas: the columns of `Windows.to_pandas`, with `seen_utc` and `later_s`."""
        return self.found.to_pandas(seen=self)

    def to_table(self) -> Any:
        """A `Table` of astropy: the columns of `Windows.to_table`, with `seen_utc` and `later_s`."""
        return self.found.to_table(seen=self)

    def datetime64(self) -> npt.NDArray[np.datetime64]:
        """The times on the calendar of TDB, to the nearest millisecond; NaT where missing."""
        milliseconds = np.where(self.missing, 0, self.seconds * 1_000).round().astype("m8[ms]")
        made: npt.NDArray[np.datetime64] = J2000.astype("datetime64[ms]") + milliseconds
        made[self.missing] = np.datetime64("NaT")
        return made

    def time(self) -> Any:
        """The times as an astropy `Time` of scale TDB, masked where missing."""
        from astropy.time import Time

        days, rest = np.divmod(np.where(self.missing, 0, self.seconds), spans.DAY)
        made = Time(J2000_DATE + days, rest / spans.DAY, format="jd", scale="tdb")
        if self.missing.any():
            made[self.missing] = np.ma.masked
        made.format = "isot"
        return made

    @property
    def utc(self) -> Any:
        """The times as an astropy `Time` of scale UTC. Of a year whose leap seconds are not announced yet it has those
        that are known, and astropy warns."""
        return self.time().utc

    @property
    def tt(self) -> Any:
        """The times as an astropy `Time` of scale TT."""
        return self.time().tt


def middles(found: Windows) -> Floats:
    """The middles of windows in seconds since J2000 (TDB): an event is after the tick before the first, up to the
    last."""
    return floats((found.first - 1.0 + found.last) / 2 / found.tick)


@public
def seen(
    found: Windows,
    files: Optional[Files] = None,
    *,
    of_date: bool = True,
    bending: bool = True,
    phases: bool = False,
    arrival: Optional[Body] = None,
    series: Optional[Series] = None,
) -> Seen:
    """When each event of a search is seen, as an almanac prints it: in doubles and unproved.

    The request's own function is solved near each window, in the window's direction, for bodies as they are seen from
    the request's observer: where they were when their light set out, turned by aberration, and with `bending` bent by
    the Sun's mass. With `of_date`, which needs erfa, longitudes, right ascensions and coordinates are those of the true
    equator or ecliptic and the true equinox of date; without it those of J2000. Distances and apsides, which an almanac
    prints geometric, are solved so, within their windows. With `phases` a search `sep` of the cosine 0 is solved for a
    difference of 90 degrees in ecliptic longitude, as quarters of the Moon are defined. With `arrival`, a body, each
    time is that at which light from the request's observer comes there: `arrival="earth"` for eclipses seen from the
    Moon. The `files` of the search are read for it, or those that are named; or `series` is what was read of
    them before.

    What is seen and has no window in the numbers of the files is not found, as a meeting in right ascension of date
    that is none in that of J2000: `Ephemeris.sky` makes a text of what is seen, whose windows miss none.

    No window is dropped, and none has the time of another. One without a time stands in `unsolved` with the reason: the
    files end within light time of it, a graze may be no event for bodies as they are seen, two bodies that move almost
    alike may be seen to meet once where their places meet three times, and an undecided window of more than a minute is
    not looked at.

    >>> import finder
    >>> year = "examples/de405-2000.asc"
    >>> found = finder.oppositions(year, "moon", end="2000-02-01", observer="earth", frame="ecl")
    >>> print(finder.seen(found).utc.iso)
    ['2000-01-21 04:40:26.328']
    """
    _refuse(found, phases)
    refuse_sky(found.files if files is None else files, "seen")
    if len(found) == 0:
        return Seen(found, np.empty(0), found.turn, ())
    asked = found.request_words
    made = _series_near(found, files, series, middles(found))
    geometric = Curve(made, asked)
    curve = geometric if asked["kind"] in GEOMETRIC else SeenCurve(made, asked, of_date, bending, phases)
    solved = _solved(curve, found, _signs(geometric, found))
    there: Optional[str] = body_word(arrival)
    if there is None or there == asked["observer"]:
        return solved
    places = ApparentPlaces(made, of_date=False)
    return _arrived(solved, there, places.light_to(there, asked["observer"], solved.seconds))


def _arrived(solved: Seen, arrival: str, ways: Floats) -> Seen:
    """The times at which light comes to a body, that takes so many seconds."""
    seconds = solved.seconds + ways
    late = np.isnan(seconds) & ~solved.missing
    reasons = [
        f"the files end before light of it comes to {arrival}" if each else reason
        for each, reason in zip(late.tolist(), solved.reasons)
    ]
    return Seen(solved.found, seconds, np.where(late, solved.found.turn, solved.turn), tuple(reasons))


def _solved(curve: Curve, found: Windows, sign: Floats) -> Seen:
    """The time near each window at which a function passes 0 in the window's direction, no two of them the same."""
    middle = middles(found)
    reach = _reach(curve, found, middle)
    seconds = roots(lambda times, places: curve.at(times) * sign[places], middle, reach)
    if found.request_words["kind"] in GEOMETRIC:
        seconds = np.clip(seconds, (found.first - 1) / found.tick, found.last / found.tick)
    twice = _taken(seconds, sign, np.where(found.certain, abs(seconds - middle), np.inf))
    seconds[twice] = np.nan
    turn = np.where(np.isnan(seconds), found.turn, np.where(sign > 0, "rise", "fall"))
    return Seen(found, seconds, turn, _reasons(curve, found, seconds, twice, sign, reach))


def _refuse(found: Windows, phases: bool) -> None:
    """Refuses what has no events, and quarters of what are none."""
    if not isinstance(found, Windows):
        raise TypeError(f"the windows of a search are wanted, and not {type(found).__name__}")
    if phases and (found.request_words["kind"] != "sep" or float(found.request_words["values"]) != 0):
        raise ValueError("phases are those of a search for the angle whose cosine is 0: separation(.., cosine=0)")


def _series_near(found: Windows, files: Optional[Files], series: Optional[Series], middle: Floats) -> Series:
    """What is read of the files about the windows of a search."""
    if series is not None:
        return series
    files = found.files if files is None else files
    if files is None:
        raise TypeError("the files of the search are wanted, or a series of them")
    kind = found.request_words["kind"]
    # (light comes from some hours before, and so many times them are looked through)
    pad = KINDS[kind].reach + (MOST if kind == "coord" else 0) + 3 * spans.DAY
    pad += float((found.last - found.first).max()) / found.tick
    return Series(files, float(middle.min()) - pad, float(middle.max()) + pad)


def _signs(curve: Curve, found: Windows) -> Floats:
    """The direction of each window: 1 where its function grows past 0, -1 where it falls below. Of an undecided one of
    at most a minute it is that in which the geometric function turns about it, and 0 where it does not, or not in a
    direction that was asked for: of some thousand windows one is undecided, and mostly has its event."""
    middle = middles(found)
    sign = np.select([found.turn == "rise", found.turn == "fall"], [1.0, -1.0], 0.0)
    left = np.flatnonzero(~found.certain & (found.last - found.first < MINUTE * found.tick))
    if len(left):
        before, after = curve.at(middle[left] - ASIDE), curve.at(middle[left] + ASIDE)
        asked = found.request_words["dir"]
        rises, falls = (before < 0) & (after >= 0), (before >= 0) & (after < 0)
        sign[left] = np.where(rises & (asked != "fall"), 1.0, 0.0) - np.where(falls & (asked != "rise"), 1.0, 0.0)
    return floats(sign)


def _reach(curve: Curve, found: Windows, middle: Floats) -> Floats:
    """The seconds on both sides of the middle of each window within which its time is looked for."""
    kind = found.request_words["kind"]
    base = floats(KINDS[kind].reach + (found.last - found.first) / (2 * found.tick))
    if kind in GEOMETRIC:
        return base
    base += LIGHT_WAYS * np.nan_to_num(curve.light(middle))
    if kind != "coord":
        return base
    before, here, after = (curve.at(middle + shift) for shift in (-ASIDE, 0.0, ASIDE))
    # (by a straight line, and by a parabola where the function hardly moves)
    with np.errstate(divide="ignore", invalid="ignore"):
        straight = abs(here * 2 * ASIDE / (after - before))
        bent = ASIDE * np.sqrt(abs(2 * here / (after - 2 * here + before)))
    far = ESTIMATES * np.nan_to_num(np.fmin(straight, bent))
    return floats(base + np.minimum(far, MOST))


def _taken(seconds: Floats, sign: Floats, distance: Floats) -> npt.NDArray[np.bool_]:
    """Which times are also those of another window of the same direction, that is nearer."""
    taken = np.zeros(len(seconds), dtype=bool)
    for way in (1.0, -1.0):
        places = np.flatnonzero((sign == way) & ~np.isnan(seconds))
        kept: Optional[int] = None
        for place in places[np.argsort(seconds[places], kind="stable")].tolist():
            if kept is not None and seconds[place] - seconds[kept] < SAME:
                near, kept = (kept, place) if distance[place] < distance[kept] else (place, kept)
                taken[near] = True
            else:
                kept = place
    return taken


def _reasons(
    curve: Curve, found: Windows, seconds: Floats, twice: npt.NDArray[np.bool_], sign: Floats, reach: Floats
) -> tuple[str, ...]:
    """Why each window without a time has none; the empty text of the others."""
    made = [""] * len(found)
    left = np.flatnonzero(np.isnan(seconds))
    middle = middles(found)
    # (outside of the files there are no numbers)
    ends = np.isnan(curve.at(middle[left] - reach[left]) + curve.at(middle[left] + reach[left])) if len(left) else left
    for place, end in zip(left.tolist(), ends.tolist()):
        days = f"{reach[place] / spans.DAY:.2g} days"
        if twice[place]:
            made[place] = "the time that is seen near it is that of another window"
        elif not found.certain[place] and found.last[place] - found.first[place] >= MINUTE * found.tick:
            made[place] = f"it is undecided, and longer than {MINUTE} seconds"
        elif end:
            made[place] = f"the files end within light time and {days} of it, and up to there it is not seen"
        elif sign[place] == 0:
            made[place] = "it is undecided, and its function does not turn about it"
        else:
            made[place] = f"its function does not turn within {days} of it for bodies as they are seen"
    return tuple(made)

"""The searches for events, by the words of an astronomer."""

from __future__ import annotations

from typing import Any, Optional, Union, overload

from ..ephemeris.names import Files
from ..public import public
from ..reports.sets import TimeSet
from ..reports.windows import Windows
from .durations import far, near, times
from .extremes import Extreme, greatest, least
from .kinds import COVERS, Axis, Cover
from .numbers import Number, cosine_of_degrees
from .options import Body, Options, Unpack, searches
from .relations import SET_WORDS, Absolute, Lasting, Moments, refuse_direction, relation_of
from .search import find
from .times import Time
from .words import one_of, radii_of

Answer = Union[Windows, TimeSet, Extreme]


@overload
def coordinate(
    files: Files,
    target: Body,
    axis: Axis,
    value: Number = 0,
    start: Optional[Time] = None,
    end: Optional[Time] = None,
    *,
    relation: Lasting,
    **options: Unpack[Options],
) -> TimeSet:
    ...


@overload
def coordinate(
    files: Files,
    target: Body,
    axis: Axis,
    value: Number = 0,
    start: Optional[Time] = None,
    end: Optional[Time] = None,
    *,
    relation: Moments = "=",
    **options: Unpack[Options],
) -> Windows:
    ...


@public
@searches(Options)
def coordinate(
    files: Files,
    target: Body,
    axis: Axis,
    value: Number = 0,
    start: Optional[Time] = None,
    end: Optional[Time] = None,
    *,
    relation: str = "=",
    **options: Unpack[Options],
) -> Union[Windows, TimeSet]:
    """The times at which a coordinate of a body passes a value, in km: `rise` where it grows past it.

    >>> import finder
    >>> found = finder.coordinate("examples/de405-2000.asc", "earth", "z", observer="sun", end="2000-07-01")
    >>> print(found.datetime64())
    ['2000-03-20T07:26:14']

    With `relation` `<` or `>` it is the set of times at which it is below the value, or at least that.
    """
    word = relation_of("coordinate", relation)
    if word == "=":
        return find(files, "coord", target, None, start, end, axis=axis, ref=value, **options)
    if word not in SET_WORDS:
        raise ValueError(f"no kind finds the extremes of a coordinate: relation={word!r} is of distance and separation")
    refuse_direction("coordinate", word, options)
    rest: Any = options
    return times(files, "coord", target, None, start, end, axis=axis, ref=value, relation=SET_WORDS[word], **rest)


@overload
def distance(
    files: Files,
    target: Body,
    value: Number,
    start: Optional[Time] = None,
    end: Optional[Time] = None,
    *,
    relation: Lasting,
    **options: Unpack[Options],
) -> TimeSet:
    ...


@overload
def distance(
    files: Files,
    target: Body,
    value: Optional[Number] = None,
    start: Optional[Time] = None,
    end: Optional[Time] = None,
    *,
    relation: Absolute,
    **options: Unpack[Options],
) -> Extreme:
    ...


@overload
def distance(
    files: Files,
    target: Body,
    value: Optional[Number] = None,
    start: Optional[Time] = None,
    end: Optional[Time] = None,
    *,
    relation: Moments = "=",
    **options: Unpack[Options],
) -> Windows:
    ...


@public
@searches(Options)
def distance(
    files: Files,
    target: Body,
    value: Optional[Number] = None,
    start: Optional[Time] = None,
    end: Optional[Time] = None,
    *,
    relation: str = "=",
    **options: Unpack[Options],
) -> Answer:
    """The times at which a body's distance from the observer passes a value, in km: `rise` where it grows past it.

    >>> import finder
    >>> year = "examples/de405-2000.asc"
    >>> print(finder.distance(year, "mars", 3.7e8, "2000-06-01", "2000-12-01", observer="earth").datetime64())
    ['2000-09-27T21:04:20']
    >>> finder.distance(year, "moon", relation="ABSMIN", observer="earth").value
    357130.18...

    A `relation` of SPICE's `gfdist` is answered as follows: `<` and `>` by the set of times (`times`), `LOCMIN` and
    `LOCMAX` by `apsides` in one direction, `ABSMIN` and `ABSMAX` by `least` and `greatest`, proved to a kilometre.
    """
    word = relation_of("distance", relation)
    if word in ("=", *SET_WORDS) and value is None:
        raise TypeError(f"distance() takes a value in km where its relation is {word!r}")
    if word == "=":
        return find(files, "radius", target, None, start, end, ref=value, **options)
    refuse_direction("distance", word, options)
    rest: Any = options
    if word in SET_WORDS:
        return times(files, "radius", target, None, start, end, ref=value, relation=SET_WORDS[word], **rest)
    if word in ("LOCMIN", "LOCMAX"):
        return find(files, "apsis", target, None, start, end, dir="rise" if word == "LOCMIN" else "fall", **rest)
    return (least if word == "ABSMIN" else greatest)(files, target, None, start, end, **rest)


@public
@searches(Options)
def apsides(
    files: Files,
    target: Body,
    start: Optional[Time] = None,
    end: Optional[Time] = None,
    **options: Unpack[Options],
) -> Windows:
    """The times at which a body's distance from the observer is least (`rise`) or greatest (`fall`).

    >>> import finder
    >>> found = finder.apsides("examples/de405-2000.asc", "moon", "2000-03-01", "2000-04-01", observer="earth")
    >>> [window.text() for window in found], list(found.turn)
    (['2000-03-14T23:39:59', '2000-03-27T17:20:43'], ['rise', 'fall'])
    """
    return find(files, "apsis", target, None, start, end, **options)


@public
@searches(Options)
def conjunctions(
    files: Files,
    target: Body,
    second: Body,
    start: Optional[Time] = None,
    end: Optional[Time] = None,
    **options: Unpack[Options],
) -> Windows:
    """The times at which two bodies have one longitude, of `frame`: right ascension in `eq`, which is the default, and
    ecliptic longitude in `ecl`. `rise` where the second body's grows past the target's.

    >>> import finder
    >>> year = "examples/de405-2000.asc"
    >>> print(finder.conjunctions(year, "jupiter", "saturn", observer="earth", frame="ecl").datetime64())
    ['2000-05-28T15:55:49']
    """
    return find(files, "conj", target, second, start, end, **options)


@public
@searches(Options)
def oppositions(
    files: Files,
    target: Body,
    second: Body = "sun",
    start: Optional[Time] = None,
    end: Optional[Time] = None,
    **options: Unpack[Options],
) -> Windows:
    """The times at which the longitudes of two bodies are opposite: `rise` where the target's grows past the one
    opposite to the second body's.

    >>> import finder
    >>> print(finder.oppositions("examples/de405-2000.asc", "jupiter", observer="earth", frame="ecl").datetime64())
    ['2000-11-28T02:02:18']
    """
    return find(files, "oppo", target, second, start, end, **options)


@public
@searches(Options)
def stations(
    files: Files,
    target: Body,
    start: Optional[Time] = None,
    end: Optional[Time] = None,
    **options: Unpack[Options],
) -> Windows:
    """The times at which a body's motion in longitude turns: `rise` where it turns from backward to forward.

    >>> import finder
    >>> found = finder.stations("examples/de405-2000.asc", "mercury", end="2000-06-01", observer="earth", frame="ecl")
    >>> [window.text() for window in found], list(found.turn)
    (['2000-02-21T12:41:03', '2000-03-14T20:35:21'], ['fall', 'rise'])
    """
    return find(files, "station", target, None, start, end, **options)


@overload
def separation(
    files: Files,
    target: Body,
    second: Body,
    start: Optional[Time] = None,
    end: Optional[Time] = None,
    *,
    degrees: Optional[Number] = None,
    cosine: Optional[Number] = None,
    relation: Lasting,
    **options: Unpack[Options],
) -> TimeSet:
    ...


@overload
def separation(
    files: Files,
    target: Body,
    second: Body,
    start: Optional[Time] = None,
    end: Optional[Time] = None,
    *,
    degrees: Optional[Number] = None,
    cosine: Optional[Number] = None,
    relation: Absolute,
    **options: Unpack[Options],
) -> Extreme:
    ...


@overload
def separation(
    files: Files,
    target: Body,
    second: Body,
    start: Optional[Time] = None,
    end: Optional[Time] = None,
    *,
    degrees: Optional[Number] = None,
    cosine: Optional[Number] = None,
    relation: Moments = "=",
    **options: Unpack[Options],
) -> Windows:
    ...


@public
@searches(Options)
def separation(
    files: Files,
    target: Body,
    second: Body,
    start: Optional[Time] = None,
    end: Optional[Time] = None,
    *,
    degrees: Optional[Number] = None,
    cosine: Optional[Number] = None,
    relation: str = "=",
    **options: Unpack[Options],
) -> Answer:
    """The times at which the angle between two bodies passes one, given in degrees or by its cosine: `rise` where it
    grows smaller. A cosine is taken exactly; of degrees it is rounded down to 18 places (`cosine_of_degrees`), so that
    the bodies are within the given angle at no time at which they are not within the one that is searched for.

    >>> import finder
    >>> year = "examples/de405-2000.asc"
    >>> print(finder.separation(year, "venus", "jupiter", degrees=1, observer="earth").datetime64())
    ['2000-05-16T10:14:47' '2000-05-18T10:35:20']

    A `relation` of SPICE's `gfsep`, which is of the angle, is answered as follows: `<` and `>` by the set of times
    (`near`, `far`), `LOCMIN` and `LOCMAX` by `separation_extremes` in one direction, `ABSMIN` and `ABSMAX` by `least` and
    `greatest`, proved to an arc second.
    """
    word = relation_of("separation", relation)
    if word in ("=", *SET_WORDS) and (degrees is None) == (cosine is None):
        raise TypeError("separation() takes an angle, as degrees= or by its cosine=, and not both")
    if word == "=":
        ref = cosine_of_degrees(degrees) if cosine is None else cosine
        return find(files, "sep", target, second, start, end, ref=ref, **options)
    refuse_direction("separation", word, options)
    rest: Any = options
    if word in SET_WORDS:
        search = near if word == "<" else far
        return search(files, target, second, start, end, degrees=degrees, cosine=cosine, **rest)
    if word in ("LOCMIN", "LOCMAX"):
        return find(files, "sepext", target, second, start, end, dir="fall" if word == "LOCMIN" else "rise", **rest)
    return (least if word == "ABSMIN" else greatest)(files, target, second, start, end, **rest)


@public
@searches(Options)
def separation_extremes(
    files: Files,
    target: Body,
    second: Body,
    start: Optional[Time] = None,
    end: Optional[Time] = None,
    **options: Unpack[Options],
) -> Windows:
    """The times at which the angle between two bodies is greatest (`rise`) or least (`fall`).

    >>> import finder
    >>> year = "examples/de405-2000.asc"
    >>> print(finder.separation_extremes(year, "venus", "sun", dir="fall", observer="earth").datetime64())
    ['2000-06-11T08:40:36']
    """
    return find(files, "sepext", target, second, start, end, **options)


@public
@searches(Options)
def occultations(
    files: Files,
    target: Body,
    second: Body,
    radii: tuple[Number, Number],
    start: Optional[Time] = None,
    end: Optional[Time] = None,
    *,
    kind: Cover = "any",
    **options: Unpack[Options],
) -> Windows:
    """The times at which the target's disc begins (`rise`) and ends (`fall`) to cover a part of the second body's
    (`any`), all of it (`full`), or to lie within it (`annular`), of spheres with these radii in km, a pair. The target
    is the nearer body, and the observer is outside of both.

    >>> import finder
    >>> year, radii = "examples/de405-2000.asc", (6378, 695_700)
    >>> found = finder.occultations(year, "earth", "sun", radii, end="2000-03-01", kind="full", observer="moon")
    >>> [window.text() for window in found], found.turn.tolist()
    (['2000-01-21T03:34:50', '2000-01-21T05:55:27'], ['rise', 'fall'])
    """
    one_of("kind", kind, COVERS)
    pair = radii_of(radii, () if start is None or hasattr(radii, "__len__") else (start,))
    return find(files, kind, target, second, start, end, radii=pair, **options)

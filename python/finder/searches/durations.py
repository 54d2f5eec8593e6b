"""How long something lasts: sets of times, by the words of an astronomer."""

from __future__ import annotations

from typing import Any, Optional

from ..ephemeris.named import held, names_of
from ..ephemeris.names import Files
from ..process.program import runs_of
from ..public import public
from ..reports.report import SetReport
from ..reports.sets import TimeSet
from .bodies import RELATIONS
from .kinds import SET_KINDS, Relation, SetKind
from .numbers import Number, cosine_of_degrees
from .options import Body, SetOptions, TimesOptions, Unpack, searches
from .relations import refuse_other_relations
from .search import answer, refuse_words, set_options
from .times import Time


@public
@searches(TimesOptions)
def times(
    files: Files,
    kind: SetKind,
    target: Body,
    second: Optional[Body] = None,
    start: Optional[Time] = None,
    end: Optional[Time] = None,
    *,
    relation: Relation,
    **options: Unpack[TimesOptions],
) -> TimeSet:
    """The times at which the function of a kind has a relation to a number, with the options of `finder set`
    (`docs/guide/usage.md`): `less` or `<`, it is below `ref`; `atleast` or `>`, it is at least `ref`; `within`, at least
    `ref` and below `ref2`; `outside`, below `ref` or at least `ref2`. For `sep` the numbers are cosines, so that
    `atleast` is near.

    >>> import finder
    >>> year = "examples/de405-2000.asc"
    >>> asked = {"observer": "earth", "relation": "<", "ref": 360_000}
    >>> found = finder.times(year, "radius", "moon", None, "2000-01", "2000-06", **asked)
    >>> print(found.sure.datetime64("first"), found.sure.datetime64("last"))
    ['2000-01-19T02:19:30'] ['2000-01-20T18:59:03']

    The set is that of the numbers which are passed, and none is rounded here, in neither direction: a text, an int and
    a `Decimal` are passed as they are, and refused by the command where they have more digits than it takes; a float is
    the shortest decimal that is it, and an astropy quantity the float that is its value in km. So `less` and `atleast`
    of one number are each exactly the rest of the span of the other. The cosine of an angle in degrees is no such
    number: `near` and `far` take angles.

    The times of the set are ticks of the span from `start` to `end`, both among them. A `start` between two ticks is
    rounded down and an `end` up, so that no time of what was asked for is left out.
    """
    wanted: dict[str, Any] = {"ref2": None, **options}
    word: Any = RELATIONS.get(relation, relation)
    refuse_other_relations(kind, word)
    made = set_options(files, kind, target, second, start=start, end=end, relation=word, **wanted)
    refuse_words(made, SET_KINDS)
    found = TimeSet.of_report(answer("set", made, files, wanted, SetReport))
    found.names = names_of(files)
    return found


@public
@searches(SetOptions)
def near(
    files: Files,
    target: Body,
    second: Body,
    start: Optional[Time] = None,
    end: Optional[Time] = None,
    *,
    degrees: Optional[Number] = None,
    cosine: Optional[Number] = None,
    **options: Unpack[SetOptions],
) -> TimeSet:
    """The times at which the angle between two bodies is at most one, given in degrees or by its cosine.

    >>> import finder
    >>> near = finder.near("examples/de405-2000.asc", "jupiter", "saturn", degrees=1.5, observer="earth")
    >>> print(near.sure.datetime64("first"), near.sure.datetime64("last"))
    ['2000-05-19T15:26:42'] ['2000-06-06T15:09:17']

    A cosine is taken exactly, and is one search (`atleast`). The cosine of degrees is no decimal, but for 0, 60, 90,
    120 and 180: of others there are two searches, for the two decimals of 18 places between which it lies. The sure
    times are those of the one above it, whose angle is smaller, and the possible times those of the one below it, whose
    angle is greater. So each sure time is within the given angle itself, and each time within it is possible.
    """
    return _by_angle(files, target, second, start, end, "atleast", degrees, cosine, options)


@public
@searches(SetOptions)
def far(
    files: Files,
    target: Body,
    second: Body,
    start: Optional[Time] = None,
    end: Optional[Time] = None,
    *,
    degrees: Optional[Number] = None,
    cosine: Optional[Number] = None,
    **options: Unpack[SetOptions],
) -> TimeSet:
    """The times at which the angle between two bodies is greater than one, given in degrees or by its cosine: the other
    times of `near`, of the same span.

    >>> import finder
    >>> year = "examples/de405-2000.asc"
    >>> far = finder.far(year, "venus", "sun", "2000-01-01", "2000-06-01", degrees=20, observer="earth")
    >>> print(far.sure.datetime64("last"))
    ['2000-03-26T21:06:41']

    A cosine is taken exactly, and is one search (`less`). Of degrees the sure times are those of the decimal below
    their cosine, whose angle is greater, and the possible times those of the one above it, whose angle is smaller. So
    each sure time is farther than the given angle itself, and each time farther than it is possible.
    """
    return _by_angle(files, target, second, start, end, "less", degrees, cosine, options)


def _by_angle(
    files: Files,
    target: Body,
    second: Body,
    start: Optional[Time],
    end: Optional[Time],
    relation: Relation,
    degrees: Optional[Number],
    cosine: Optional[Number],
    options: SetOptions,
) -> TimeSet:
    """The times of `near` or `far`: of one search where the cosine is a decimal, else of two."""
    if (degrees is None) == (cosine is None):
        name = "near" if relation == "atleast" else "far"
        raise TypeError(f"{name}() takes an angle, as degrees= or by its cosine=, and not both")
    bodies: tuple[Any, ...] = ("sep", target, second, start, end)
    if degrees is None:
        return times(files, *bodies, relation=relation, ref=cosine, **options)
    # The cosine of sure times, then that of possible ones: one where it is a decimal.
    cosines = dict.fromkeys(cosine_of_degrees(degrees, up=up) for up in (relation == "atleast", relation == "less"))
    kept = held(files)
    # (`timeout` is of both searches)
    options["program"] = runs_of(options.get("program"), options.get("timeout"), options.get("in_process", False))
    sure, *possible = (times(kept, *bodies, relation=relation, ref=ref, **options) for ref in cosines)
    return sure.up_to(possible[0]) if possible else sure


@public
@searches(SetOptions)
def retrograde(
    files: Files,
    target: Body,
    start: Optional[Time] = None,
    end: Optional[Time] = None,
    **options: Unpack[SetOptions],
) -> TimeSet:
    """The times at which a body moves backward in longitude, of `frame`; at the others it moves forward or rests.

    >>> import finder
    >>> back = finder.retrograde("examples/de405-2000.asc", "mercury", observer="earth", frame="ecl")
    >>> print(back.sure.datetime64("first"))
    ['2000-02-21T12:41:03' '2000-06-23T08:27:18' '2000-10-18T13:34:53']
    """
    return times(files, "station", target, None, start, end, relation="less", **options)

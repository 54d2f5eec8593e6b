"""What every search takes besides files and bodies: written out once, in signatures, in `help` and for type checkers."""

from __future__ import annotations

import difflib
import functools
import inspect
from collections.abc import Callable, Mapping
from typing import TYPE_CHECKING, Any, Literal, Optional, TypedDict, TypeVar, Union

from ..process.program import Program
from .kinds import Axis, BodyWord, Cut, Direction, FrameWord, ObserverWord
from .numbers import Number

if TYPE_CHECKING:
    from typing_extensions import Unpack as Unpack
else:

    class Unpack:
        """As `typing.Unpack`, which Python has since 3.11: here the hint is the options themselves."""

        def __class_getitem__(cls, options: Any) -> Any:
            return options


# A body is a name in any case, a name or number of NAIF, a body of Skyfield, or a name of an `Ephemeris`.
Body = Union[BodyWord, str, int, Any]
Observer = Union[ObserverWord, Body]
Frame = Union[FrameWord, str]
Parts = Union[int, Literal["auto"]]
Progress = Callable[[int], object]
F = TypeVar("F", bound=Callable[..., Any])


class SetOptions(TypedDict, total=False):
    """What every search takes."""

    observer: Optional[Observer]
    frame: Optional[Frame]
    tick: Literal[1, 1000]
    width: int
    depth: int
    workers: int
    cut: Cut
    parts: Parts
    progress: Optional[Progress]
    program: Program
    timeout: Optional[float]
    in_process: bool


class Options(SetOptions, total=False):
    """What every search for events takes, as `find` does."""

    dir: Direction


class Wanted(Options, total=False):
    """What `find` takes besides a kind and the bodies."""

    axis: Optional[Axis]
    ref: Optional[Number]
    radii: Optional[tuple[Number, Number]]


class TimesOptions(SetOptions, total=False):
    """What `times` takes besides a kind, the bodies and a relation."""

    axis: Optional[Axis]
    ref: Optional[Number]
    ref2: Optional[Number]


DEFAULTS: dict[str, Any] = {
    "observer": None,
    "frame": None,
    "axis": None,
    "ref": None,
    "ref2": None,
    "radii": None,
    "dir": "any",
    "tick": 1,
    "width": 1,
    "depth": 40,
    "workers": 1,
    "cut": "half",
    "parts": "auto",
    "progress": None,
    "program": None,
    "timeout": None,
    "in_process": False,
}
MEANING = {
    "start, end": "times of TDB: events after `start` and up to `end` are looked for, the times of a set from `start` "
    "to `end`; the span of the files where none is named",
    "observer": "the body from which it is seen; the barycentre of the solar system where none is named",
    "frame": "`eq`, the equator of J2000, or `ecl`, its ecliptic: what longitudes and coordinates are of",
    "axis": "`x`, `y` or `z`: of the kind `coord`",
    "ref": "km: of the kinds `coord` and `radius`; the cosine of an angle: of the kind `sep`",
    "ref2": "as `ref`, and above it: of the relations `within` and `outside`",
    "radii": "km, the radii of target and second body: of the kinds `any`, `full` and `annular`",
    "dir": "`any`, `rise` or `fall`: which events",
    "tick": "1 for times to the second, 1000 to the millisecond",
    "width": "ticks, 1 to 1000000: how wide a certain window may be",
    "depth": "0 to 40: how many cuts may lead to a piece of the span",
    "workers": "1 to 64 threads of the program",
    "cut": "`half` or `third`: where a piece is cut",
    "parts": "into how many parts the span is cut, which are searched one after the other and joined; `auto`: one, but "
    "more for bodies that almost cancel, as Moon and Earth from another planet",
    "progress": "a function that is called with the number of parts that are done, as tqdm's `update`; the parts are "
    "then those of the files, and their numbers sum up to how many there are",
    "program": "the command; else $FINDER, the one that was installed with the package, that of a clone, or `finder` "
    "on the path",
    "timeout": "seconds after which the search is ended, and `TimedOut` raised",
    "in_process": "`True`: the library of the command searches, in this process and thread, and `workers` change nothing; "
    "on x86-64 alone, and without `program` and `timeout`",
}


def searches(options: type) -> Callable[[F], F]:
    """Writes the options of a search out: in its signature, with their defaults, and in its text, with their units. An
    option that it has not is refused by the name of the function, with the nearest that it has."""

    def made(function: F) -> F:
        signature = _written_out(inspect.signature(function), options)
        names = list(signature.parameters)

        @functools.wraps(function)
        def search(*words: Any, **given: Any) -> Any:
            refuse_unknown(function.__name__, given, names)
            return function(*words, **given)

        search.__signature__ = signature  # type: ignore[attr-defined]
        search.__doc__ = _with_meaning(inspect.getdoc(function) or "", names)
        return search  # type: ignore[return-value]

    return made


def refuse_unknown(function: str, given: Mapping[str, Any], names: list[str]) -> None:
    """Refuses options that a function does not take, and names the nearest one that it takes."""
    for name in given:
        if name not in names:
            near = difflib.get_close_matches(name, names, 1)
            hint = f"did you mean {near[0]!r}?" if near else f"there are {', '.join(names)}"
            raise TypeError(f"{function}() takes no option {name!r}: {hint}")


def _written_out(signature: inspect.Signature, options: type) -> inspect.Signature:
    """A signature in which options stand in place of the words that hold them."""
    own = [each for each in signature.parameters.values() if each.kind is not inspect.Parameter.VAR_KEYWORD]
    have = {each.name for each in own}
    hints = {name: getattr(hint, "__forward_arg__", hint) for name, hint in options.__annotations__.items()}
    more = [
        inspect.Parameter(name, inspect.Parameter.KEYWORD_ONLY, default=default, annotation=hints[name])
        for name, default in DEFAULTS.items()
        if name in hints and name not in have
    ]
    return signature.replace(parameters=[*own, *more])


def _with_meaning(text: str, names: list[str]) -> str:
    """A text, and below it what each option means that is among the names."""
    rows = [f"{name}: {meaning}" for name, meaning in MEANING.items() if name.split(",")[0] in names]
    return "\n".join([text, "", "Options:", "", *(f"- {row}" for row in rows)])

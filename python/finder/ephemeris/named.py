"""What an `Ephemeris` says to a search beside its files: names of bodies, where it looks from, and over which span."""

from __future__ import annotations

import difflib
from collections.abc import Mapping, Sequence
from dataclasses import dataclass, field
from typing import Any, Optional, Protocol, runtime_checkable

from ..reports.calendar import time_text
from ..searches.bodies import body_word, frame_word
from .names import Files, HasFiles, file_names

BODIES = ("target", "second", "observer")


@runtime_checkable
class HasNames(Protocol):
    """What an `Ephemeris` is to a search."""

    @property
    def files(self) -> Sequence[str]:
        """The names of its files."""

    @property
    def names(self) -> Mapping[str, str]:
        """The word of the program for each name of a body."""

    @property
    def origin(self) -> Optional[str]:
        """The body from which a search looks that names no observer."""

    @property
    def frames(self) -> tuple[str, ...]:
        """The frames in which a search may ask for longitudes."""

    @property
    def requested_span(self) -> tuple[Optional[float], Optional[float]]:
        """The span of a search that names none, in seconds since J2000 (TDB)."""

    @property
    def sha256(self) -> str:
        """The SHA-256 of the bytes of its files."""


@dataclass(frozen=True)
class NamedFiles:
    """Some of the files of an `Ephemeris`, which another process can be given."""

    files: tuple[str, ...]
    names: Mapping[str, str]
    origin: Optional[str]
    frames: tuple[str, ...]
    sha256: str = ""
    requested_span: tuple[Optional[float], Optional[float]] = field(default=(None, None))


def some_of(files: Files, names: Sequence[str]) -> Any:
    """Some of the files of what was given, with its names if it has any."""
    if not isinstance(files, HasNames):
        return list(names)
    return NamedFiles(tuple(names), dict(files.names), files.origin, tuple(files.frames))


def held(files: Files) -> Any:
    """What was given, to be read more than once: an `Ephemeris` as it is, files as a list of names."""
    return files if isinstance(files, HasFiles) else file_names(files)


def words_of_request(files: Files, words: Mapping[str, Any]) -> dict[str, Any]:
    """The words of a request in which an `Ephemeris` has put the program's words for its names, its origin where no
    observer is named, and its span where none is. Of other files they are as they were.

    A `ValueError` names the bodies that there are, or says which axes the text has.
    """
    made = dict(words)
    if not isinstance(files, HasNames):
        return made
    if made.get("observer") is None:
        made["observer"] = files.origin if files.origin in files.names else None
    for role in BODIES:
        if made.get(role) is not None:
            made[role] = _word(files.names, made[role])
    if made.get("frame") is not None and frame_word(made["frame"]) not in files.frames:
        raise ValueError(
            f"the places of this text stand on the axes of date, on which frame={made['frame']!r} means nothing: leave "
            "frame= out, and make the sky with axes='ecliptic' for longitudes of the ecliptic of date"
        )
    for name, second in zip(("start", "end"), files.requested_span):
        if made.get(name) is None and second is not None:
            made[name] = _time(second, up=name == "end")
    return made


def _word(names: Mapping[str, str], body: Any) -> Any:
    """The program's word for a name, in any case, or for a body as other packages name it."""
    small = {name.lower(): word for name, word in names.items()}
    if isinstance(body, str) and (body in names or body.lower() in small):
        return names.get(body, small.get(body.lower()))
    word = body_word(body)
    if word in names:
        return names[word]
    near = difflib.get_close_matches(str(body).lower(), list(small), 1)
    hint = f"did you mean {near[0]!r}? There " if near else "there "
    raise ValueError(f"no body of this ephemeris is {body!r}: {hint}are {', '.join(names)}")


def _time(seconds: float, up: bool) -> str:
    """A time as a text of TDB to the millisecond."""
    milliseconds = seconds * 1_000
    return time_text(int(-(-milliseconds // 1)) if up else int(milliseconds // 1), 1_000)


def names_of(files: Files) -> dict[str, str]:
    """The names by the words of the program, where an `Ephemeris` has others."""
    if not isinstance(files, HasNames):
        return {}
    return {word: name for name, word in files.names.items() if word != name}


def bodies_of(asked: Mapping[str, str], names: Mapping[str, str]) -> dict[str, str]:
    """Target, second body and observer of a request by the names of an `Ephemeris`; what is not there is left out."""
    return {role: names.get(asked[role], asked[role]) for role in BODIES if asked.get(role, "-") != "-"}


def refuse_sky(files: Any, function: str) -> None:
    """Refuses the text of a sky where geometric places are wanted."""
    if getattr(files, "is_apparent", False):
        raise ValueError(
            f"finder.{function} is of geometric places, and those of a sky are as they are seen: the windows of a "
            "search of it are the times, and its places(body, seconds) gives where a body is"
        )

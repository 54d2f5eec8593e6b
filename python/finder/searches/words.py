"""What is checked of the words of a search before the command runs: each refusal says what to write instead."""

from __future__ import annotations

import difflib
import math
import numbers
import sys
import warnings
from collections.abc import Mapping, Sequence
from typing import Any, Optional

import numpy as np

from ..public import public
from .kinds import KINDS

# What an astronomer calls a kind, or a frame.
MEANT = {word: row.word for row in KINDS.values() for word in row.meant}
# The bodies of which each lies on the line through the others; the kinds whose function is then 0 at all times, and the
# depth up to which a search for it ends at once.
ONE_LINE = {"earth", "moon", "emb"}
OF_LINES = ("conj", "oppo", "sepext")
SHALLOW = 12


@public
class BarycentreWarning(UserWarning):
    """A search from the barycentre of the solar system, which nobody named, for what is asked from a planet.

    >>> import finder
    >>> import warnings
    >>> with warnings.catch_warnings(record=True) as caught:
    ...     warnings.simplefilter("always")
    ...     found = finder.stations("examples/de405-2000.asc", "mars", end="2000-03-01")
    >>> caught[0].category.__name__
    'BarycentreWarning'
    """


def one_of(what: str, value: Any, allowed: Sequence[str]) -> None:
    """Refuses a word that is none of those that are allowed, and names the nearest of them."""
    if value in allowed:
        return
    if not isinstance(value, str):
        raise TypeError(f"{what} is one of {', '.join(allowed)}, and not {value!r}")
    meant = MEANT.get(value.lower(), MEANT.get(value.lower().rstrip("s")))
    near = [meant] if meant and meant in allowed else difflib.get_close_matches(value.lower(), allowed, 1)
    hint = f"did you mean {near[0]!r}? There " if near else "there "
    raise ValueError(f"no {what} is {value!r}: {hint}are {', '.join(allowed)}")


def whole(name: str, value: Any) -> None:
    """Refuses what is no whole number."""
    if isinstance(value, (bool, np.bool_)) or not isinstance(value, (int, np.integer)):
        instead = f": write {name}={int(value)}" if isinstance(value, float) and value.is_integer() else ""
        raise TypeError(f"{name} is a whole number, and not {value!r}{instead}")


def count(name: str, value: Any) -> int:
    """A whole number from 1 on."""
    whole(name, value)
    if value < 1:
        raise ValueError(f"{name} is 1 or more, and not {value!r}")
    return int(value)


def seconds(name: str, value: Any) -> None:
    """Refuses what is no number of seconds."""
    if isinstance(value, (bool, np.bool_)) or not isinstance(value, numbers.Real) or math.isnan(value):
        raise TypeError(f"{name} is a number of seconds, and not {value!r}")


def radii_of(radii: Any, apart: tuple[Any, ...] = ()) -> tuple[Any, Any]:
    """Both radii: a pair."""
    if apart:
        raise TypeError(f"both radii are one pair, in km: write radii=({radii!r}, {', '.join(map(repr, apart))})")
    if isinstance(radii, (str, bytes)) or not isinstance(radii, (Sequence, np.ndarray)) or len(radii) != 2:
        raise TypeError(f"radii are a pair of numbers in km, target first, as (6051.8, 695700), and not {radii!r}")
    return radii[0], radii[1]


def refuse_one_line(options: Mapping[str, Any]) -> None:
    """Refuses a search for what two bodies do that lie in one line with the observer at all times."""
    in_line = {options["target"], options["second"], options["observer"]} == ONE_LINE
    if in_line and options["kind"] in OF_LINES and options["depth"] > SHALLOW:
        raise ValueError(
            f"{options['target']} and {options['second']} lie in one line with {options['observer']} at all times, as "
            "emb is the barycentre of Earth and Moon: no tick tells a sign, and the search would take hours. Name "
            f"other bodies, or depth={SHALLOW // 2}, which ends at once with one undecided window"
        )


def warn_of_barycentre(kind: str, target: str, observer: Optional[str]) -> None:
    """Warns where nobody named an observer, for what is asked from a planet or, of the Moon, from the Earth."""
    view = KINDS[kind].view
    if observer is None and (view == "direction" or (view == "distance" and target == "moon")):
        text = (
            f"no observer is named, so that {kind} is searched for from the barycentre of the solar system: write "
            "observer='earth' for what is seen from the Earth, and observer='ssb' for the barycentre without a warning"
        )
        warnings.warn(text, BarycentreWarning, stacklevel=_level_of_caller())


def _level_of_caller() -> int:
    """How many calls are between a function that this one is called in and the first that is not of this package."""
    package = __name__.partition(".")[0]
    frame, level = sys._getframe(1), 1
    while frame.f_back is not None and frame.f_globals.get("__name__", "").partition(".")[0] == package:
        frame, level = frame.f_back, level + 1
    return level

"""The relations of SPICE's searches, and which search of the program answers each."""

from __future__ import annotations

from typing import Any, Literal

from .kinds import KINDS, Relation

# What a distance, an angle or a coordinate may be asked for, as SPICE's `gfdist`, `gfsep` and `gfposc` have it.
Moments = Literal["=", "LOCMIN", "LOCMAX"]
Lasting = Literal["<", ">"]
Absolute = Literal["ABSMIN", "ABSMAX"]
ALL = ("=", "<", ">", "LOCMIN", "LOCMAX", "ABSMIN", "ABSMAX")
SET_WORDS: dict[str, Relation] = {"<": "less", ">": "atleast"}
# The functions that answer a relation which a set of times does not have.
ANSWERS = {
    "radius": "finder.distance",
    "sep": "finder.separation",
    "coord": "finder.coordinate",
}


def relation_of(function: str, relation: Any) -> str:
    """A relation in capital letters: a ValueError lists those that there are."""
    made = relation.strip().upper() if isinstance(relation, str) else relation
    if made not in ALL:
        raise ValueError(f"{function}() has no relation {relation!r}: there are {', '.join(ALL)}")
    return str(made)


def refuse_direction(function: str, relation: str, options: Any) -> None:
    """Refuses `dir` where what is asked for has no direction, or names it."""
    if relation != "=" and "dir" in options:
        raise TypeError(f"{function}() takes dir= where its relation is '=', and not where it is {relation!r}")


def refuse_other_relations(kind: str, relation: Any) -> None:
    """Refuses a relation of SPICE that is no set of times, and names the function that answers it."""
    word = relation.strip().upper() if isinstance(relation, str) else relation
    if word in ALL and kind in ANSWERS and kind in KINDS:
        raise ValueError(
            f"no set of times has the relation {relation!r}: {ANSWERS[kind]}(.., relation={word!r}) answers it"
        )

"""Transits and culminations: when a body passes the meridian, and when it stands highest and lowest."""

from __future__ import annotations

from typing import Optional

from .bodies import short_title
from .moments import Moment
from .place import Place
from .searching import Searches, Span


def transits(searches: Searches, body: str, lower: bool, span: Span, precise: bool) -> list[Moment]:
    """The moments at which a body has the right ascension of the zenith, or with `lower` the opposite one."""
    kind = "oppo" if lower else "conj"
    name = f"{short_title(body)} at its lower transit" if lower else f"{short_title(body)} transits"
    return searches.moments(body, lambda turn: name, kind, body, "zenith", span, precise)


def culminations(searches: Searches, body: str, span: Span, precise: bool) -> list[Moment]:
    """The moments at which the angle between a body and the zenith is least or greatest."""
    # (the separation is greatest at `rise`)
    names = {"fall": f"{short_title(body)} highest", "rise": f"{short_title(body)} lowest"}

    def name(turn: Optional[str]) -> str:
        return names.get(turn or "", " or ".join(names.values()))

    return searches.moments(body, name, "sepext", body, "zenith", span, precise)


def check_meridian(place: Place, axes: str) -> None:
    """Refuses what has no meridian: a pole, and axes that are not those of the equator of date."""
    if abs(place.latitude) == 90:
        raise ValueError("at a pole of the Earth there is no meridian, and nothing transits: ask culminations()")
    if axes != "equator":
        raise ValueError(f"transits are of the equator of date, and this sky is on {axes}: sky(.., axes='equator')")

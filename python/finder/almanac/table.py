"""The entries of an almanac as a table of pandas."""

from __future__ import annotations

from collections.abc import Sequence
from typing import TYPE_CHECKING, Any

import numpy as np

from ..reports.table import calendar_of, frame_of, milliseconds_of
from ..seen.scales import FIRST_UTC_YEAR, utc_of

if TYPE_CHECKING:
    from .entries import Entry

NOT_A_TIME = np.datetime64("NaT", "ms")


def frame_of_entries(entries: Sequence[Entry]) -> Any:
    """A row for each moment of each entry."""
    rows = [(entry, contact) for entry in entries for contact in entry.contacts]
    windows = [contact.window for _, contact in rows]
    texts: dict[str, list[Any]] = {
        "group": [entry.group.value for entry, _ in rows],
        "event": [entry.event.value for entry, _ in rows],
        "name": [entry.name for entry, _ in rows],
        "contact": [contact.name for _, contact in rows],
        "status": [contact.status.value for _, contact in rows],
        "turn": [window.turn if window else None for window in windows],
    }
    made: dict[str, Any] = {name: _column(words) for name, words in texts.items()}
    made["certain"] = np.array([window is not None and window.turn is not None for window in windows], dtype=bool)
    for end in ("first", "last"):
        times = [NOT_A_TIME if window is None else _time(getattr(window, end), window.tick) for window in windows]
        made[end] = np.array(times, dtype="datetime64[ms]")
    made["seen_s"] = np.array([contact.seconds for _, contact in rows], dtype=float)
    made["seen_utc"] = np.array([_utc(contact.seconds) for _, contact in rows], dtype="datetime64[ms]")
    return frame_of(made, {"rows": "a moment of an entry each"})


def _column(words: Sequence[Any]) -> Any:
    """A column of texts."""
    made = np.empty(len(words), dtype=object)
    made[:] = words
    return made


def _time(ticks: int, tick: int) -> np.datetime64:
    """Ticks since J2000 (TDB) on its calendar."""
    made: np.datetime64 = calendar_of(milliseconds_of(np.array([ticks]), tick))[0]
    return made


def _utc(seconds: float) -> np.datetime64:
    """A time of UTC to the nearest millisecond; NaT before there is one."""
    if not np.isfinite(seconds) or _time(round(seconds), 1) < np.datetime64(f"{FIRST_UTC_YEAR}-01-02", "ms"):
        return NOT_A_TIME
    return np.datetime64(utc_of(seconds + 5e-4).replace(tzinfo=None), "ms")

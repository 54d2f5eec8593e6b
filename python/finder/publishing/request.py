"""The line by which a report and a certificate name their request, of the options of a search, without the program."""

from __future__ import annotations

from collections.abc import Sequence

from ..ephemeris.order import content_of, seconds_of_date
from ..process.messages import shown
from ..reports.calendar import WrongReport, ticks_of, time_text
from .catalogue import Refused, Search

DEFAULTS = {"second": "-", "observer": "ssb", "frame": "eq", "axis": "-", "dir": "any", "tick": "1"}
NUMBERS = {"width": "1", "depth": "40"}
VALUES = ("ref", "radius1", "radius2")


def request_of(search: Search, files: Sequence[str]) -> str:
    """The line of a search over files, as `finder find` prints it first.

    >>> options = "--kind apsis --target moon --observer earth --from 2000-02-01T00:00:00 --to 2000-03-01T00:00:00"
    >>> print(request_of(Search("moon", options.split()), []))
    FIND apsis target moon second - observer earth frame eq axis - values - dir any width 1 depth 40 cut half span \
2000-02-01T00:00:00 2000-03-01T00:00:00
    """
    given = _options_of(search)
    words = {**DEFAULTS, **given}
    try:
        tick = int(words["tick"])
        numbers = {name: int(given.get(name, default)) for name, default in NUMBERS.items()}
        start, end = _span_of(given, tick, files)
    except (ValueError, KeyError) as error:
        raise Refused(f"{search.name}: its options have another form than those of a search: {shown(error)}") from None
    values = ",".join(given[name] for name in VALUES if name in given) or "-"
    return (
        f"FIND {given.get('kind', '-')} target {given.get('target', '-')} second {words['second']}"
        f" observer {words['observer']} frame {words['frame']} axis {words['axis']} values {values} dir {words['dir']}"
        f" width {numbers['width']} depth {numbers['depth']} cut {given.get('cut', 'half')}"
        f"{' tick 1000' if tick == 1_000 else ''} span {time_text(start, tick)} {time_text(end, tick)}"
    )


def _options_of(search: Search) -> dict[str, str]:
    """The values of the options of a search, by their names."""
    given: dict[str, str] = {}
    words = iter(search.options)
    for word in words:
        name, sign, value = word.removeprefix("--").partition("=")
        given[name] = value if sign else next(words, "")
    return given


def _span_of(given: dict[str, str], tick: int, files: Sequence[str]) -> tuple[int, int]:
    """The ticks at which the span begins and ends: those of the files where they are not named."""
    if "from" in given and "to" in given:
        return _ticks_of(given["from"], tick), _ticks_of(given["to"], tick)
    blocks = [days for name in files if (content := content_of(name)) for days in content.blocks]
    if not blocks:
        raise Refused("the files have no block that tells their span")
    first, last = blocks[0].first, max(days.last for days in blocks)
    start = _ticks_of(given["from"], tick) if "from" in given else seconds_of_date(first) * tick
    end = _ticks_of(given["to"], tick) if "to" in given else seconds_of_date(last) * tick
    return start, end


def _ticks_of(word: str, tick: int) -> int:
    """The ticks of a time as the program takes it: a time of the calendar, or whole seconds since J2000."""
    if "T" not in word:
        return int(word) * tick
    try:
        return ticks_of(word, tick)
    except WrongReport:
        return ticks_of(f"{word}.000" if tick == 1_000 else word, tick)

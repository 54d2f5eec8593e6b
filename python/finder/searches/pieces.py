"""A search in parts: as many as are named, or as it takes where two bodies almost cancel.

Seen from another planet, Moon and Earth stand so near to one another that the bounds of a long span tell them apart at
no tick: beyond some years the tree of such a search has many millions of leaves, and takes minutes. In parts of a year
it takes a second. Parts that are cut at borders of blocks have the windows of the whole (`docs/guide/many-machines.md`).
"""

from __future__ import annotations

from collections.abc import Sequence
from typing import Any, Optional

from ..ephemeris.order import Content, content_of, seconds_of_date
from ..process.program import OverBudget, Runs
from ..reports.calendar import DAY, WrongReport, ticks_of, time_text
from ..reports.plans import count_of_years, cut
from ..reports.report import Summary
from .options import Parts, Progress
from .words import count

# Bodies that are near to one another, as another planet sees them.
NEIGHBOURS = {"earth", "moon", "emb"}
# The seconds that a part of a search for such bodies may take before it is cut again.
BUDGET = 4.0
Span = tuple[int, int]


def reports_of(
    command: str, options: dict[str, Any], names: Sequence[str], runs: Runs, parts: Parts, progress: Optional[Progress]
) -> list[str]:
    """What the program prints for the parts of a search, in order of time."""
    search = _Search(command, options, names, runs)
    if parts != "auto":
        count("parts", parts)
    if parts == 1 or (parts == "auto" and progress is None and not almost_cancel(options)):
        return [search.run(None)]
    files = _Files(names)
    if files.length is None:
        return [search.run(None)]
    spans = files.plan(options, parts)
    texts: list[str] = []
    for span in spans:
        texts += search.run_in_halves(span, files) if parts == "auto" and almost_cancel(options) else [search.run(span)]
        if progress is not None:
            progress(1)
    return texts


def almost_cancel(options: dict[str, Any]) -> bool:
    """Whether both bodies are of Earth, Moon and their barycentre, and the observer is none of these."""
    bodies = {options["target"], options["second"]}
    return bodies <= NEIGHBOURS and len(bodies) == 2 and options["observer"] not in NEIGHBOURS


class _Files:
    """The span of files, and the length of their blocks in seconds: None where it is not known."""

    def __init__(self, names: Sequence[str]) -> None:
        contents = [content_of(name) for name in names]
        known = [content for content in contents if content is not None and content.blocks]
        self._known: list[Content] = known
        self.length: Optional[int] = None
        if known and len(known) + sum(content is not None and not content.blocks for content in contents) == len(names):
            days = known[0].blocks[0]
            self.start = seconds_of_date(days.first)
            self.end = max(seconds_of_date(content.blocks[-1].last) for content in known)
            self.length = round((days.last - days.first) * DAY)

    def plan(self, options: dict[str, Any], parts: Parts) -> list[Span]:
        """The parts of a search, in milliseconds since J2000: as many as are named, of a year, or those of files."""
        low, high = (_milliseconds(options[name], options["tick"]) for name in ("from", "to"))
        low = self.start * 1_000 if low is None else low
        high = self.end * 1_000 if high is None else high
        if not self.start * 1_000 <= low < high <= self.end * 1_000:
            # (the program says what is wrong with it)
            return [(low, high)]
        if parts != "auto":
            return self.cut(int(parts), low, high)
        if almost_cancel(options):
            return self.cut(count_of_years(self.summary, low, high), low, high)
        begins = [seconds_of_date(content.blocks[0].first) * 1_000 for content in self._known]
        ends = [low, *(begin for begin in begins if low < begin < high), high]
        return list(zip(ends, ends[1:]))

    def cut(self, parts: int, low: int, high: int) -> list[Span]:
        """At most so many parts of a span, cut at borders of blocks."""
        return cut(parts, self.summary, low, high)

    @property
    def summary(self) -> Summary:
        """Their span and the length of their blocks, as `check` says them."""
        length = self.length or 1
        return Summary(self.start, self.end, length, (self.end - self.start) // length, 0, {})


class _Search:
    """A search of which parts are run."""

    def __init__(self, command: str, options: dict[str, Any], names: Sequence[str], runs: Runs) -> None:
        self._command = command
        self._options = options
        self._names = names
        self._runs = runs

    def run(self, span: Optional[Span], budget: Optional[float] = None) -> str:
        """What the program prints for a span in milliseconds since J2000, or for that of the options."""
        options = dict(self._options)
        if span is not None:
            options["from"], options["to"] = (self._time(end) for end in span)
        words = [f"--{name}={value}" for name, value in options.items() if value is not None]
        return self._runs.run([self._command, *words, "--", *self._names], budget)

    def _time(self, milliseconds: int) -> str:
        """A time as the program takes it: with milliseconds where these are ticks."""
        tick = int(self._options["tick"])
        return time_text(milliseconds * tick // 1_000, tick)

    def run_in_halves(self, span: Span, files: _Files) -> list[str]:
        """What the program prints for a span, or for its halves where it takes too long, down to a block each."""
        halves = files.cut(2, *span)
        if len(halves) == 1:
            return [self.run(span)]
        try:
            return [self.run(span, BUDGET)]
        except OverBudget:
            return [text for half in halves for text in self.run_in_halves(half, files)]


def _milliseconds(text: Optional[str], tick: int) -> Optional[int]:
    """A time that was written for the program, in milliseconds since J2000."""
    if text is None:
        return None
    try:
        return ticks_of(text, tick) * 1_000 // tick
    except WrongReport:
        return None

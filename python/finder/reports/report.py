"""What the program prints, as it stands: reports of windows, sets and certificates, with their texts."""

from __future__ import annotations

import re
from dataclasses import dataclass
from typing import NamedTuple, Optional, Union

from ..public import public, renamed
from .calendar import WrongReport, ticks_of, time_text


# The words of a request between its kind and what is looked for, and those after it.
ASKED = (
    r" target (?P<target>[a-z]+) second (?P<second>[a-z]+|-) observer (?P<observer>[a-z]+) frame (?P<frame>eq|ecl)"
    r" axis (?P<axis>[xyz-]) values (?P<values>\S+)"
)
LIMITS = r" width (?P<width>[0-9]+) depth (?P<depth>[0-9]+) cut (?P<cut>half|third)(?P<tick> tick 1000)?"
REQUEST = re.compile(rf"FIND (?P<kind>[a-z]+){ASKED} dir (?P<dir>any|rise|fall){LIMITS}")
SET_REQUEST = re.compile(
    rf"SET (?P<kind>coord|radius|apsis|station|sep|sepext){ASKED}"
    rf" relation (?P<relation>less|atleast|within|outside){LIMITS}"
)


class Window(NamedTuple):
    """A window of a report: its first and its last tick since J2000 (TDB), and its turn, which is `rise` or `fall`
    where the window is certain, and None where it is undecided."""

    first: int
    last: int
    turn: Optional[str]


@dataclass(frozen=True)
class OfSearch:
    """What a search printed: its request, without its span, the ticks in a second, and the first and last tick of its
    span."""

    request: str
    tick: int
    start: int
    end: int

    @property
    def request_words(self) -> dict[str, str]:
        """The words of the request by their names: kind, target, second, observer and so on."""
        return words_of(self.request, SET_REQUEST if self.request.startswith("SET ") else REQUEST)

    asked = renamed("asked", "request_words")

    @property
    def span(self) -> str:
        """The span as the request has it."""
        return span_text(self.start, self.end, self.tick)


@dataclass(frozen=True)
class Report(OfSearch):
    """What `finder find` prints: the request, without its span, the ticks in a second, the ticks after which and up to
    which it looked, and its windows in order."""

    windows: tuple[Window, ...]

    def text(self) -> str:
        """The report, letter for letter as the command prints it."""
        lines = [f"{self.request} span {self.span}"]
        for first, last, turn in self.windows:
            times = span_text(first, last, self.tick)
            lines.append(f"C {times} {turn}" if turn else f"U {times}")
        certain = sum(window.turn is not None for window in self.windows)
        lines.append(f"END certain {certain} undecided {len(self.windows) - certain}")
        return "\n".join(lines) + "\n"


@dataclass(frozen=True)
class SetReport(OfSearch):
    """What `finder set` prints: the request, without its span, the ticks in a second, the first and the last tick of
    the span, and the first and last ticks of its sure and of its possible times, in order."""

    sure: tuple[tuple[int, int], ...]
    possible: tuple[tuple[int, int], ...]

    def text(self) -> str:
        """The report, letter for letter as the command prints it."""
        lines = [f"{self.request} span {self.span}"]
        for letter, rows in (("S", self.sure), ("P", self.possible)):
            lines += [f"{letter} {span_text(first, last, self.tick)}" for first, last in rows]
        lines.append(f"END sure {len(self.sure)} possible {len(self.possible)}")
        return "\n".join(lines) + "\n"


class Piece(NamedTuple):
    """A piece of a certificate: the ticks since J2000 after which and up to which it lies, how many cuts by the rule
    lead to it, and its mark, which is `N`, `R`, `F` or `U`."""

    after: int
    upto: int
    depth: int
    mark: str


@dataclass(frozen=True)
class CertificateText(OfSearch):
    """What `finder cert` prints: the request, without its span, the ticks in a second, the span in ticks, and the
    pieces, which follow one another over it."""

    pieces: tuple[Piece, ...]

    def text(self) -> str:
        """The certificate, letter for letter as the command prints it."""
        lines = [f"L {after} {upto} {depth} {mark}" for after, upto, depth, mark in self.pieces]
        return "\n".join(["CERT 1", f"{self.request} span {self.span}", *lines, f"END leaves {len(lines)}", ""])


Part = Union[Report, SetReport, CertificateText]


@public
@dataclass(frozen=True)
class Summary:
    """What `finder check` prints of files: seconds since J2000 (TDB) at which they begin and end, the seconds of a
    block, how many blocks there are and numbers in each, and for each column its coefficients and its granules.

    >>> import finder
    >>> found = finder.check("examples/de405-2000.asc")
    >>> found.end - found.start == found.block * found.blocks
    True
    """

    start: int
    end: int
    block: int
    blocks: int
    ncoeff: int
    columns: dict[str, tuple[int, int]]


def read_head(line: str, form: re.Pattern[str]) -> tuple[str, int, int, int]:
    """The first line of a report: the request, which has this form, the ticks in a second, and the span in ticks."""
    request, found, span = line.partition(" span ")
    asked = form.fullmatch(request)
    times = span.split(" ")
    if not (found and asked and len(times) == 2):
        raise WrongReport(f"no first line of a report: {line}")
    tick = 1_000 if asked["tick"] else 1
    start, end = (ticks_of(time, tick) for time in times)
    if not start < end:
        raise WrongReport(f"a span without times: {line}")
    return request, tick, start, end


def words_of(request: str, form: re.Pattern[str]) -> dict[str, str]:
    """The words of a request by their names."""
    found = form.fullmatch(request)
    return {name: word or "1" for name, word in found.groupdict().items()} if found else {}


def span_text(start: int, end: int, tick: int) -> str:
    """A span, or a window, as a report has it."""
    return f"{time_text(start, tick)} {time_text(end, tick)}"

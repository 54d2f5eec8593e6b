"""What is written to standard output: reports of windows, of sets and of files. Every line ends with a line feed."""

from __future__ import annotations

from typing import Callable, Iterable, Sequence

from .ephemeris import Ephemeris
from .requests import GenerateRequest, ScalarRequest, SearchRequest
from .searches import Window
from .sets import TickSet
from .times import time_text
from .verdicts import Verdict

COLUMN_NAMES = (
    "mercury venus emb mars jupiter saturn uranus neptune pluto moon sun nutations librations column14 column15".split()
)
AXES = "xyz"

Clock = Callable[[int], str]
"""Writes a time."""


def as_text(lines: Iterable[bytes]) -> bytes:
    """Lines, each with its end."""
    return b"".join(line + b"\n" for line in lines)


def clock_of(tick: int) -> Clock:
    """The calendar form of ticks, of which so many are a second."""
    return lambda time: time_text(time, tick)


def request_line(request: SearchRequest, first: int, last: int) -> bytes:
    """The first line of a report: the request, with each option that is not given at its default, and the span."""
    query, clock = request.query, clock_of(request.tick)
    command = "SET" if request.relation else "FIND"
    axis = AXES[query.axis] if query.kind == "coord" else "-"
    head = f"{command} {query.kind} target {query.target} second {query.second or '-'} observer {query.observer}"
    head += f" frame {query.frame} axis {axis} values "
    wanted = f"relation {request.relation}" if request.relation else f"dir {query.direction}"
    tail = f" {wanted} width {request.width} depth {request.depth} cut {request.cut}"
    tail += f" tick {request.tick}" if request.tick > 1 else ""
    return head.encode() + request.values + f"{tail} span {clock(first)} {clock(last)}".encode()


def scalar_line(request: ScalarRequest) -> bytes:
    """The first line of the report of a polynomial."""
    tail = f" dir {request.direction} width {request.width} depth {request.depth} cut {request.cut}"
    return b"SCALAR quad " + request.text + f"{tail} span {request.first} {request.last}".encode()


def counts_line(windows: Sequence[Window]) -> bytes:
    """How many windows there are of both kinds."""
    undecided = sum(window.verdict is Verdict.UNDECIDED for window in windows)
    return b"END certain %d undecided %d" % (len(windows) - undecided, undecided)


def window_lines(windows: Sequence[Window], clock: Clock = str) -> list[bytes]:
    """A line for each window, in order of time, and the counts."""
    lines = []
    for first, last, verdict in windows:
        span = f"{clock(first)} {clock(last)}"
        is_open = verdict is Verdict.UNDECIDED
        lines.append(f"U {span}" if is_open else f"C {span} {verdict.name.lower()}")
    return [line.encode() for line in lines] + [counts_line(windows)]


def set_lines(ticks: TickSet, clock: Clock) -> list[bytes]:
    """A line for each run of sure ticks, one for each run of possible ones, and the counts."""
    runs = [("S", *run) for run in ticks.sure] + [("P", *run) for run in ticks.possible]
    lines = [f"{letter} {clock(first)} {clock(last)}" for letter, first, last in runs]
    lines.append(f"END sure {len(ticks.sure)} possible {len(ticks.possible)}")
    return [line.encode() for line in lines]


def generation_line(request: GenerateRequest, size: int) -> bytes:
    """The line of a generated text, with its length in bytes."""
    return b"GEN 405 blocks %d seed %d bytes %d" % (request.blocks, request.seed, size)


def summary_lines(ephemeris: Ephemeris) -> list[bytes]:
    """The line of an ephemeris, and one for each column that is present."""
    header, clock = ephemeris.header, clock_of(1)
    first = f"CHECK start {clock(ephemeris.start)} end {clock(ephemeris.end)}"
    first += f" block {header.block_seconds} blocks {len(ephemeris.blocks)} ncoeff {header.ncoeff}"
    lines = [first]
    for name, column in zip(COLUMN_NAMES, header.columns):
        if column.is_present:
            lines.append(f"COLUMN {name} coefficients {column.coefficients} granules {column.granules}")
    return [line.encode() for line in lines]

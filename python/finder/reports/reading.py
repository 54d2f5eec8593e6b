"""Reads what the program printed: each line is checked, and the counts of the last one."""

from __future__ import annotations

import re
from collections.abc import Callable, Iterator
from typing import TypeVar

from .calendar import WrongReport, ticks_of
from .report import (
    REQUEST,
    SET_REQUEST,
    CertificateText,
    Part,
    Piece,
    Report,
    SetReport,
    Summary,
    Window,
    read_head,
)

CERTAIN = re.compile(r"C (\S+) (\S+) (rise|fall)")
UNDECIDED = re.compile(r"U (\S+) (\S+)")
COUNTS = re.compile(r"END certain (0|[1-9][0-9]*) undecided (0|[1-9][0-9]*)")
SUMMARY = re.compile(r"CHECK start (\S+) end (\S+) block ([0-9]+) blocks ([0-9]+) ncoeff ([0-9]+)")
COLUMN = re.compile(r"COLUMN ([a-z]+[0-9]*) coefficients ([0-9]+) granules ([0-9]+)")
SET_LINE = re.compile(r"([SP]) (\S+) (\S+)")
SET_COUNTS = re.compile(r"END sure (0|[1-9][0-9]*) possible (0|[1-9][0-9]*)")
PIECE = re.compile(r"L (-?[0-9]{1,15}) (-?[0-9]{1,15}) ([0-9]{1,2}) ([NRFU])")
PIECES = re.compile(r"END leaves ([0-9]{1,8})")


def _window(line: str, head: Report, asked: dict[str, str], after: int) -> Window:
    """A line of a window, which begins after a time, within the span of a report; a certain one is in the direction
    that is asked for, and no wider than asked."""
    found = CERTAIN.fullmatch(line) or UNDECIDED.fullmatch(line)
    if not found:
        raise WrongReport(f"no line of a report: {line}")
    turn = found[3] if line.startswith("C") else None
    window = Window(ticks_of(found[1], head.tick), ticks_of(found[2], head.tick), turn)
    if not after < window.first <= window.last <= head.end:
        raise WrongReport(f"a window outside of the span, or not after the one before: {line}")
    if turn and asked["dir"] not in ("any", turn):
        raise WrongReport(f"a window in a direction that was not asked for: {line}")
    if turn and window.last - window.first >= int(asked["width"]):
        raise WrongReport(f"a certain window that is wider than the width: {line}")
    return window


class _Lines:
    """The lines of a text, and the number of the last one that was read."""

    def __init__(self, text: str) -> None:
        self._lines = text.split("\n")[:-1]
        self.number = 0

    def has_more(self) -> bool:
        """Whether a line is left."""
        return self.number < len(self._lines)

    def first_word(self) -> str:
        """That of the next line."""
        return self._lines[self.number].split(" ")[0]

    def read(self) -> str:
        """The next line."""
        self.number += 1
        return self._lines[self.number - 1]

    def rest(self) -> Iterator[str]:
        """The lines that are left, as far as they are wanted."""
        while self.has_more():
            yield self.read()


def _one_report(lines: _Lines) -> Report:
    """The report that begins at the next line."""
    first = lines.read()
    head = Report(*read_head(first, REQUEST), ())
    asked = head.request_words
    windows: list[Window] = []
    for line in lines.rest():
        if line.startswith("END"):
            certain = sum(window.turn is not None for window in windows)
            found = COUNTS.fullmatch(line)
            if not found or (int(found[1]), int(found[2])) != (certain, len(windows) - certain):
                raise WrongReport(
                    f"the counts are {certain} and {len(windows) - certain}, and the last line says: {line}"
                )
            return Report(head.request, head.tick, head.start, head.end, tuple(windows))
        windows.append(_window(line, head, asked, windows[-1].last if windows else head.start))
    raise WrongReport(f"a report without its last line: {first}")


def _one_set(lines: _Lines) -> SetReport:
    """The set that begins at the next line."""
    head = lines.read()
    request, tick, start, end = read_head(head, SET_REQUEST)
    found: dict[str, list[tuple[int, int]]] = {"S": [], "P": []}
    for line in lines.rest():
        if line.startswith("END"):
            counts = SET_COUNTS.fullmatch(line)
            if not counts or (int(counts[1]), int(counts[2])) != (len(found["S"]), len(found["P"])):
                raise WrongReport(
                    f"the counts are {len(found['S'])} and {len(found['P'])}, and the last line says: {line}"
                )
            return SetReport(request, tick, start, end, tuple(found["S"]), tuple(found["P"]))
        row = SET_LINE.fullmatch(line)
        if not row or (row[1] == "S" and found["P"]):
            raise WrongReport(f"no line of a report, or not in its place: {line}")
        before, first, last = found[row[1]], ticks_of(row[2], tick), ticks_of(row[3], tick)
        if not (before[-1][1] + 2 if before else start) <= first <= last <= end:
            raise WrongReport(f"a span outside of the report's, or one that is not after the one before: {line}")
        before.append((first, last))
    raise WrongReport(f"a report without its last line: {head}")


def _one_certificate(lines: _Lines) -> CertificateText:
    """The certificate that begins at the next line."""
    mark = lines.read()
    if mark != "CERT 1" or not lines.has_more():
        raise WrongReport(f"no first lines of a certificate: {mark}")
    head = lines.read()
    request, tick, start, end = read_head(head, REQUEST)
    pieces: list[Piece] = []
    upto = start
    for line in lines.rest():
        found, last = PIECE.fullmatch(line), PIECES.fullmatch(line)
        if last and upto == end and int(last[1]) == len(pieces):
            return CertificateText(request, tick, start, end, tuple(pieces))
        if not found or int(found[1]) != upto or not upto < int(found[2]) <= end:
            raise WrongReport(f"no line of a certificate, or not after the one before: {line}")
        pieces.append(Piece(upto, int(found[2]), int(found[3]), found[4]))
        upto = pieces[-1].upto
    raise WrongReport(f"a certificate without its last line: {head}")


READERS: dict[str, Callable[[_Lines], Part]] = {"SET": _one_set, "CERT": _one_certificate}


def numbered_parts(text: str) -> Iterator[tuple[int, Part]]:
    """The reports, sets and certificates that stand one after the other in a text, each with the number of its first
    line. Each line is checked, and the counts of the last one; what is wrong has the number of its line."""
    lines = _Lines(text)
    try:
        while lines.has_more():
            first = lines.number + 1
            yield first, READERS.get(lines.first_word(), _one_report)(lines)
    except WrongReport as error:
        if not lines.has_more():
            _refuse_cut_off(text, lines)
        error.line_number = lines.number
        raise
    _refuse_cut_off(text, lines)


def _refuse_cut_off(text: str, lines: _Lines) -> None:
    """Refuses a text whose last line has no line feed, once all lines before it were read."""
    if text and not text.endswith("\n"):
        error = WrongReport("the last line is cut off")
        error.line_number = lines.number + 1
        raise error


def read_parts(text: str) -> list[Part]:
    """The reports, sets and certificates that stand one after the other in a text. Each line is checked, and the counts
    of the last one."""
    return [part for _, part in numbered_parts(text)]


T = TypeVar("T", Report, SetReport, CertificateText)


def one_of(text: str, kind: type[T]) -> T:
    """The one part of a text, which has to be of a kind."""
    parts = read_parts(text)
    if len(parts) != 1 or not isinstance(parts[0], kind):
        raise WrongReport(f"{len(parts)} texts in place of one, or of another command")
    return parts[0]


def read_report(text: str) -> Report:
    """The one report of a text."""
    return one_of(text, Report)


def read_summary(text: str) -> Summary:
    """The summary of a text that `finder check` printed."""
    head, *columns = text.split("\n")
    found = SUMMARY.fullmatch(head)
    rows = [COLUMN.fullmatch(line) for line in columns[:-1]]
    if not found or not all(rows) or columns[-1:] != [""]:
        raise WrongReport("no summary of files")
    block, blocks, ncoeff = (int(word) for word in found.groups()[2:])
    summary = Summary(
        ticks_of(found[1]),
        ticks_of(found[2]),
        block,
        blocks,
        ncoeff,
        {row[1]: (int(row[2]), int(row[3])) for row in rows if row},
    )
    if summary.end - summary.start != block * blocks:
        raise WrongReport("a summary whose blocks do not fill its span")
    return summary

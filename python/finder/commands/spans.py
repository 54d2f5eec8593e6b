"""Cuts the span of a search into parts, and joins the reports of the parts into the report of the whole.

    tools/spans cut [--from TIME] [--to TIME] N FILE..
    tools/spans cut [--from TIME] [--to TIME] --parts auto FILE..
    tools/spans files [--header FILE] [--from TIME] [--to TIME] FILE..
    tools/spans join [--header FILE] [--file FILE] PLAN [REPORT..]
    tools/spans missing PLAN REPORT..

A plan has a line `FROM TO` for each part, in order, each beginning where the one before ended; a part is the times
after FROM and up to TO. `cut` prints one of at most N parts, cut at borders of blocks, or with `--parts auto` one of
parts of a year each, in which bodies that almost cancel, as Moon and Earth from another planet, are found soon. `files`
prints one with a part
for each file, and the file's name as a third word: FILE.. are files in order of time that each begin with the last
block of the one before, as JPL's do, and each is read after the header, or alone where it has a header of its own. Then

    finder find OPTIONS --from=FROM --to=TO FILE..

is a part's report, for which the word `=` is needed: a year below 0 begins with `-`. `join` reads the reports, from the
files that are named or from its input, and prints the report of the whole. It refuses reports that are cut off or whose
counts are wrong, reports of different requests, and any that are not those of the plan, in its order: none missing,
none twice, none that overlap or leave times out. Nothing is printed then, and standard error names the part, its file
and its line. `missing` reads a file for each part, and prints the numbers of those that are not there, or have no whole
report of their part.

Sets, which `finder set` prints, are joined in the same way, and so are certificates, which `finder cert` prints: those
of parts that meet at a border of a column in use, or one tick before one, as all parts of `cut` and `files` do. Where
the borders are, `finder check` says: of the first file that the plan names, or of --file, each after --header.

TIME is a time of TDB as `finder` takes it: `2000-05-01T00:00:00`, with three digits more where a search counts
milliseconds, or a whole number of seconds since J2000. The command is $FINDER, or the one that was installed beside
this file, or the clone's that this file is in, or `finder` on the path.

Status: 0; 1 refused, and standard error says why; 2 the words; 3 a file could not be read, or standard output failed.
"""

from __future__ import annotations

import argparse
import os
import re
import signal
import sys
from collections.abc import Sequence
from pathlib import Path
from typing import NamedTuple, Optional

from ..ephemeris.order import WrongFiles, refuse_lost
from ..process.guard import run_guarded
from ..process.messages import fault_of, shown, shown_lines
from ..process.path import NoProgram, find_program
from ..reports.calendar import WrongReport, ticks_of, time_text
from ..reports.joining import WrongParts, join_parts
from ..reports.plans import count_of_years, cut, spans_of_files
from ..reports.reading import numbered_parts, read_summary
from ..reports.report import Part, Summary
from .streams import read, write

SECONDS = re.compile(r"[+-]?[0-9]{1,12}")


def milliseconds_of(text: str) -> int:
    """A time as the command takes it, in milliseconds since J2000."""
    if SECONDS.fullmatch(text):
        return int(text) * 1_000
    try:
        return ticks_of(text if "." in text else f"{text}.000", 1_000)
    except WrongReport:
        raise argparse.ArgumentTypeError(f"no time: {shown(text)}") from None


def count_of(text: str) -> int:
    """How many parts there may be."""
    if not re.fullmatch("[0-9]{1,9}", text) or int(text) < 1:
        raise argparse.ArgumentTypeError(f"no count of parts: {shown(text)}")
    return int(text)


def plan_time(milliseconds: int) -> str:
    """A time of a plan, as short as it may be."""
    return time_text(milliseconds, 1_000).removesuffix(".000")


def check(names: Sequence[str]) -> Summary:
    """The summary of files, by the command, whose refusal is ours; files in an order that loses blocks are refused."""
    refuse_lost(names)
    done = run_guarded(find_program(), ["check", "--", *names])
    if done.status:
        said = os.fsdecode(done.err).strip()
        raise WrongParts(said or f"{' '.join(names)}: the program ended with status {done.status}")
    return read_summary(_ascii(done.out))


def read_plan(name: str) -> tuple[list[tuple[int, int]], Optional[str]]:
    """The spans of a plan, in milliseconds since J2000, and the first file where it names some."""
    text = os.fsdecode(Path(name).read_bytes())
    if not text.endswith("\n"):
        raise WrongParts(f"{shown(name)} is no plan: it has no part, or is cut off")
    spans = []
    lines = text.split("\n")[:-1]
    for number, line in enumerate(lines, 1):
        words = line.split(" ")
        try:
            first, last = (milliseconds_of(word) for word in words[:2])
        except (ValueError, argparse.ArgumentTypeError):
            raise WrongParts(f"{shown(name)} line {number}: no line of a plan: {shown(line)}") from None
        spans.append((first, last))
    return spans, "".join(lines[0].split(" ", 2)[2:]) or None


class Placed(NamedTuple):
    """A part, and where it stands: a file, and the line with which it begins."""

    part: Part
    place: str


class Reports:
    """The reports of a plan, from files or from standard input."""

    def __init__(self, spans: Sequence[tuple[int, int]], names: Sequence[str]) -> None:
        self._spans, self._names = spans, names
        # (where there is a file for each part, each file has one report)
        self._is_file_each = len(names) == len(spans) > 1

    def parts(self) -> list[Part]:
        """The reports, each of which has to be of the part of the plan at its place."""
        found: list[Placed] = []
        for number, name in enumerate(self._names, 1):
            found += self._of_text(name, self._bytes_of(number, name), len(found))
            if self._is_file_each and len(found) < number:
                raise WrongParts(f"{self._planned(number)}: {shown(name)} has no report")
            if self._is_file_each and len(found) > number:
                raise WrongParts(f"{self._planned(number)}: {found[number].place}: a second report of the part")
        if not self._names:
            found += self._of_text("standard input", read(), 0)
        for number in range(1, len(self._spans) + 1):
            self._refuse_other(number, found)
        if len(found) > len(self._spans):
            raise WrongParts(
                f"{found[len(self._spans)].place}: there are {len(found)} reports for {len(self._spans)} parts of the plan"
            )
        return [placed.part for placed in found]

    def _bytes_of(self, number: int, name: str) -> bytes:
        """The bytes of a file, which has the report of a part where there is a file for each."""
        try:
            return Path(name).read_bytes()
        except OSError as error:
            if not self._is_file_each or error.errno is None:
                raise
            raise OSError(error.errno, f"{error.strerror} ({self._planned(number)})", name) from None

    def missing(self) -> list[int]:
        """The numbers of the parts whose file is not there, or has no whole report of the part."""
        if len(self._names) != len(self._spans):
            raise WrongParts(f"{len(self._names)} files for {len(self._spans)} parts of the plan")
        numbers = []
        for number, name in enumerate(self._names, 1):
            try:
                found = self._of_text(name, Path(name).read_bytes(), number - 1)
                if len(found) != 1:
                    raise WrongParts("it has not one report")
                self._refuse_other_span(number, found[0])
            except (FileNotFoundError, WrongParts):
                numbers.append(number)
        return numbers

    def _planned(self, number: int) -> str:
        """What the plan says of a part."""
        first, last = self._spans[number - 1]
        return f"part {number} of the plan, {plan_time(first)} {plan_time(last)}"

    def _of_text(self, name: str, text: bytes, count: int) -> list[Placed]:
        """The reports of a text, behind so many others."""
        found: list[Placed] = []
        try:
            for line, part in numbered_parts(_ascii(text)):
                found.append(Placed(part, f"{shown(name)} line {line}"))
        except WrongReport as error:
            number = count + 1 + (0 if self._is_file_each else len(found))
            planned = self._planned(number) if number <= len(self._spans) else "a part that is not in the plan"
            raise WrongParts(f"{planned}: {shown(name)} line {error.line_number}: {shown(error)}") from None
        return found

    def _refuse_other(self, number: int, found: Sequence[Placed]) -> None:
        """Refuses a report that is missing, of another span, or of another request or command than the first."""
        if number > len(found):
            raise WrongParts(f"{self._planned(number)}, has no report")
        placed, first = found[number - 1], found[0]
        self._refuse_other_span(number, placed)
        if not isinstance(placed.part, type(first.part)) or placed.part.request != first.part.request:
            raise WrongParts(
                f"{self._planned(number)}: {placed.place}: it and part 1, {first.place}, are reports of different requests:"
                f" {placed.part.request} and {first.part.request}"
            )

    def _refuse_other_span(self, number: int, placed: Placed) -> None:
        """Refuses a report of another span than that of the plan's part."""
        first, last = self._spans[number - 1]
        part = placed.part
        if (part.start * 1_000, part.end * 1_000) != (first * part.tick, last * part.tick):
            raise WrongParts(f"{self._planned(number)}: {placed.place}: it is not the report's, {part.span}")


def _ascii(text: bytes) -> str:
    """A text of reports, which have no other letters than those of ASCII."""
    try:
        return text.decode("ascii")
    except UnicodeDecodeError as error:
        wrong = WrongReport(f"it has a byte that no report has: 0x{text[error.start]:02x}")
        wrong.line_number = text.count(b"\n", 0, error.start) + 1
        raise wrong from None


def planned_files(words: argparse.Namespace) -> list[str]:
    """The lines of a plan with a part for each file."""
    for name in words.files:
        if len(name.split()) != 1:
            raise WrongParts(f"a name with a blank cannot stand in a plan: {shown(name)}")
    headers = [] if words.header is None else [words.header]
    found = [check([*headers, name]) for name in words.files]
    parts = spans_of_files(words.files, found, words.start, words.end)
    return [f"{plan_time(begin)} {plan_time(stop)} {name}" for begin, stop, name in parts]


class Words(argparse.ArgumentParser):
    """Words whose help is written as all else is."""

    def print_help(self, file: object = None) -> None:
        """Writes the help to standard output."""
        write(os.fsencode(self.format_help()))


def parser(has_parts: bool) -> argparse.ArgumentParser:
    """The words that the tool takes: with `--parts` there is no N."""
    whole = Words(
        prog="spans", description=__doc__, allow_abbrev=False, formatter_class=argparse.RawDescriptionHelpFormatter
    )
    commands = whole.add_subparsers(dest="command", required=True)
    for name in ("cut", "files"):
        command = commands.add_parser(name, allow_abbrev=False)
        command.add_argument("--from", dest="start", type=milliseconds_of)
        command.add_argument("--to", dest="end", type=milliseconds_of)
        if name == "cut":
            command.add_argument("--parts", choices=["auto"])
            if not has_parts:
                command.add_argument("count", type=count_of, metavar="N")
        else:
            command.add_argument("--header")
        command.add_argument("files", nargs="+", metavar="FILE")
    for name in ("join", "missing"):
        command = commands.add_parser(name, allow_abbrev=False)
        if name == "join":
            command.add_argument("--header")
            command.add_argument("--file")
        command.add_argument("plan", metavar="PLAN")
        command.add_argument("reports", nargs="*" if name == "join" else "+", metavar="REPORT")
    return whole


def joined(words: argparse.Namespace) -> str:
    """The report, the set or the certificate of the whole of a plan."""
    spans, named = read_plan(words.plan)
    parts = Reports(spans, words.reports).parts()

    def check_files() -> Summary:
        files = [name for name in (words.header, words.file or named) if name]
        if not files:
            raise WrongParts("where the borders of certificates are, a file of theirs says: name one by --file")
        return check(files)

    return join_parts(parts, check_files).text()


def said(words: argparse.Namespace) -> str:
    """What the tool prints."""
    if words.command == "join":
        return joined(words)
    if words.command == "missing":
        spans, _ = read_plan(words.plan)
        return "".join(f"{number}\n" for number in Reports(spans, words.reports).missing())
    if words.command == "files":
        lines = planned_files(words)
    else:
        summary = check(words.files)
        count = count_of_years(summary, words.start, words.end) if words.parts else words.count
        parts = cut(count, summary, words.start, words.end)
        lines = [f"{plan_time(begin)} {plan_time(stop)}" for begin, stop in parts]
    return "".join(f"{line}\n" for line in lines)


def main() -> int:
    """Does what the words ask for, and returns the status."""
    signal.signal(signal.SIGINT, signal.SIG_DFL)
    has_parts = any(word.partition("=")[0] == "--parts" for word in sys.argv[1:])
    try:
        write(os.fsencode(said(parser(has_parts).parse_args())))
    except (WrongReport, WrongParts, WrongFiles, NoProgram) as error:
        print(f"spans: {shown_lines(error)}", file=sys.stderr)
        return 1
    except OSError as error:
        print(f"spans: {fault_of(error)}", file=sys.stderr)
        return 3
    return 0

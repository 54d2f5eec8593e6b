"""Joins the reports of neighbouring spans into the report of the whole."""

from __future__ import annotations

from collections.abc import Callable, Iterable, Sequence
from typing import TypeVar

from ..public import public
from .report import CertificateText, Part, Report, SetReport, Summary, Window

T = TypeVar("T", Report, SetReport, CertificateText)
# The bodies that are not read from a column of their own alone, and the columns that they need.
MADE_OF = {"earth": ("emb", "moon"), "moon": ("emb", "moon"), "ssb": ()}


@public
class WrongParts(ValueError):
    """Reports or files that are not those of neighbouring spans of one search.

    >>> import finder
    >>> year = "examples/de405-2000.asc"
    >>> months = ("2000-02", "2000-03"), ("2000-04", "2000-05")
    >>> parts = [finder.apsides(year, "moon", *month, observer="earth") for month in months]
    >>> try:
    ...     finder.join(parts)
    ... except finder.WrongParts as error:
    ...     print(str(error)[-11:])
    do not meet
    """


def _in_order(parts: Iterable[T]) -> list[T]:
    """Parts of one request whose spans follow one another."""
    made: list[T] = []
    for number, part in enumerate(parts, 1):
        before = made[-1] if made else part
        if type(part) is not type(before) or part.request != before.request:
            raise WrongParts(
                f"parts {number - 1} and {number} are reports of different requests: {before.request} and {part.request}"
            )
        if made and part.start != before.end:
            how = "overlap" if part.start < before.end else "do not meet"
            raise WrongParts(f"parts {number - 1} and {number}: the spans {before.span} and {part.span} {how}")
        made.append(part)
    if not made:
        raise WrongParts("no report")
    return made


def join(reports: Iterable[Report]) -> Report:
    """The report of the whole span, of the reports of its parts in order. An undecided window that ends where a part
    ends, and one that begins at the next tick, are one."""
    parts = _in_order(reports)
    windows: list[Window] = []
    for report in parts:
        later = report.windows
        if windows and later and windows[-1].turn is None and later[0].turn is None:
            if windows[-1].last == report.start and later[0].first == report.start + 1:
                later = (Window(windows.pop().first, later[0].last, None), *later[1:])
        windows += later
    return Report(parts[0].request, parts[0].tick, parts[0].start, parts[-1].end, tuple(windows))


def join_sets(sets: Iterable[SetReport]) -> SetReport:
    """The set of the whole span, of those of its parts in order: at the time at which two parts meet, which is in both,
    the earlier one counts. Spans that touch are one."""
    parts = _in_order(sets)
    found: tuple[list[tuple[int, int]], list[tuple[int, int]]] = ([], [])
    for number, part in enumerate(parts):
        after = part.start - 1 if number == 0 else part.start
        for rows, later in zip(found, (part.sure, part.possible)):
            for first, last in later:
                if rows and rows[-1][1] >= max(first, after + 1) - 1:
                    rows[-1] = (rows[-1][0], max(last, rows[-1][1]))
                elif last > after:
                    rows.append((max(first, after + 1), last))
    return SetReport(parts[0].request, parts[0].tick, parts[0].start, parts[-1].end, tuple(found[0]), tuple(found[1]))


def columns_in_use(asked: dict[str, str]) -> set[str]:
    """The columns of which the bodies of a request are made, as its observer sees them: between the Earth and the Moon
    it is the Moon's alone."""
    observer, columns = asked["observer"], set()
    for body in (asked["target"], asked["second"]):
        if {body, observer} == {"earth", "moon"}:
            columns.add("moon")
        elif body != "-":
            columns |= {*MADE_OF.get(body, (body,)), *MADE_OF.get(observer, (observer,))}
    return columns


def is_seam(time: int, tick: int, summary: Summary, columns: set[str]) -> bool:
    """Whether a granule of one of these columns begins at a tick or at the next one."""
    lengths = {summary.block * tick // summary.columns[name][1] for name in columns}
    return any((time + later - summary.start * tick) % length == 0 for length in lengths for later in (0, 1))


def join_certificates(certificates: Iterable[CertificateText], summary: Summary) -> CertificateText:
    """The certificate of the whole span, of those of its parts in order, each of which ends at a border of a column in
    use of the files, or one tick before one: the pieces of all, one after the other."""
    parts = _in_order(certificates)
    columns = columns_in_use(parts[0].request_words)
    for number, (before, part) in enumerate(zip(parts, parts[1:]), 1):
        if not is_seam(part.start, part.tick, summary, columns):
            raise WrongParts(
                f"parts {number} and {number + 1}: the certificates of {before.span} and {part.span} meet at no border"
                f" of {', '.join(sorted(columns))}, nor one tick before one: cut the span by `cut` or `files`"
            )
    pieces = tuple(piece for part in parts for piece in part.pieces)
    return CertificateText(parts[0].request, parts[0].tick, parts[0].start, parts[-1].end, pieces)


def join_parts(parts: Sequence[Part], check_files: Callable[[], Summary]) -> Part:
    """The report, the set or the certificate of the whole; certificates want the summary of the files."""
    reports = [part for part in parts if isinstance(part, Report)]
    sets = [part for part in parts if isinstance(part, SetReport)]
    certificates = [part for part in parts if isinstance(part, CertificateText)]
    if len(reports) == len(parts):
        return join(reports)
    if len(sets) == len(parts):
        return join_sets(sets)
    if len(certificates) == len(parts):
        return join_certificates(certificates, check_files())
    number = next(at for at, part in enumerate(parts, 1) if not isinstance(part, type(parts[0])))
    raise WrongParts(f"part {number} is of another command than part 1: reports, sets and certificates are not joined")

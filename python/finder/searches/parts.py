"""Searches over files one by one, by threads or by an executor, and their windows, sets or certificates joined."""

from __future__ import annotations

import concurrent.futures
import os
from collections.abc import Callable, Iterable, Sequence
from typing import Any, Optional, TypeVar, Union

from .. import spans
from ..ephemeris.named import HasNames, some_of, words_of_request
from ..ephemeris.names import Files, file_names
from ..process.program import WAIT, Program, Runs, runs_of
from ..public import public
from ..reports.certificates import Certificate
from ..reports.sets import TimeSet
from ..reports.windows import Windows
from ..spans import Summary
from .search import check
from .times import Time, ticks_of_time
from .words import count

# What is called with the number of files that have been done since the last call, as tqdm's `update` takes it.
Progress = Callable[[int], object]
Found = TypeVar("Found", bound=Union[Windows, TimeSet, Certificate])


@public
def join(parts: Iterable[Found], files: Optional[Summary] = None) -> Found:
    """The windows, the set or the certificate of the whole span, of those of its parts, in order. `WrongParts` where
    they are of different requests, overlap or do not meet. Certificates have to meet at a border, or a tick before one:
    they want what `check` says of their files, or of one of these.

    >>> import finder
    >>> year = "examples/de405-2000.asc"
    >>> months = ("2000-02", "2000-03"), ("2000-03", "2000-04")
    >>> parts = [finder.apsides(year, "moon", *month, observer="earth") for month in months]
    >>> finder.join(parts) == finder.apsides(year, "moon", "2000-02", "2000-04", observer="earth")
    True
    """

    def checked() -> Summary:
        if files is None:
            raise spans.WrongParts("certificates are joined with what `check` says of their files")
        return files

    found: list[Any] = list(parts)
    for part in found:
        if not isinstance(part, (Windows, TimeSet, Certificate)):
            raise TypeError(f"windows, sets and certificates are joined, and not {type(part).__name__}")
    kind: Any = type(found[0]) if found else Windows
    whole = kind.joined(found) if kind is TimeSet else spans.join_parts([part.report for part in found], checked)
    made: Found = whole if kind is TimeSet else kind.of_report(whole, found[0].names if found else {})
    return made


@public
def over_files(
    search: Callable[..., Found],
    files: Files,
    *words: Any,
    header: Union[str, os.PathLike[str], None] = None,
    start: Optional[Time] = None,
    end: Optional[Time] = None,
    tick: int = 1,
    jobs: int = 1,
    executor: Optional[concurrent.futures.Executor] = None,
    progress: Optional[Progress] = None,
    program: Program = None,
    timeout: Optional[float] = None,
    in_process: bool = False,
    **options: Any,
) -> Found:
    """The windows of a search, the set of `times`, `near` and others, or the `certificate`, over files in order of
    time, one by one, `jobs` of them at once:

        files = ["ascp2000.405", "ascp2020.405"]
        finder.over_files(finder.apsides, files, "moon", observer="earth", header="header.405")

    Each file begins with the last block of the one before, as JPL's do, and is read after the header, or alone where it
    has a header of its own. It is searched up to the begin of the next one. So far fewer blocks are held at once than
    by one search, and there may be more than 64 files and 16,384 blocks; the windows are the same. Files that the span
    does not reach are read once, and not searched. Where one search fails, all are ended, and its exception is raised.
    `progress` is called with the number of files that were done, which sum up to all.

    With an `executor` the searches run where it runs them, and `jobs` is not looked at: a `ThreadPoolExecutor`, a
    `ProcessPoolExecutor`, `Client(..).get_executor()` of dask.distributed, an `MPIPoolExecutor` of mpi4py. What it is
    given is pickled, and its exceptions come back. The package, the command and the files have to be there under the
    same names: `program` is a name, or $FINDER there. The `timeout` is that of each search. Where one fails, those that
    wait are cancelled, and those that run go on to their end. The executor is not shut down.

    >>> import finder
    >>> year = "examples/de405-2000.asc"
    >>> found = finder.over_files(finder.apsides, [year], "earth", observer="sun")
    >>> len(found)
    3
    """
    names = file_names(files)
    if not names:
        raise spans.WrongParts("no file is named")
    first = [] if header is None else [os.fspath(header)]
    if isinstance(files, HasNames):
        # (the text of an `Ephemeris` is one file, or a header and files of blocks)
        first, names = names[: len(names) > 1], names[len(names) > 1 :]
        wanted = words_of_request(files, {"start": start, "end": end})
        start, end = wanted["start"], wanted["end"]
    low = None if start is None else ticks_of_time(start, tick, up=False) * (1_000 // tick)
    high = None if end is None else ticks_of_time(end, tick, up=True) * (1_000 // tick)
    with _Calls(executor, jobs, program, timeout, in_process) as calls:
        read = calls.results(check, [([*first, name],) for name in names])
        plan = spans.spans_of_files(names, read, low, high)
        if progress is not None and len(plan) < len(names):
            progress(len(names) - len(plan))
        given = {**options, "tick": tick}
        rows = [
            (search, some_of(files, [*first, name]), words, _time_of(begin), _time_of(stop), given)
            for begin, stop, name in plan
        ]
        made: Found = join(calls.results(_part, rows, progress), read[0])
        return made


class _Calls:
    """The calls that one call makes: by threads of its own, whose processes end with it, or by an executor."""

    def __init__(
        self,
        executor: Optional[concurrent.futures.Executor],
        jobs: int,
        program: Program,
        timeout: Optional[float],
        in_process: bool,
    ) -> None:
        self._runs = runs_of(program, timeout, in_process) if executor is None else None
        self._pool = executor or concurrent.futures.ThreadPoolExecutor(count("jobs", jobs))
        self._options: dict[str, Any] = {"program": self._runs}
        if executor is not None:
            self._options = {"program": _name_of(program), "timeout": timeout, "in_process": in_process}
        self._futures: list[concurrent.futures.Future[Any]] = []

    def __enter__(self) -> _Calls:
        return self

    def __exit__(self, kind: Optional[type[BaseException]], *rest: object) -> None:
        if kind is not None:
            if self._runs:
                self._runs.stop()
            for future in self._futures:
                future.cancel()
        if self._runs:
            self._pool.shutdown()

    def results(
        self, function: Callable[..., Any], rows: Iterable[Sequence[Any]], progress: Optional[Progress] = None
    ) -> list[Any]:
        """What a function returns for each row of its words."""
        self._futures = [self._pool.submit(function, *row, **self._options) for row in rows]
        return results(self._futures, progress)


def _part(
    search: Callable[..., Found],
    files: Files,
    words: tuple[Any, ...],
    start: str,
    end: str,
    options: dict[str, Any],
    **own: Any,
) -> Found:
    """One part, where the executor runs it."""
    return search(files, *words, start=start, end=end, **options, **own)


def _name_of(program: Program) -> Optional[str]:
    """A command as an executor takes it."""
    if isinstance(program, Runs):
        raise TypeError("an executor takes the name of the command")
    return None if program is None else os.fspath(program)


def _time_of(milliseconds: int) -> str:
    """A time as a text."""
    return spans.time_text(milliseconds, 1_000)


def results(futures: Sequence[concurrent.futures.Future[Any]], progress: Optional[Progress] = None) -> list[Any]:
    """The results of all, or the exception of the first that fails."""
    left: set[concurrent.futures.Future[Any]] = set(futures)
    while left:
        done, left = concurrent.futures.wait(left, WAIT, concurrent.futures.FIRST_EXCEPTION)
        for future in futures:
            if future in done:
                future.result()
        if progress is not None and done:
            progress(len(done))
    return [future.result() for future in futures]

"""The command, one process a search, and an exception for each of its statuses."""

from __future__ import annotations

import concurrent.futures
import logging
import os
import re
import shlex
import signal
import subprocess
import threading
import time
from collections.abc import Sequence
from dataclasses import dataclass, field
from typing import Optional, Union

from .. import spans
from ..public import public
from ..searches.words import seconds
from .guard import Guarded, Outcome, end_where_abandoned
from .hints import TOO_LONG, causes_of, causes_seen, told
from .messages import shown, shown_lines

# What each run of the program is told to: its words, its status and its time.
LOG = logging.getLogger("finder")
# Seconds after which a wait begins anew: an interrupt that comes just before a wait begins is seen only when it ends.
WAIT = 0.2
OVER = "finder: the call is over"
NUMBERED = re.compile(r"(?:^|: )([0-9]+) ([A-Z][A-Za-z]*)(?: (\S+))?$")
FAULT = re.compile(r"finder: file (.*) line ([0-9]+): [0-9]+ [A-Za-z]+(?: \S+)?", re.DOTALL)


@public
class FinderError(Exception):
    """The command ended without a report: `status` is its exit status, `line` what it wrote to standard error, `words`
    those with which it was called, and `hint` the likely causes.

    >>> import finder
    >>> try:
    ...     finder.apsides("examples/de405-2000.asc", "moon", "2010", "2011", observer="earth")
    ... except finder.FinderError as error:
    ...     print(error.status, error.line)
    6 finder: span: 315576000 347112000 not within -734400 32443200
    """

    def __init__(self, status: int, line: str, words: Sequence[str] = ()) -> None:
        # (an OSError takes the first of two words for a number of the system, which a status is not)
        super().__init__(line)
        self.status = status
        self.line = line
        self.words = tuple(words)

    def __reduce__(self) -> tuple[type[FinderError], tuple[int, str, tuple[str, ...]]]:
        return type(self), (self.status, self.line, self.words)

    def __str__(self) -> str:
        line = shown_lines(self.line) or f"the command ended with status {self.status}"
        return f"{line}\nlikely: {shown_lines(self.hint)}"

    @property
    def number(self) -> Optional[int]:
        """The number of what was refused (`docs/guide/usage.md`, `docs/guide/formats.md`), where the line has one."""
        found = NUMBERED.search(self.line)
        return int(found[1]) if found else None

    @property
    def name(self) -> Optional[str]:
        """Its name, as `BadValue`."""
        found = NUMBERED.search(self.line)
        return found[2] if found else None

    @property
    def detail(self) -> Optional[str]:
        """What follows the name: the option of 63, or the number of a bad number."""
        found = NUMBERED.search(self.line)
        return found[3] if found else None

    @property
    def hint(self) -> str:
        """What the package sees to be wrong, or the likely causes, the likeliest first, and what to write instead."""
        seen = causes_seen(self.status, self.number, self.line, self.words)
        return told(seen or causes_of(self.status, self.number, self.detail))


@public
class WordsRefused(FinderError, ValueError):
    """Status 2: the command line is invalid.

    >>> import finder
    >>> try:
    ...     finder.find("examples/de405-2000.asc", "sep", "moon", "sun", observer="earth")
    ... except finder.WordsRefused as error:
    ...     print(error.line)
    finder: words: 63 BadValue ref
    """


@public
class FileFault(FinderError, ValueError):
    """Status 3: the files have a fault, which is at a line of a file.

    >>> import finder
    >>> try:
    ...     finder.check("README.md")
    ... except finder.FileFault as error:
    ...     print(error.line, error.line_number)
    finder: file README.md line 1: 10 FirstLine 1
    """

    @property
    def file(self) -> Optional[str]:
        """The file's name."""
        found = FAULT.fullmatch(self.line)
        return found[1] if found else None

    @property
    def line_number(self) -> Optional[int]:
        """The number of the line, 0 where it is the file as a whole."""
        found = FAULT.fullmatch(self.line)
        return int(found[2]) if found else None


@public
class ReadFailed(FinderError, OSError):
    """Status 4: a file is not there, may not be read, or a read failed.

    >>> import finder
    >>> try:
    ...     finder.check("no-file")
    ... except finder.ReadFailed as error:
    ...     print(error.line)
    finder: read fault no-file
    """


@public
class WriteFailed(FinderError, OSError):
    """Status 5: the pipe to this process failed.

    >>> import finder
    >>> issubclass(finder.WriteFailed, (finder.FinderError, OSError))
    True
    """


@public
class SpanRefused(FinderError, ValueError):
    """Status 6: the span holds no tick, or is not within the files.

    >>> import finder
    >>> try:
    ...     finder.apsides("examples/de405-2000.asc", "moon", "2000-06-01", "2000-05-01", observer="earth")
    ... except finder.SpanRefused as error:
    ...     print(error.hint)
    start=2000-06-01T00:00:00 is not before end=2000-05-01T00:00:00 (TDB)
    """


@public
class EventRefused(FinderError, ValueError):
    """Status 7: the files do not have this event.

    >>> import finder
    >>> try:
    ...     finder.apsides("examples/de405-2000.asc", "moon", observer="moon")
    ... except finder.EventRefused as error:
    ...     print(error.hint)
    target= and observer= are one body, 'moon'
    """


@public
class OutOfMemory(FinderError, MemoryError):
    """Status 8: there was no memory.

    >>> import finder
    >>> issubclass(finder.OutOfMemory, MemoryError)
    True
    """


@public
class TooManyLeaves(FinderError, ValueError):
    """Status 9: the search has more leaves than a search may have.

    >>> import finder
    >>> issubclass(finder.TooManyLeaves, ValueError)
    True
    """


@public
class CertificateRefused(FinderError, ValueError):
    """Status 10: a line of a certificate breaks a rule, the first of its lines that does.

    >>> import finder
    >>> year = "examples/de405-2000.asc"
    >>> made = finder.certificate(year, "apsis", "earth", observer="sun")
    >>> wrong = finder.Certificate.of_text(made.text.replace(" N", " F", 1))
    >>> try:
    ...     finder.verify(year, wrong)
    ... except finder.CertificateRefused as error:
    ...     print(error.line)
    finder: certificate line 3: 73 CertMark
    """

    @property
    def line_number(self) -> Optional[int]:
        """The number of the line."""
        found = re.match(r"finder: certificate line ([0-9]+):", self.line)
        return int(found[1]) if found else None


@public
class Interrupted(FinderError):
    """The process was ended by a signal, whose number is `-status`.

    >>> import finder
    >>> issubclass(finder.Interrupted, finder.FinderError)
    True
    """


@public
class TimedOut(FinderError, TimeoutError):
    """The search took longer than its `timeout`, and was ended.

    >>> import finder
    >>> try:
    ...     finder.check("examples/de405-2000.asc", timeout=0)
    ... except finder.TimedOut as error:
    ...     print(error.line)
    finder: not done after 0 seconds
    """

    @property
    def hint(self) -> str:
        """The likely causes, the likeliest first, and what to write instead."""
        return told(TOO_LONG)


class OverBudget(Exception):
    """A run of the program took longer than its budget, and was ended: what it would have said is not known."""


OF_STATUS: dict[int, type[FinderError]] = {
    2: WordsRefused,
    3: FileFault,
    4: ReadFailed,
    5: WriteFailed,
    6: SpanRefused,
    7: EventRefused,
    8: OutOfMemory,
    9: TooManyLeaves,
    10: CertificateRefused,
}


@dataclass
class _Begun:
    """The processes of a run that have begun; once it is over, none begins any more."""

    processes: list[Guarded] = field(default_factory=list)
    is_over: bool = False


class Runs:
    """The processes of one call, which end with it."""

    def __init__(self, program: Union[str, os.PathLike[str], None], timeout: Optional[float]) -> None:
        if timeout is not None:
            _seconds_of_clock(timeout)
        self._program = spans.find_program(program)
        self._timeout = timeout
        self._deadline = None if timeout is None else time.monotonic() + timeout
        self._live: set[Guarded] = set()
        self._lock = threading.Lock()
        self._stopped = False

    def _start(self, words: Sequence[Union[str, bytes]], begun: _Begun) -> None:
        """Starts the command, unless the call is over, and adds it to those that have begun."""
        with self._lock:
            if begun.is_over:
                raise Interrupted(-signal.SIGKILL, OVER)
            self.refuse_stopped()
            process = Guarded(self._program, words)
            self._live.add(process)
            begun.processes.append(process)

    def run(self, words: Sequence[Union[str, bytes]], budget: Optional[float] = None) -> str:
        """What the command prints for these words: `OverBudget` where it takes more than so many seconds."""
        begun, began = _Begun(), time.monotonic()
        try:
            # (an interrupt comes to the main thread alone, and so not between a process and its record)
            with concurrent.futures.ThreadPoolExecutor(1) as pool:
                pool.submit(self._start, words, begun).result()
            ended = self._outcome(begun.processes[0], began, budget)
        finally:
            # (where the interrupt comes while the thread starts, nothing has waited for what that one starts)
            with self._lock:
                begun.is_over = True
            for process in begun.processes:
                self._finish(process)
        told = shown(shlex.join(map(os.fsdecode, words)))
        LOG.info("%s: status %d, %.3f seconds", told, ended.status, time.monotonic() - began)
        return answer_of(ended, [os.fsdecode(word) for word in words])

    def refuse_stopped(self) -> None:
        """Refuses a run once the call is over."""
        if self._stopped:
            raise Interrupted(-signal.SIGKILL, OVER)

    def _outcome(self, process: Guarded, began: float, budget: Optional[float]) -> Outcome:
        """How the command ended, once it has."""
        while self._deadline is None or time.monotonic() < self._deadline:
            left = WAIT if self._deadline is None else min(WAIT, max(0.0, self._deadline - time.monotonic()))
            try:
                return process.wait(left)
            except subprocess.TimeoutExpired:
                end_where_abandoned()
                if budget is not None and time.monotonic() > began + budget:
                    raise OverBudget from None
        raise TimedOut(-signal.SIGKILL, f"finder: not done after {self._timeout} seconds")

    def _finish(self, process: Guarded) -> None:
        """Ends a process where it runs still, and waits for its end."""
        process.close()
        with self._lock:
            self._live.discard(process)

    def stop(self) -> None:
        """Ends every process, and starts none any more."""
        with self._lock:
            self._stopped = True
            for process in self._live:
                process.end()


Program = Union[str, os.PathLike[str], Runs, None]


def _seconds_of_clock(timeout: float) -> None:
    """Refuses a timeout that is no time, or that no clock holds."""
    try:
        seconds("timeout", timeout)
    except OverflowError:
        raise ValueError("timeout has more seconds than the clock holds: leave it out, to wait without end") from None


def answer_of(ended: Outcome, words: Sequence[str]) -> str:
    """What the command printed, or the exception of its status."""
    if ended.status:
        line = os.fsdecode(ended.err).removesuffix("\n")
        if ended.status in (70, 126, 127) or not _is_of_command(line, ended.status):
            raise spans.NoProgram(shown_lines(line) or f"status {ended.status}")
        if ended.status < 0:
            raise Interrupted(ended.status, line, words)
        raise OF_STATUS.get(ended.status, FinderError)(ended.status, line, words)
    try:
        return ended.out.decode("ascii")
    except UnicodeDecodeError:
        raise spans.WrongReport("the command printed what is no report") from None


def _is_of_command(line: str, status: int) -> bool:
    """Whether a status is one that the command itself gave: it writes a line of its own beside it, or could not."""
    return status not in OF_STATUS or not line or any(each.startswith("finder: ") for each in line.split("\n"))


def runs_of(program: Program, timeout: Optional[float], in_process: bool = False) -> Runs:
    """Those of a call that takes a program and a timeout; the program may be those of the call around it."""
    if isinstance(program, Runs):
        return program
    if not in_process:
        return Runs(program, timeout)
    # (it takes part of this module)
    from .library import InProcess

    return InProcess(program, timeout)

"""Starts the command so that it ends with this process, however that one ends, and so that its status is always known.

The command runs in a group of processes of its own, below a shell. A second shell of that group reads from a pipe that
this process alone holds open, and that the system closes however this process ends: then it ends the group, and with it
what the launcher has started. Both need nothing but `/bin/sh`. The first shell writes the status behind what the command
writes to standard error: so it is known also where signals of ended children are ignored in this process, or another part
of it takes them.
"""

from __future__ import annotations

import errno
import os
import shutil
import signal
import subprocess
import sys
import threading
from collections.abc import Sequence
from dataclasses import dataclass
from typing import Optional, Union

from .path import NoProgram

SHELL = "/bin/sh"
GUARD = r"""
exec 3<&0 </dev/null
(read -r line; kill -s KILL -- "-$$") <&3 >&- 2>&- &
"$@" 3<&-
printf '\n%s' "$?" >&2
exec 3<&- >&- 2>&-
kill -s KILL "$!"
wait "$!"
"""
# A status of a shell past this one is that of a command that a signal has ended.
SIGNALLED = 128

Word = Union[str, bytes]


@dataclass(frozen=True)
class Outcome:
    """How the command ended: its status, which is `-N` where signal N ended it, and what it wrote."""

    status: int
    out: bytes
    err: bytes


class _Lifelines:
    """The pipes of the commands that run, whose ends this process holds."""

    def __init__(self) -> None:
        self._ends: set[int] = set()
        self._lock = threading.Lock()

    def start(self, words: Sequence[Word]) -> tuple[subprocess.Popen[bytes], int]:
        """Starts a command; its process, and the end of its pipe. No process is forked by this one meanwhile, which would
        hold that end too."""
        with self._lock:
            other, end = os.pipe()
            try:
                process = subprocess.Popen(
                    [SHELL, "-c", GUARD, SHELL, *words],
                    stdin=other,
                    stdout=subprocess.PIPE,
                    stderr=subprocess.PIPE,
                    start_new_session=True,
                )
            except BaseException:
                os.close(end)
                raise
            finally:
                os.close(other)
            self._ends.add(end)
            return process, end

    def close(self, end: int) -> None:
        """Closes the end of a pipe, once."""
        with self._lock:
            if end in self._ends:
                self._ends.discard(end)
                os.close(end)

    def before_fork(self) -> None:
        """Waits until no command is being started."""
        self._lock.acquire()

    def after_fork(self) -> None:
        """Goes on in this process."""
        self._lock.release()

    def forget(self) -> None:
        """In a process that was forked: the commands are not its own."""
        for end in self._ends:
            os.close(end)
        self._ends.clear()
        self._lock.release()


_lifelines = _Lifelines()
os.register_at_fork(
    before=_lifelines.before_fork, after_in_parent=_lifelines.after_fork, after_in_child=_lifelines.forget
)


class _Parent:
    """The process that started this one. In a worker of a pool it is the one that the worker works for, or the pool's
    server."""

    def __init__(self) -> None:
        self._first = os.getppid()

    def forget(self) -> None:
        """In a process that was forked: it has another parent."""
        self._first = os.getppid()

    def is_gone(self) -> bool:
        """Whether this process is a worker of a pool, and the one that waits for its work has ended. (Of workers that were
        forked each holds what tells the others, so that its parent is looked at too.)"""
        processes = sys.modules.get("multiprocessing.process")
        caller = processes.parent_process() if processes is not None else None
        return caller is not None and (os.getppid() != self._first or not caller.is_alive())


_parent = _Parent()
os.register_at_fork(after_in_child=_parent.forget)


def end_where_abandoned() -> None:
    """Ends this process where it is a worker of a pool whose parent has ended."""
    if _parent.is_gone():
        os.kill(os.getpid(), signal.SIGTERM)


class Guarded:
    """The command, as it runs."""

    def __init__(self, program: str, words: Sequence[Word]) -> None:
        self._program = program
        path = _path_of(program)
        try:
            self._process, self._end = _lifelines.start([path, *words])
        except OSError as error:
            raise NoProgram(error.errno, f"{program} cannot be run: {error.strerror}") from error

    def wait(self, timeout: Optional[float] = None) -> Outcome:
        """How it ended: `subprocess.TimeoutExpired` where it has not yet after so many seconds."""
        out, said = self._process.communicate(timeout=timeout)
        err, mark, status = said.rpartition(b"\n")
        if not mark or not status.isdigit():
            # (the shells were ended, or could not do their work)
            if self._process.returncode < 0 or not said:
                return Outcome(min(self._process.returncode, 0) or -signal.SIGKILL, out, said)
            raise NoProgram(errno.ECHILD, f"{self._program} cannot be run: {os.fsdecode(said).strip()}")
        number = int(status)
        return Outcome(SIGNALLED - number if number > SIGNALLED else number, out, err)

    def end(self) -> None:
        """Ends it, with all that it has started."""
        if self._process.poll() is None:
            try:
                os.killpg(self._process.pid, signal.SIGKILL)
            except ProcessLookupError:
                pass

    def close(self) -> None:
        """Ends it where it runs still, and waits for its end."""
        self.end()
        self._process.wait()
        for stream in (self._process.stdout, self._process.stderr):
            if stream:
                stream.close()
        _lifelines.close(self._end)


def run_guarded(program: str, words: Sequence[Word]) -> Outcome:
    """Runs the command, and says how it ended: `NoProgram` where it cannot be run."""
    process = Guarded(program, words)
    try:
        return process.wait()
    finally:
        process.close()


def _path_of(program: str) -> str:
    """Where a program is, with a stroke in its name: `NoProgram` where it cannot be run."""
    found = shutil.which(program)
    if found is None:
        cause = errno.EACCES if os.path.exists(program) else errno.ENOENT
        raise NoProgram(cause, f"{program} cannot be run: {os.strerror(cause)}")
    return found if os.sep in found else os.path.join(os.curdir, found)

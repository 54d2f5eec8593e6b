"""The parts of ./test: each is a command in a process of its own, which prints its checks in the Test Anything Protocol."""

from __future__ import annotations

import contextlib
import os
import re
import shutil
import signal
import subprocess
import tempfile
import threading
import time
from concurrent.futures import Future, ThreadPoolExecutor, as_completed
from dataclasses import dataclass, field
from enum import Enum
from pathlib import Path
from typing import Callable, Iterable, Iterator, Optional

from tests.support.settings import SAMPLED, TOP

MAX_SECONDS = 1800
MAX_SIDE_BY_SIDE = 4
# How many lines are shown at most of what a part that failed printed.
MAX_SHOWN = 60
CHECK = re.compile(r"(ok|not ok)\b *\d*(?: *-)? ?((?:[^#\\]|\\.)*)(?:# (?:SKIP|TODO)\b *(.*))?$", re.IGNORECASE)
PLAN = re.compile(r"1\.\.(\d+)(?: *# *SKIP\b *(.*))?$", re.IGNORECASE)


class Needs(Enum):
    """What a part runs."""

    NOTHING = "no program"
    SHIPPED = "the shipped program, as it is"
    LAUNCHER = "the launcher, which starts the shipped program of these sources alone"
    PROGRAM = "the program that FINDER names, which may be any"


@dataclass(frozen=True)
class Part:
    """Some checks: their name, what they show, the command that makes them, and what that runs.

    A lint prints what it likes, and is one check, which its exit status decides."""

    name: str
    shows: str
    command: str
    needs: Needs = Needs.NOTHING
    is_lint: bool = False

    def words(self) -> list[str]:
        """The words of the command; one with a `*` stands for the files that it names."""
        words = self.command.split()
        return [name for word in words for name in (files_of(word) if "*" in word else [word])]


def files_of(pattern: str) -> list[str]:
    """The files that a pattern names, from the top of the repository."""
    return sorted(str(path.relative_to(TOP)) for path in TOP.glob(pattern))


@dataclass(frozen=True)
class Outcome:
    """How many checks of a part passed, failed and were skipped, with the lines that say why."""

    name: str
    passed: int = 0
    failed: int = 0
    skipped: int = 0
    lines: tuple[str, ...] = ()
    seconds: float = 0.0

    def counts(self) -> str:
        """The counts as words."""
        skipped = f", {self.skipped} skipped" if self.skipped else ""
        return f"{self.passed} passed, {self.failed} failed{skipped}"


def total(outcomes: Iterable[Outcome]) -> Outcome:
    """The sums of the counts."""
    passed = failed = skipped = 0
    for outcome in outcomes:
        passed += outcome.passed
        failed += outcome.failed
        skipped += outcome.skipped
    return Outcome("", passed, failed, skipped)


@dataclass
class Checks:
    """What a part printed of its checks."""

    passed: int = 0
    failed: int = 0
    skipped: dict[str, list[str]] = field(default_factory=dict)
    planned: Optional[int] = None

    @classmethod
    def read(cls, text: str) -> Checks:
        """Reads the lines of the protocol; what else was printed is passed over."""
        checks = cls()
        for line in text.splitlines():
            found, plan = CHECK.match(line), PLAN.match(line)
            if plan:
                checks.planned = int(plan[1])
                if plan[2]:
                    checks.skipped[plan[2]] = ["all of it"]
            elif found and found[3]:
                checks.skipped.setdefault(found[3], []).append(found[2].strip())
            elif found:
                checks.passed += found[1].lower() == "ok"
                checks.failed += found[1].lower() != "ok"
        return checks

    def fault(self, status: int) -> str:
        """What is wrong with the checks beside an exit status, or nothing."""
        skipped = sum(map(len, self.skipped.values()))
        if self.planned is None:
            return f"it ended with status {status}, and not with the number of its checks"
        if self.planned and self.planned != self.passed + self.failed + skipped:
            return f"it planned {self.planned} checks, and made {self.passed + self.failed + skipped}"
        if bool(status) != bool(self.failed):
            return f"it ended with status {status}, and {self.failed or 'none'} of its checks failed"
        return "" if self.passed + self.failed + skipped else "it checked nothing"

    def skips(self) -> Iterator[str]:
        """A line for each reason why checks were skipped; what a sample leaves out has its number alone."""
        for why, names in self.skipped.items():
            if why == SAMPLED:
                yield f"{len(names)} skipped, as {why}"
            elif len(names) > 1:
                yield f"{len(names)} skipped, as {why}: {' '.join(names)}"
            else:
                yield f"{names[0]} skipped, as {why}"


def shortened(lines: list[str]) -> list[str]:
    """Lines without those in the middle, if they are many."""
    if len(lines) <= MAX_SHOWN:
        return lines
    half = MAX_SHOWN // 2
    return [*lines[:half], f"({len(lines) - MAX_SHOWN} more lines)", *lines[-half:]]


def outcome_of_lint(name: str, status: int, text: str, seconds: float) -> Outcome:
    """What came of a lint, by its exit status."""
    if status == 0:
        return Outcome(name, passed=1, seconds=seconds)
    lines = (*shortened(text.splitlines()), f"it ended with status {status}")
    return Outcome(name, failed=1, lines=lines, seconds=seconds)


def outcome_of(name: str, status: int, text: str, seconds: float) -> Outcome:
    """What came of a part, by its exit status and by all that it printed."""
    checks = Checks.read(text)
    fault = checks.fault(status)
    skipped = sum(map(len, checks.skipped.values()))
    lines = list(checks.skips())
    if checks.failed or fault:
        lines += [*shortened([line for line in text.splitlines() if not re.match(r"ok\b|1\.\.", line)]), *filter(None, [fault])]
    failed = max(checks.failed, 1) if fault else checks.failed
    return Outcome(name, checks.passed, failed, skipped, tuple(lines), seconds)


def refused(name: str, why: str) -> Outcome:
    """A part that could not be made, which counts as a check that failed."""
    return Outcome(name, failed=1, lines=(why,))


def skipped(name: str, why: str) -> Outcome:
    """A part that was not tried."""
    return Outcome(name, skipped=1, lines=(f"skipped, as {why}",))


@dataclass
class Runner:
    """Runs parts side by side, with a folder for what they write, and knows which run now, so that all can be ended."""

    program: Path
    folder: Path
    running: dict[str, subprocess.Popen[str]] = field(default_factory=dict)
    lock: threading.Lock = field(default_factory=threading.Lock)
    is_stopped: bool = False

    def start(self, part: Part) -> Optional[subprocess.Popen[str]]:
        """Starts a part, in a group of processes of its own, unless all are to end."""
        variables = {**os.environ, "LC_ALL": "C", "PYTHONDONTWRITEBYTECODE": "1", "TMPDIR": str(self.folder)}
        variables.pop("FINDER", None)
        if part.needs is Needs.PROGRAM:
            variables["FINDER"] = str(self.program)
        with self.lock:
            if self.is_stopped:
                return None
            process = subprocess.Popen(
                part.words(),
                cwd=TOP,
                env=variables,
                stdin=subprocess.DEVNULL,
                stdout=subprocess.PIPE,
                stderr=subprocess.STDOUT,
                errors="replace",
                text=True,
                start_new_session=True,
            )
            self.running[part.name] = process
        return process

    def run(self, part: Part) -> Outcome:
        """Runs a part to its end."""
        started = time.monotonic()
        try:
            process = self.start(part)
        except OSError as error:
            return refused(part.name, f"{part.command} cannot be started: {error.strerror}")
        if process is None:
            return skipped(part.name, "all was ended")
        try:
            text, _ = process.communicate(timeout=MAX_SECONDS)
            outcome = outcome_of_lint if part.is_lint else outcome_of
            return outcome(part.name, process.returncode, text, time.monotonic() - started)
        except subprocess.TimeoutExpired:
            end_group(process)
            process.wait()
            return refused(part.name, f"it had not ended after {MAX_SECONDS} seconds")
        finally:
            with self.lock:
                del self.running[part.name]

    def names(self) -> list[str]:
        """The parts that run now."""
        with self.lock:
            return sorted(self.running)

    def stop(self) -> None:
        """Ends the parts that run, and starts no others."""
        with self.lock:
            self.is_stopped = True
            for process in self.running.values():
                end_group(process)


def end_group(process: subprocess.Popen[str]) -> None:
    """Ends the processes of a part; what they wrote goes with its folder."""
    with contextlib.suppress(ProcessLookupError):
        os.killpg(process.pid, signal.SIGKILL)


@contextlib.contextmanager
def new_folder() -> Iterator[Path]:
    """A folder for what parts write, which goes when they have ended, however they did."""
    folder = tempfile.mkdtemp(prefix="finder-test-")
    try:
        os.chmod(folder, 0o755)
        yield Path(folder)
    finally:
        shutil.rmtree(folder, ignore_errors=True)


def side_by_side() -> int:
    """How many parts run at a time: one a processor, and at most four."""
    return min(len(os.sched_getaffinity(0)), MAX_SIDE_BY_SIDE)


def run_parts(runner: Runner, parts: list[Part], show: Callable[[Outcome], None]) -> list[Outcome]:
    """Runs parts, as many at a time as there are processors, and shows each as it ends."""
    outcomes = []
    with ThreadPoolExecutor(side_by_side()) as pool:
        futures: list[Future[Outcome]] = [pool.submit(runner.run, part) for part in parts]
        try:
            for future in as_completed(futures):
                outcomes.append(future.result())
                show(outcomes[-1])
        except BaseException:
            runner.stop()
            raise
    return outcomes


def chosen(parts: Iterable[Part], names: list[str]) -> Iterator[Part]:
    """The parts of these names; a name before a stroke stands for all that begin so. Without names these are all."""
    parts = list(parts)
    unknown = [name for name in names if not any(is_named(part, name) for part in parts)]
    if unknown:
        raise LookupError(f"there is no part {unknown[0]}: ./test --list prints the names")
    return (part for part in parts if not names or any(is_named(part, name) for name in names))


def is_named(part: Part, name: str) -> bool:
    """Whether a name, or what stands before the stroke in one, is that of a part."""
    return name in (part.name, part.name.partition("/")[0])

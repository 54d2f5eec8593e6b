"""Runs of the stored cases by a program, in a process each, and what differs from the answers that are stored."""

from __future__ import annotations

import itertools
import os
import shlex
import shutil
import subprocess
from dataclasses import dataclass
from pathlib import Path
from typing import Iterator, Optional

from tests.support.records import Case

SOURCE = Path(__file__).resolve().parent / "devices.c"
SEARCHES = (b"find", b"cert", b"verify", b"gen", b"set", b"scalar")
# By how many workers a search is run, besides the run of its case as it stands.
WORKERS = (1, 2, 7, 64)
MAX_SECONDS = 120
COMPILERS = ("cc", "gcc", "clang")
VARIABLES = {"shelf": "FINDER_SHELF", "out-sink": "FINDER_OUT_SINK", "err-sink": "FINDER_ERR_SINK"}


class NoDevices(Exception):
    """This machine cannot compile what is preloaded, as the devices that fail."""


@dataclass(frozen=True)
class Answer:
    """What a run returned and wrote."""

    status: int
    out: bytes
    err: bytes


def answer_of(case: Case) -> Answer:
    """The answer that is stored."""
    return Answer(case.status or 0, case.out, case.err)


def build_library(source: Path, library: Path) -> Path:
    """Compiles a file in C into a library, which is then preloaded."""
    compiler = next((found for found in map(shutil.which, COMPILERS) if found), None)
    if compiler is None:
        raise NoDevices(f"there is no C compiler here ({', '.join(COMPILERS)})")
    if subprocess.run([compiler, "-E", str(source)], capture_output=True, check=False).returncode:
        raise NoDevices(f"{compiler} finds no headers of the C library here")
    subprocess.run([compiler, "-shared", "-fPIC", "-O1", "-o", str(library), str(source), "-ldl"], check=True)
    return library


def build_devices(folder: Path) -> Path:
    """Compiles the devices that fail into a library, which is then preloaded."""
    return build_library(SOURCE, folder / "devices.so")


def needs_devices(case: Case) -> bool:
    """Whether a case needs more than plain files and pipes: devices that fail, or a file without a name."""
    return bool(case.devices) or b"" in case.files


def command_lines(case: Case, workers: tuple[int, ...] = WORKERS) -> Iterator[list[bytes]]:
    """The words of a case, and, of a search that names no number of workers, these words with each number of them."""
    yield case.words
    names_workers = any(word.startswith(b"--workers") for word in case.words)
    if case.words and case.words[0] in SEARCHES and not names_workers:
        for count in workers:
            yield [case.words[0], b"--workers=%d" % count, *case.words[1:]]


def shown(words: list[bytes]) -> str:
    """A command line as a shell reads it."""
    return f"finder {shlex.join(map(os.fsdecode, words))}"


def write_files(case: Case, folder: Path) -> Path:
    """Writes the files of a case into a folder, and the one without a name beside it, whose path is returned."""
    nameless = folder.with_name("nameless")
    for name, text in case.files.items():
        path = folder / os.fsdecode(name) if name else nameless
        path.write_bytes(text)
    return nameless


def first_difference(expected: bytes, got: bytes) -> str:
    """The first line in which two texts differ."""
    pairs = itertools.zip_longest(expected.splitlines(keepends=True), got.splitlines(keepends=True), fillvalue=b"")
    line, right, there = next((line, *pair) for line, pair in enumerate(pairs, 1) if pair[0] != pair[1])
    return f"line {line}: {str(there)[1:]}, where {str(right)[1:]} is right"


def differences(case: Case, answer: Answer) -> list[str]:
    """What a run did otherwise than its case says."""
    found = []
    if answer.status != case.status:
        found.append(f"status {answer.status}, where {case.status} is right")
    for stream, expected, got in (("output", case.out, answer.out), ("error output", case.err, answer.err)):
        if got != expected:
            found.append(f"{stream}, {first_difference(expected, got)}")
    return found


@dataclass(frozen=True)
class CaseRunner:
    """Runs cases by one program, with the library of devices that fail, if there is one."""

    program: Path
    devices: Optional[Path]
    seconds: int = MAX_SECONDS

    def variables(self, case: Case, nameless: Path) -> dict[str, str]:
        """The variables that a run has beside those of its caller: the devices are preloaded, and read what fails."""
        if not needs_devices(case):
            return {}
        preloaded = {"LD_PRELOAD": str(self.devices), "FINDER_NAMELESS": str(nameless)}
        return {**preloaded, **{VARIABLES[kind]: numbers for kind, numbers in case.devices.items()}}

    def answer(self, words: list[bytes], folder: Path, variables: dict[str, str]) -> Answer:
        """Runs the program with these words in a folder.

        Raises `OSError` if it cannot be started, and `subprocess.TimeoutExpired` if it does not end."""
        done = subprocess.run(
            [os.fsencode(self.program), *words],
            cwd=folder,
            env={**os.environ, **variables},
            stdin=subprocess.DEVNULL,
            capture_output=True,
            timeout=self.seconds,
            check=False,
        )
        return Answer(done.returncode, done.stdout, done.stderr)

    def faults(self, case: Case, words: list[bytes], folder: Path, variables: dict[str, str]) -> list[str]:
        """The words of a run and what differs in it, or nothing."""
        try:
            found = differences(case, self.answer(words, folder, variables))
        except subprocess.TimeoutExpired:
            found = [f"no end after {self.seconds} seconds"]
        except OSError as error:
            found = [f"it cannot be started: {error.strerror}"]
        return [shown(words), *found] if found else []

    def run(self, case: Case, place: Path, workers: tuple[int, ...] = WORKERS) -> Iterator[list[str]]:
        """Makes each run of a case in a folder below this place: its words and what differs, or nothing."""
        folder = place / "files"
        folder.mkdir()
        variables = self.variables(case, write_files(case, folder))
        for words in command_lines(case, workers):
            yield self.faults(case, words, folder, variables)

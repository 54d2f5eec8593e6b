"""The library for C and in the process of Python: stored cases and searches made at random, with the program's texts and
statuses; malformed calls; and what is written of a text for which there is no room.

The gate runs a tenth of the cases through C and through Python, and a sample one in a hundred; FINDER_LIBRARY=whole runs
all. It needs an x86-64 machine and a compiler of C, and for Python numpy."""

from __future__ import annotations

import os
import platform
import shutil
import struct
import subprocess
import sys
import tempfile
import unittest
from dataclasses import replace
from importlib.util import find_spec
from pathlib import Path
from typing import Iterator

from tests.reference.random_runs import SORTS, made_run
from tests.support.case_runs import Answer, CaseRunner, differences, needs_devices, write_files
from tests.support.library_runs import (
    LIBRARY,
    MALFORMED,
    MARK,
    NO_ROOM,
    Caller,
    Reply,
    build_caller,
    compiler,
    laid_out,
)
from tests.support.records import TOP, Case, listed_counts, read_cases
from tests.support.settings import IS_WHOLE, SHIPPED

RUNS_ALL = os.environ.get("FINDER_LIBRARY") == "whole"
# One case of so many is run, by the gate and in a sample.
SHARE = 1 if RUNS_ALL else 10 if IS_WHOLE else 100
# How many searches are made at random.
SEARCHES = 500 if IS_WHOLE or RUNS_ALL else 20
SEED = 72
YEAR = TOP / "examples" / "de405-2000.asc"
WORDS = "find --kind=conj --target=jupiter --second=saturn --observer=earth --frame=ecl a.asc".encode().split()
COMMANDS = [sort for sort in SORTS if sort != "failing"]

# (a case that differs is shown without the lines of this module)
__unittest = True


def setUpModule() -> None:
    """Skips all where the library does not run, or nothing can call it."""
    if platform.machine() != "x86_64":
        raise unittest.SkipTest(f"the library is for x86-64, and this is {platform.machine()}")
    if not compiler():
        raise unittest.SkipTest("there is no C compiler here")
    sys.path.insert(0, str(TOP / "python"))


def is_text(part: bytes) -> bool:
    """Whether bytes are UTF-8 without a byte 0, as a word or a name of a call is."""
    try:
        return b"\0" not in part and part.decode() is not None
    except UnicodeDecodeError:
        return False


def is_callable(case: Case) -> bool:
    """Whether a call can say a case: nothing fails, and its words and names are texts."""
    return not needs_devices(case) and all(map(is_text, [*case.words, *case.files]))


def stored_cases() -> Iterator[Case]:
    """The share of the stored cases that is run."""
    every = [case for name in listed_counts() for case in read_cases(name) if is_callable(case)]
    yield from every[::SHARE]


class Runs(unittest.TestCase):
    """Stored cases, and searches made at random, through calls of one kind."""

    place: Path

    @classmethod
    def setUpClass(cls) -> None:
        place = tempfile.TemporaryDirectory(prefix="finder-library-")
        cls.addClassCleanup(place.cleanup)
        cls.place = Path(place.name)

    def answer(self, case: Case) -> Answer:
        """The answer of a call."""
        raise NotImplementedError

    def compare(self, case: Case) -> None:
        """Compares a case with its answer."""
        found = differences(case, self.answer(case))
        if found:
            self.fail("\n".join([f"{case.name} differs", *found]))

    def check_stored_cases(self) -> None:
        """Runs a share of the stored cases."""
        count = 0
        for case in stored_cases():
            with self.subTest(case.name):
                self.compare(case)
            count += 1
        self.assertGreaterEqual(count, 1_700 // SHARE)

    def check_random_runs(self) -> None:
        """Runs searches made at random, which the program answers too."""
        count = 0
        for number in range(1, SEARCHES + 1):
            run = made_run(SEED, number, COMMANDS)
            case = Case(f"run {number} of seed {SEED}", run.words, run.files)
            if is_callable(case):
                with self.subTest(case.name):
                    self.compare(self.answered(case))
                count += 1
        self.assertGreaterEqual(count, SEARCHES * 9 // 10)

    def answered(self, case: Case) -> Case:
        """A case with the answer of the program."""
        runner = CaseRunner(SHIPPED, None)
        with tempfile.TemporaryDirectory(dir=self.place) as folder:
            write_files(case, Path(folder))
            answer = runner.answer(case.words, Path(folder), {})
        return replace(case, status=answer.status, out=answer.out, err=answer.err)


class RunsThroughC(Runs):
    """Calls of a process in C."""

    caller: Caller

    @classmethod
    def setUpClass(cls) -> None:
        super().setUpClass()
        cls.caller = Caller(build_caller(cls.place))

    @classmethod
    def tearDownClass(cls) -> None:
        if cls.caller.close() != 0:
            raise AssertionError("a call wrote outside of its room")

    def answer(self, case: Case) -> Answer:
        return self.caller.answer(case.words, case.files)

    def test_stored_cases(self) -> None:
        self.check_stored_cases()

    def test_random_runs(self) -> None:
        self.check_random_runs()


class RunsThroughPython(Runs):
    """Calls of the package in this process."""

    @classmethod
    def setUpClass(cls) -> None:
        if not find_spec("numpy"):
            raise unittest.SkipTest("no python3 here has numpy")
        super().setUpClass()

    def answer(self, case: Case) -> Answer:
        from finder.process.library import outcome_of

        ended = outcome_of(case.words, laid_out([], case.files)[1])
        return Answer(ended.status, ended.out, ended.err)

    def test_stored_cases(self) -> None:
        self.check_stored_cases()

    def test_random_runs(self) -> None:
        self.check_random_runs()


class Layout(unittest.TestCase):
    """Calls through a process in C that are malformed, or have little room."""

    caller: Caller

    @classmethod
    def setUpClass(cls) -> None:
        place = tempfile.TemporaryDirectory(prefix="finder-library-")
        cls.addClassCleanup(place.cleanup)
        cls.caller = Caller(build_caller(Path(place.name)))

    @classmethod
    def tearDownClass(cls) -> None:
        if cls.caller.close() != 0:
            raise AssertionError("a call wrote outside of its room")

    def test_malformed_calls(self) -> None:
        words, files = laid_out(WORDS, {b"a.asc": b"text", b"": b""})
        wrong = {
            "a word that nothing ends": (words[:-1], files),
            "a word that is no UTF-8": (b"find\0\xff\0", files),
            "a name that is no UTF-8": (words, files.replace(b"a.asc", b"a\x80asc")),
            "a surrogate in a name": (words, files.replace(b"a.asc", b"a\xed\xa0\x80c")),
            "a name that nothing ends": (words, b"a.asc"),
            "a length that is cut off": (words, files[:13]),
            "a length past the end": (words, files + b"b\0" + struct.pack("<Q", 1)),
            "the greatest length": (words, b"a\0" + struct.pack("<Q", 2**64 - 1) + b"text"),
            "a byte more": (words, files + b"x"),
            **{f"files up to {end}": (words, files[:end]) for end in range(1, len(files)) if end != 18},
        }
        for name, call in wrong.items():
            with self.subTest(name):
                self.assertEqual(self.caller.call(*call, room=16), Reply(MALFORMED, 0, MARK * 16))

    def test_calls_that_are_not_malformed(self) -> None:
        words, files = laid_out(WORDS, {b"b": b""})
        for call, status in (((words, files), 4), ((b"", b""), 2), ((b"\0", files), 2), ((words, b""), 4)):
            with self.subTest(call=call):
                self.assertEqual(self.caller.call(*call).status, status)

    def test_first_of_two_files(self) -> None:
        words, year = [b"check", b"a"], YEAR.read_bytes()
        for files, status in ((({b"a": year}, {b"a": b""}), 0), (({b"a": b""}, {b"a": year}), 3)):
            given = b"".join(laid_out([], each)[1] for each in files)
            self.assertEqual(self.caller.call(laid_out(words, {})[0], given).status, status)

    def test_each_room(self) -> None:
        given = laid_out(WORDS, {b"a.asc": YEAR.read_bytes()})
        whole = self.caller.call(*given).text()
        self.assertTrue(whole.endswith(b"END certain 1 undecided 0\n"))
        for room in (0, 1, len(whole) - 1, len(whole), len(whole) + 1):
            status = NO_ROOM if room < len(whole) else 0
            expected = whole[:room] + MARK * (room - len(whole))
            with self.subTest(room=room):
                self.assertEqual(self.caller.call(*given, room=room), Reply(status, len(whole), expected))

    def test_each_room_for_a_refusal(self) -> None:
        given, line = laid_out([b"check", b"missing"], {}), b"finder: read fault missing\n"
        for room in (0, 7, len(line), len(line) + 3):
            with self.subTest(room=room):
                expected = line[:room] + MARK * (room - len(line))
                self.assertEqual(self.caller.call(*given, room=room), Reply(4, len(line), expected))


class Shape(unittest.TestCase):
    """What the library gives and needs."""

    def test_it_gives_one_function(self) -> None:
        self.assertEqual(names_of("--defined-only"), ["finder_call"])

    def test_it_needs_memory_alone(self) -> None:
        needed = {name.partition("@")[0] for name in names_of("--undefined-only")}
        self.assertLessEqual(needed, {"malloc", "realloc", "free", "memcpy", "memmove", "memset", "memcmp", "bcmp"})


def names_of(which: str) -> list[str]:
    """The names that the library gives, or needs."""
    if not shutil.which("nm"):
        raise unittest.SkipTest("there is no nm here")
    said = subprocess.run(["nm", "-D", which, LIBRARY], capture_output=True, check=True, text=True).stdout
    return [line.split()[-1] for line in said.splitlines()]


if __name__ == "__main__":
    unittest.main()

"""The program for 64-bit ARM, under the emulator qemu, on the oldest processor of the architecture: stored cases, over devices
that fail too, the functions in C that are linked to it, what it needs of a system, and the launcher that chooses it.

The gate runs a quarter of the cases, and a sample one in a hundred, each as it stands and by one number of workers in its
turn. FINDER_ARM=whole runs all cases, by each number of workers, which takes half an hour of a processor. It needs Debian's
qemu-user and libc6-arm64-cross, and gcc-aarch64-linux-gnu for what is compiled."""

from __future__ import annotations

import os
import re
import shutil
import subprocess
import tempfile
import unittest
from pathlib import Path
from typing import Callable, Iterator, Optional

from tests.support.case_runs import SOURCE, WORKERS, CaseRunner, needs_devices
from tests.support.launcher_repository import EXAMPLE, make_small_repository
from tests.support.records import Case, listed_counts, read_cases
from tests.support.settings import IS_WHOLE, TOP

PROGRAM = TOP / "release" / "finder-aarch64-linux"
FUNCTIONS = (TOP / "release" / "arm.c", TOP / "tests" / "support" / "arm_functions.c")
COMPILER = "aarch64-linux-gnu-gcc"
EMULATOR = "qemu-aarch64"
# A processor of ARMv8.0, and where Debian has the C library for it.
SYSTEM = {"QEMU_CPU": "cortex-a53", "QEMU_LD_PREFIX": "/usr/aarch64-linux-gnu"}
RUNS_ALL = os.environ.get("FINDER_ARM") == "whole"
# One case of so many is run, by the gate and in a sample.
SHARE = 4 if IS_WHOLE else 100
# The newest version of the C library that the program may ask for.
NEWEST = (2, 34)
DESCRIBE = '. release/common && of_machine aarch64 && describe "release/$program" "$(sources)" kit >"release/$text"'


# (a case that differs is shown without the lines of this module)
__unittest = True


def setUpModule() -> None:
    """Skips all where the emulator, or the C library, is missing."""
    if not shutil.which(EMULATOR):
        raise unittest.SkipTest(f"there is no {EMULATOR} here")
    if not Path(SYSTEM["QEMU_LD_PREFIX"], "lib", "ld-linux-aarch64.so.1").exists():
        raise unittest.SkipTest("there is no C library for ARM here")


def compile_c(made: Path, *words: object) -> None:
    """Compiles files in C for ARM; skips the test if there is no compiler."""
    if not shutil.which(COMPILER):
        raise unittest.SkipTest(f"there is no {COMPILER} here")
    subprocess.run([COMPILER, "-O2", "-Wall", "-Werror", "-o", str(made), *map(str, words)], check=True)


def write_starter(path: Path, program: Path = PROGRAM) -> None:
    """Writes a script that runs a program for ARM under the emulator, with the words of its caller."""
    variables = " ".join(f"{name}={value}" for name, value in SYSTEM.items())
    path.write_text(f'#!/bin/sh\n{variables} exec {EMULATOR} "{program}" "$@"\n', encoding="utf-8")
    path.chmod(0o755)


class ArmRunner(CaseRunner):
    """Runs cases by the emulator, which preloads the devices into the program, and not into itself."""

    def variables(self, case: Case, nameless: Path) -> dict[str, str]:
        found = super().variables(case, nameless)
        library = found.pop("LD_PRELOAD", None)
        return {**found, "QEMU_SET_ENV": f"LD_PRELOAD={library}"} if library else found


class ArmTest(unittest.TestCase):
    """Has a folder for what a class makes."""

    place: Path

    @classmethod
    def setUpClass(cls) -> None:
        place = tempfile.TemporaryDirectory(prefix="finder-arm-")
        cls.addClassCleanup(place.cleanup)
        cls.place = Path(place.name)


class Cases(ArmTest):
    """Compares the runs of stored cases with their answers, byte for byte."""

    devices: Optional[Path] = None

    @classmethod
    def setUpClass(cls) -> None:
        super().setUpClass()
        write_starter(cls.place / "finder")

    def run_case(self, case: Case, workers: tuple[int, ...]) -> None:
        """Compares each run of a case with its answer."""
        if needs_devices(case) and self.devices is None:
            compile_c(self.place / "devices.so", "-shared", "-fPIC", SOURCE)
            type(self).devices = self.place / "devices.so"
        with tempfile.TemporaryDirectory(dir=self.place) as folder:
            for lines in ArmRunner(self.place / "finder", self.devices).run(case, Path(folder), workers):
                if lines:
                    self.fail("\n".join([f"{case.name} differs", *lines]))


def sampled() -> Iterator[tuple[Case, tuple[int, ...]]]:
    """The cases that are run, with the numbers of workers."""
    every = [case for file in listed_counts() for case in read_cases(file)]
    for number, case in enumerate(every if RUNS_ALL else every[::SHARE]):
        yield case, WORKERS if RUNS_ALL else (WORKERS[number % len(WORKERS)],)


def test_of(case: Case, workers: tuple[int, ...]) -> Callable[[Cases], None]:
    """The test of a case."""
    return lambda self: self.run_case(case, workers)


for each, numbers in sampled():
    setattr(Cases, f"test_{each.name}", test_of(each, numbers))


class Program(ArmTest):
    """What is linked to the program, and what it needs of a system."""

    def test_each_function_in_c_does_what_it_is_for(self) -> None:
        compile_c(self.place / "functions", *FUNCTIONS)
        write_starter(self.place / "start", self.place / "functions")
        done = subprocess.run([self.place / "start", "a", "", "é", "one two"], capture_output=True, text=True, check=False)
        self.assertEqual((done.returncode, done.stdout, done.stderr), (0, "", ""))

    def test_it_needs_no_newer_c_library_than_it_says(self) -> None:
        tool = shutil.which("aarch64-linux-gnu-objdump") or self.skipTest("there is no aarch64-linux-gnu-objdump here")
        said = subprocess.run([tool, "-T", PROGRAM], capture_output=True, text=True, check=True).stdout
        found = {tuple(map(int, it.split("."))) for it in re.findall(r"GLIBC_([0-9.]+)", said)}
        self.assertTrue(found)
        self.assertLessEqual(max(found), NEWEST)


class Launcher(ArmTest):
    """The launcher of a small repository, where `uname` says that the machine is one of ARM."""

    @classmethod
    def setUpClass(cls) -> None:
        super().setUpClass()
        cls.copy = cls.place / "copy"
        make_small_repository(cls.copy)
        write_starter(cls.copy / "release" / PROGRAM.name)
        subprocess.run(["sh", "-ec", DESCRIBE], cwd=cls.copy, check=True)
        (cls.place / "uname").write_text("#!/bin/sh\necho Linux aarch64\n", encoding="ascii")
        (cls.place / "uname").chmod(0o755)

    def start(self, path: str) -> "subprocess.CompletedProcess[str]":
        """Starts it for the summary of a file, with commands of this path."""
        words = ["./finder", "check", EXAMPLE]
        how = {"cwd": self.copy, "env": {**os.environ, "PATH": path}, "capture_output": True, "text": True}
        return subprocess.run(words, check=False, **how)

    def test_it_starts_the_program_of_the_machine(self) -> None:
        here, path = self.start(os.environ["PATH"]), f"{self.place}:{os.environ['PATH']}"
        shutil.rmtree(self.copy / "finder.build")
        for start in ("a first start", "a later start"):
            with self.subTest(start=start):
                done = self.start(path)
                self.assertEqual((done.returncode, done.stdout, done.stderr), (0, here.stdout, ""))
                stamp = (self.copy / "finder.build" / "stamp").read_text("ascii")
                self.assertEqual(stamp.splitlines()[0], f"release/{PROGRAM.name}")


if __name__ == "__main__":
    unittest.main()

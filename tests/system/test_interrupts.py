"""Devices that a signal interrupts, and devices that would have to be waited for."""

import errno
import os
import subprocess
import tempfile
import unittest
from pathlib import Path

from tests.support.case_runs import NoDevices, build_devices
from tests.support.records import TOP

PROGRAM = TOP / "release/finder-x86_64-linux"
TEXT = "examples/de405-2000.asc"
SEARCH = ("find", "--kind", "conj", "--target", "moon", "--second", "sun", "--observer", "earth", TEXT)


class Interrupts(unittest.TestCase):
    """Reads and writes that a signal interrupts are made again; those of a device that does not wait fail."""

    @classmethod
    def setUpClass(cls) -> None:
        folder = tempfile.TemporaryDirectory()
        cls.addClassCleanup(folder.cleanup)
        try:
            cls.devices = build_devices(Path(folder.name))
        except NoDevices as reason:
            raise unittest.SkipTest(str(reason)) from reason

    def run_with(self, *words: str, **variables: str) -> subprocess.CompletedProcess[bytes]:
        """Runs the program with these words, over devices that these variables describe."""
        environment = dict(os.environ, LD_PRELOAD=str(self.devices), **variables)
        return subprocess.run([PROGRAM, *words], cwd=TOP, env=environment, capture_output=True, timeout=120, check=False)

    def test_each_call_is_interrupted(self) -> None:
        plain = self.run_with(*SEARCH)
        self.assertEqual((plain.returncode, plain.stderr), (0, b""))
        for count in ("1", "3"):
            with self.subTest(count=count):
                interrupted = self.run_with(*SEARCH, FINDER_INTERRUPTS=count)
                self.assertEqual(interrupted.stdout, plain.stdout)
                self.assertEqual((interrupted.returncode, interrupted.stderr), (0, b""))

    def test_the_line_of_a_fault_is_interrupted(self) -> None:
        refused = self.run_with("check", "no-such-file", FINDER_INTERRUPTS="2")
        self.assertEqual((refused.returncode, refused.stdout), (4, b""))
        self.assertEqual(refused.stderr, b"finder: read fault no-such-file\n")

    def test_a_file_that_does_not_wait(self) -> None:
        refused = self.run_with(*SEARCH, FINDER_SHELF="65536 2", FINDER_ERRNO=str(errno.EAGAIN))
        self.assertEqual((refused.returncode, refused.stdout), (4, b""))
        self.assertEqual(refused.stderr, f"finder: read fault {TEXT}\n".encode())

    def test_an_output_that_does_not_wait(self) -> None:
        reading, writing = os.pipe()
        os.set_blocking(writing, False)
        try:
            full = 0
            while True:
                full += os.write(writing, b" " * 4096)
        except BlockingIOError:
            how = {"cwd": TOP, "stdout": writing, "stderr": subprocess.PIPE, "timeout": 120}
            refused = subprocess.run([PROGRAM, *SEARCH], check=False, **how)
            self.assertEqual((refused.returncode, refused.stderr), (5, b"finder: write fault\n"))
            self.assertGreater(full, 0)
        finally:
            os.close(reading)
            os.close(writing)


if __name__ == "__main__":
    unittest.main()

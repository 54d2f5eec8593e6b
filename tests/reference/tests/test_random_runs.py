"""Random runs: some are compared with the program, and a program that answers otherwise is found out."""

from __future__ import annotations

import contextlib
import io
import subprocess
import tempfile
import unittest
from pathlib import Path

from tests.reference.random_runs import SORTS, main, made_run
from tests.support.settings import IS_WHOLE, SHIPPED

RUNS = 60 if IS_WHOLE else 15


def runs_here() -> bool:
    """Whether the shipped program can be run on this machine."""
    try:
        return subprocess.run([SHIPPED], capture_output=True, check=False).returncode == 2
    except OSError:
        return False


class Runs(unittest.TestCase):
    """What is made, and how it is compared."""

    def compare(self, *words: str) -> tuple[int, str]:
        """The status and what is printed."""
        with contextlib.redirect_stdout(io.StringIO()) as said:
            status = main([*words, "--seed", "7", "--processes", "2"])
        return status, said.getvalue()

    def test_a_run_is_always_the_same(self) -> None:
        for sort in SORTS:
            self.assertEqual(made_run(3, 1, [sort]), made_run(3, 1, [sort]))
            self.assertNotEqual(made_run(3, 1, [sort]), made_run(3, 2, [sort]))

    @unittest.skipUnless(runs_here(), "the shipped program does not run here")
    def test_the_program(self) -> None:
        status, said = self.compare("--count", str(RUNS))
        self.assertEqual(status, 0, said)
        self.assertIn(f"{RUNS} of {RUNS} runs are the reference's", said)

    def test_a_program_that_answers_otherwise(self) -> None:
        with tempfile.TemporaryDirectory() as folder:
            program = Path(folder, "program")
            program.write_text("#!/bin/sh\nexit 2\n")
            program.chmod(0o755)
            words = ["--count", "3", "--sorts", "scalar", "--program", str(program), "--keep", f"{folder}/kept"]
            status, said = self.compare(*words)
            kept = [path.read_text() for path in sorted(Path(folder, "kept").glob("*/words.txt"))]
        self.assertEqual(status, 1)
        self.assertIn("0 of 3 runs are the reference's", said)
        self.assertIn("run 1 of seed 7 differs: finder scalar", said)
        self.assertEqual([words.split()[0] for words in kept], ["scalar"] * 3)


if __name__ == "__main__":
    unittest.main()

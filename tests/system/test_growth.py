"""Two searches of `dev/growth` take no more instructions than they took, and the whole of each no more than its halves."""

from __future__ import annotations

import re
import shutil
import subprocess
import sys
import unittest

from tests.support.tool_runs import SECONDS, TOP

WORDS = ("--seed", "11", "--parts", "2", "2")
# Of each search: its options, and the most millions of instructions of the whole. The program of 1 December 2026 takes 9.9
# and 6.9, with the C library of Debian 12; another one takes some more or fewer.
SEARCHES = (
    ("--kind sepext --target moon --observer sun --cut half --second pluto", 10.9),
    ("--kind apsis --target moon --observer mars --cut half", 7.6),
)
# The most by which the whole takes its halves; that program's are 0.909 and 0.891. Reading takes no part in it.
MAX_RATIO = 0.96
LINE = re.compile(r" *([0-9.]+) +([0-9.]+)  (--.*)")


class Growth(unittest.TestCase):
    """The work of a search and of its parts, as valgrind counts it."""

    @unittest.skipUnless(shutil.which("valgrind"), "the command valgrind is not on the path")
    def test_two_searches(self) -> None:
        words = [sys.executable, "-B", str(TOP / "dev" / "growth"), *WORDS]
        done = subprocess.run(words, capture_output=True, text=True, timeout=10 * SECONDS, check=False)
        self.assertEqual(done.returncode, 0, done.stderr)
        *lines, last = done.stdout.splitlines()
        self.assertEqual(len(lines), len(SEARCHES), done.stdout)
        for line, (options, most) in zip(lines, SEARCHES):
            with self.subTest(options):
                found = LINE.fullmatch(line)
                assert found, line
                self.assertEqual(found[3], options)
                self.assertTrue(1 < float(found[2]) <= most, line)
                self.assertTrue(0.5 < float(found[1]) <= MAX_RATIO, line)
        greatest = max(float(line.split()[0]) for line in lines)
        self.assertEqual(last, f"greatest {greatest:.3f} of 2 searches in 2 parts, seed 11")


if __name__ == "__main__":
    unittest.main()

"""A search in parts has the windows of the whole. What is expected is the program's own report of the whole span."""

import logging
import sys
import unittest
from unittest import mock

import finder
from finder.searches import pieces
from tests.common import PROGRAM, TOOL, TOP, YEAR, InFolder, command, of_the_whole, split_year

EARTH = {"observer": "earth"}
DISCS = (1737.4, 6378.1)
CANCEL = ("--kind", "any", "--target", "moon", "--second", "earth", "--observer", "mars")
RADII = ("--radius1", "1737.4", "--radius2", "6378.1")
# A program that sleeps where it is asked for a part of the year that is longer than so many days.
SLEEPY = """\
#!{python}
import os, sys, time
sys.path.insert(0, {package!r})
from finder.spans import ticks_of
words = dict(word[2:].split("=", 1) for word in sys.argv[2:] if word.startswith("--") and "=" in word)
if ticks_of(words["to"]) - ticks_of(words["from"]) > {days} * 86400:
    time.sleep(60)
os.execv({program!r}, [{program!r}, *sys.argv[1:]])
"""


class Parts(InFolder):
    def test_a_number_of_parts(self):
        for call in (
            lambda **more: finder.apsides(YEAR, "moon", tick=1000, **EARTH, **more),
            lambda **more: finder.conjunctions(YEAR, "moon", "sun", "2000-02-02", "2000-11-05", **EARTH, **more),
            lambda **more: finder.certificate(YEAR, "station", "mercury", **EARTH, **more),
            lambda **more: finder.retrograde(YEAR, "mercury", **EARTH, **more),
        ):
            whole = call(parts=1)
            for parts in (2, 5, 1000):
                self.assertEqual(call(parts=parts), whole)
        for wrong, error in ((0, ValueError), (1.5, TypeError), ("many", TypeError)):
            self.assertRaises(error, finder.apsides, YEAR, "moon", parts=wrong, **EARTH)

    def test_progress_over_files(self):
        header, files = split_year(self.folder)
        done = []
        found = finder.apsides([header, *files], "moon", progress=done.append, **EARTH)
        self.assertEqual((found, done), (finder.apsides(YEAR, "moon", **EARTH), [1, 1, 1]))

    @of_the_whole
    def test_bodies_that_almost_cancel(self):
        """The year of the file is longer than a year, and so cut; a part that takes too long is cut again."""
        whole = command("find", *CANCEL, *RADII, YEAR)
        sleepy = self.folder / "sleepy"
        words = {"python": sys.executable, "package": str(TOP / "python"), "days": 100, "program": str(PROGRAM)}
        sleepy.write_text(SLEEPY.format(**words))
        sleepy.chmod(0o755)
        with mock.patch.object(pieces, "BUDGET", 1.0), self.assertLogs("finder", logging.INFO) as said:
            found = finder.occultations(YEAR, "moon", "earth", DISCS, observer="mars", program=sleepy)
        self.assertEqual(found.text, whole)
        # (on a machine with much other work more parts take too long)
        self.assertGreaterEqual(sum("status 0" in line for line in said.output), 4)

    def test_a_plan_of_years(self):
        plan = command_of_tool("cut", "--parts", "auto", YEAR)
        self.assertEqual([line.split()[0][:4] for line in plan.splitlines()], ["1999", "2000"])
        self.assertEqual(len(command_of_tool("cut", "--parts", "auto", "--to", "2000-06-01T00:00:00", YEAR).splitlines()), 1)


def command_of_tool(*words):
    """What `tools/spans` prints."""
    import subprocess

    return subprocess.run([sys.executable, TOOL, *words], capture_output=True, check=True, text=True).stdout


class Log(InFolder):
    def test_each_command_and_its_time(self):
        with self.assertLogs("finder", logging.INFO) as said:
            finder.check(YEAR)
        self.assertRegex(said.output[0], r"^INFO:finder:check -- .*de405-2000.asc: status 0, [0-9.]+ seconds$")


class Lines(InFolder):
    def test_bodies_in_one_line(self):
        for call in (
            lambda **more: finder.conjunctions(YEAR, "moon", "emb", **EARTH, **more),
            lambda **more: finder.oppositions(YEAR, "Earth", 301, observer=3, **more),
            lambda **more: finder.separation_extremes(YEAR, "emb", "earth", observer="moon", **more),
        ):
            with self.assertRaisesRegex(ValueError, "lie in one line with .* at all times"):
                call()
        found = finder.conjunctions(YEAR, "moon", "emb", depth=6, **EARTH)
        self.assertEqual((len(found), found.certain.any()), (1, False))


if __name__ == "__main__":
    unittest.main()

"""Files that are named in any order: each call gives what it gives of the right one, or refuses. What is expected is the
call's own answer of JPL's year in one file, in which the blocks stand as JPL published them."""

import inspect
import itertools
import os
import random
import subprocess
import sys
import tempfile
import unittest

import finder
import finder.plot
from tests.common import PROGRAM, TOOL, TOP, YEAR, InFolder, of_the_whole, sample, split_year

EARTH = {"observer": "earth"}
SPRING = {"start": "2000-03-01", "end": "2000-06-20", **EARTH}
DISCS = (1737.4, 3389.5)


def new_moons():
    """The windows that are looked at beside the files."""
    return finder.conjunctions(YEAR, "moon", "sun", frame="ecl", **SPRING)


# What each public call that takes files says of them: a text, or what can be compared.
CALLS = {
    "apsides": lambda files: finder.apsides(files, "moon", **EARTH).text,
    "certificate": lambda files: finder.certificate(files, "apsis", "moon", **SPRING).text,
    "check": finder.check,
    "conjunctions": lambda files: finder.conjunctions(files, "moon", "sun", **EARTH).text,
    "coordinate": lambda files: finder.coordinate(files, "mercury", "x").text,
    "distance": lambda files: finder.distance(files, "moon", 384_400, **SPRING).text,
    "far": lambda files: finder.far(files, "moon", "sun", degrees=90, **SPRING).text,
    "find": lambda files: finder.find(files, "station", "mercury", **EARTH).text,
    "greatest": lambda files: repr(finder.greatest(files, "moon", **SPRING)),
    "intervals": lambda files: finder.intervals(finder.separation(files, "moon", "sun", cosine=0, **SPRING), files),
    "least": lambda files: repr(finder.least(files, "moon", **SPRING)),
    "near": lambda files: finder.near(files, "moon", "sun", degrees=90, **SPRING).text,
    "occultations": lambda files: finder.occultations(files, "moon", "mars", DISCS, **EARTH).text,
    "on_at_start": lambda files: finder.on_at_start(finder.separation(files, "moon", "sun", cosine=0, **SPRING), files),
    "oppositions": lambda files: finder.oppositions(files, "jupiter", **EARTH).text,
    "retrograde": lambda files: finder.retrograde(files, "mercury", **EARTH).text,
    "seen": lambda files: finder.seen(new_moons(), files, of_date=False).seconds.tolist(),
    "separation": lambda files: finder.separation(files, "moon", "sun", cosine=0, **EARTH).text,
    "separation_extremes": lambda files: finder.separation_extremes(files, "venus", "sun", **EARTH).text,
    "Series": lambda files: finder.Series(files).body("moon", 0.0).tolist(),
    "stations": lambda files: finder.stations(files, "venus", **EARTH).text,
    "times": lambda files: finder.times(files, "apsis", "moon", relation="less", **SPRING).text,
    "values": lambda files: finder.values(new_moons(), files).angle.tolist(),
    "verify": lambda files: finder.verify(files, finder.certificate(YEAR, "apsis", "moon", **SPRING)).windows.text,
}
# Those whose answers are compared in a test of their own.
ELSEWHERE = {"almanac", "over_files"}


def parameters_of(call):
    """The names of the parameters of a public call; an exception has none that matter."""
    if isinstance(call, type) and issubclass(call, Exception):
        return ()
    return inspect.signature(call).parameters


def shuffles(items, count, seed):
    """Some orders of items, none of them the first."""
    orders = list(itertools.permutations(items))[1:]
    return random.Random(seed).sample(orders, count)


class Orders(InFolder):
    def setUp(self):
        super().setUp()
        self.header, self.files = split_year(self.folder)

    def test_each_call_that_takes_files_is_here(self):
        public = {name: getattr(finder, name) for name in finder.__all__}
        taking = {name for name, call in public.items() if "files" in parameters_of(call)}
        # (`join` takes what `check` says of files; an `Almanac` and `Windows` have those that they are of)
        self.assertEqual(taking - {"join", "Almanac", "Windows"}, {*CALLS, *ELSEWHERE})

    def test_each_call_over_shuffled_files(self):
        calls = dict(sample(CALLS.items(), 3))
        whole = {name: call(YEAR) for name, call in calls.items()}
        for seed, (name, call) in enumerate(calls.items()):
            for order in shuffles([self.header, *self.files], 2, seed):
                with self.subTest(name, order=[file.name for file in order]):
                    self.assertEqual(call(order), whole[name])

    def test_over_files(self):
        whole = finder.apsides(YEAR, "moon", **EARTH)
        for order in shuffles(self.files, 3, 1):
            self.assertEqual(finder.over_files(finder.apsides, order, "moon", header=self.header, **EARTH), whole)

    def test_the_curve_of_a_picture(self):
        whole = finder.plot.curve(new_moons(), YEAR, points=3)
        for order in shuffles([self.header, *self.files], 2, 2):
            self.assertEqual(finder.plot.curve(new_moons(), order, points=3).values.tolist(), whole.values.tolist())

    def test_folders_and_patterns(self):
        whole = finder.check(YEAR)
        (self.folder / "notes.txt").write_text("no text of a series\n")
        for files in (self.folder, str(self.folder), self.folder / "*.405", [self.folder / "asc*", self.header]):
            self.assertEqual(finder.check(files), whole)
        with self.assertRaisesRegex(finder.WrongFiles, "has [0-9] headers"):
            finder.check(TOP / "examples")
        with tempfile.TemporaryDirectory() as empty, self.assertRaisesRegex(finder.WrongFiles, "no text of a DE series"):
            finder.check(empty)

    def test_blocks_in_a_wrong_order_within_a_file(self):
        texts = [file.read_bytes() for file in self.files]
        turned = self.folder / "turned.405"
        turned.write_bytes(texts[0] + texts[2] + texts[1])
        files = [self.header, turned]
        for name, call in CALLS.items():
            with self.subTest(name):
                self.assertRaises(ValueError, call, files)
        self.assertRaises(ValueError, finder.almanac, files, "2000-03-01", "2000-04-01")

    def test_a_header_before_late_blocks(self):
        late = self.folder / "late.405"
        late.write_bytes(self.header.read_bytes() + self.files[2].read_bytes())
        with self.assertRaisesRegex(finder.WrongFiles, "late.405 has the header and later blocks than .*ascp0.405"):
            finder.check([late, self.files[0], self.files[1]])

    def test_a_file_that_is_written_anew(self):
        """What is known of a file is that of its last bytes."""
        files = [self.header, *self.files[1:], self.files[0]]
        whole = finder.check(files)
        texts = [file.read_bytes() for file in self.files]
        for file, text in zip(self.files, (texts[2], texts[0], texts[1])):
            file.write_bytes(text)
        self.assertEqual(finder.check(files), whole)

    def test_a_pipe_among_files(self):
        pipe = self.folder / "pipe"
        os.mkfifo(pipe)
        with self.assertRaisesRegex(finder.WrongFiles, "no file that can be read twice"):
            finder.check([self.header, pipe, self.files[0]])


class Tools(InFolder):
    """`tools/spans` and `tools/publish` refuse what would lose blocks."""

    def run_tool(self, *words):
        environment = {**os.environ, "FINDER": str(PROGRAM)}
        return subprocess.run([sys.executable, *map(str, words)], env=environment, capture_output=True, check=False)

    @of_the_whole
    def test_files_in_a_wrong_order(self):
        header, files = split_year(self.folder)
        (self.folder / "catalogue").write_text("apsides --kind apsis --target moon --observer earth\n")
        publish = (TOP / "tools/publish", self.folder / "catalogue", self.folder / "out")
        for words in ((TOOL, "cut", 2), publish):
            done = self.run_tool(*words, header, files[1], files[0], files[2])
            self.assertEqual((done.returncode, done.stdout), (1, b""))
            self.assertIn(b"ascp0.405 begins before", done.stderr)
            self.assertFalse((self.folder / "out").exists())
            done = self.run_tool(*words, header, *files)
            self.assertEqual(done.returncode, 0, done.stderr)


if __name__ == "__main__":
    unittest.main()

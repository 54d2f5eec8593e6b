"""Each search gives the command's report, letter for letter, and its windows as arrays, times and tables."""

import importlib.util
import os
import re
import shlex
import tempfile
import unittest

import numpy as np

import finder
from tests.common import REPORT, SECOND, TOP, YEAR, InFolder, command

SEEN = {"observer": "earth", "frame": "ecl"}
RADII = (696_000, "6051.8")
SPRING = "--from 2000-03-01T00:00:00 --to 2000-08-01T00:00:00"
# A call, and the words of the command that ask for the same.
SEARCHES = {
    "--kind coord --target mercury --axis x": lambda: finder.coordinate(YEAR, "mercury", "x"),
    "--kind coord --target moon --observer earth --frame ecl --axis z --ref=-1.5e4 --dir rise": lambda: finder.coordinate(
        YEAR, "moon", "z", "-1.5e4", dir="rise", **SEEN
    ),
    "--kind radius --target mercury --observer earth --ref 100000000": lambda: finder.distance(
        YEAR, "mercury", 100_000_000, observer="earth"
    ),
    "--kind apsis --target earth --observer sun --dir fall": lambda: finder.apsides(
        YEAR, "earth", observer="sun", dir="fall"
    ),
    "--kind conj --target mercury --second sun --observer earth --frame ecl --workers 2": lambda: finder.conjunctions(
        YEAR, "mercury", "sun", workers=2, **SEEN
    ),
    "--kind conj --target moon --second sun --observer earth --depth 4 --cut third": lambda: finder.conjunctions(
        YEAR, "moon", "sun", observer="earth", depth=4, cut="third"
    ),
    "--kind oppo --target jupiter --second sun --observer earth --frame ecl --tick 1000": lambda: finder.oppositions(
        YEAR, "jupiter", tick=1000, **SEEN
    ),
    f"--kind station --target mercury --observer earth --frame ecl {SPRING}": lambda: finder.stations(
        YEAR, "mercury", start="2000-03-01", end="2000-08-01", **SEEN
    ),
    "--kind sep --target venus --second jupiter --observer earth --ref 0.9998476951563913": lambda: finder.separation(
        YEAR, "venus", "jupiter", cosine=0.9998476951563913, observer="earth"
    ),
    "--kind sep --target moon --second sun --observer earth --ref=-0.5": lambda: finder.separation(
        YEAR, "moon", "sun", degrees=120, observer="earth"
    ),
    "--kind sepext --target venus --second sun --observer earth": lambda: finder.separation_extremes(
        YEAR, "venus", "sun", observer="earth"
    ),
    "--kind apsis --target moon --observer earth --tick 1000 --width 60000": lambda: finder.apsides(
        YEAR, "moon", observer="earth", tick=1000, width=60_000
    ),
    **{
        f"--kind {kind} --target sun --second venus --observer earth --radius1 696000 --radius2 6051.8": (
            lambda kind=kind: finder.occultations(YEAR, "sun", "venus", RADII, kind=kind, observer="earth")
        )
        for kind in ("any", "full", "annular")
    },
}
NAMES = {"from": "start", "to": "end"}


def has(name):
    return importlib.util.find_spec(name) is not None


class Searches(InFolder):
    def test_each_search_gives_the_report_of_the_command(self):
        for words, call in SEARCHES.items():
            with self.subTest(words):
                self.assertEqual(call().text, command("find", *words.split(), YEAR))

    def test_each_search_of_the_manual_gives_what_it_shows(self):
        """With `tail -n +2` it shows all but the line of the request."""
        text = "".join((TOP / f"docs/guide/{page}.md").read_text() for page in ("usage", "recipes"))
        shown = re.findall(r"^    \$ \./finder find ([^|\n]*)( \| tail -n \+2)?\n((?:    (?:FIND|C|U|END) .*\n)+)", text, re.M)
        self.assertGreater(len(shown), 15)
        for words, is_tail, report in shown:
            with self.subTest(words):
                options = dict(re.findall(r"--(\w+)[ =](\S+)", words))
                radii = options.pop("radius1", None), options.pop("radius2", None)
                numbers = {name: int(options[name]) for name in ("tick", "width", "depth") if name in options}
                given = {NAMES.get(name, name): value for name, value in {**options, **numbers}.items()}
                found = finder.find(TOP / shlex.split(words)[-1], radii=radii if radii[0] else None, **given)
                text = found.text.partition("\n")[2] if is_tail else found.text
                self.assertEqual(text, report.replace("    ", ""))

    def test_a_check_gives_the_summary_of_the_command(self):
        found = finder.check(YEAR)
        self.assertEqual(
            (found.start, found.end, found.block, found.blocks, found.ncoeff),
            (-734_400, 32_443_200, 2_764_800, 12, 1018),
        )
        lines = [f"COLUMN {name} coefficients {row[0]} granules {row[1]}" for name, row in found.columns.items()]
        self.assertEqual(lines, command("check", YEAR).splitlines()[1:])

    def test_several_files_and_names_that_begin_with_a_dash(self):
        lines = YEAR.read_text().splitlines(keepends=True)
        (self.folder / "-a").write_text("".join(lines[:1000]))
        (self.folder / "b").write_text("".join(lines[1000:]))
        found = finder.conjunctions([self.folder / "-a", str(self.folder / "b")], "jupiter", "saturn", **SEEN)
        self.assertEqual(found.text, REPORT)


class Views(InFolder):
    def setUp(self):
        super().setUp()
        self.found = finder.conjunctions(YEAR, "jupiter", "saturn", **SEEN)
        self.moons = finder.apsides(YEAR, "moon", observer="earth", tick=1000)

    def test_a_sequence_of_windows(self):
        self.assertEqual(list(self.found), [finder.Window(SECOND, SECOND, "fall")])
        self.assertEqual(self.found[-1], self.found[0])
        self.assertEqual((self.found.start, self.found.end, self.found.tick), (-734_400, 32_443_200, 1))
        self.assertEqual(self.found.request_words["target"], "jupiter")
        self.assertRaises(IndexError, lambda: self.found[1])
        self.assertEqual(len(self.moons), 28)
        self.assertEqual(len(self.moons[self.moons.certain]), 22)
        self.assertEqual(list(self.moons[2:5]), list(self.moons)[2:5])
        self.assertEqual({window.turn for window in self.moons[self.moons.rises]}, {"rise"})
        self.assertEqual(int(self.moons.rises.sum() + self.moons.falls.sum()), 22)
        self.assertIsNone(self.moons[~self.moons.certain][0].turn)

    def test_arrays_that_stay_as_they_are(self):
        self.assertEqual(self.found.first.dtype, np.int64)
        with self.assertRaises(ValueError):
            self.found.first[0] = 0

    def test_times_of_the_calendar(self):
        self.assertEqual(self.found.datetime64().tolist(), [np.datetime64("2000-05-28T15:55:49").item()])
        exact = finder.conjunctions(YEAR, "jupiter", "saturn", tick=1000, **SEEN)
        self.assertEqual(str(exact.datetime64("first")[0]), "2000-05-28T15:55:48.503")

    @unittest.skipUnless(has("astropy"), "astropy is not here")
    def test_times_and_tables_of_astropy(self):
        self.assertEqual((self.found.time().scale, self.found.time().isot[0]), ("tdb", "2000-05-28T15:55:49.000"))
        self.assertEqual(self.found.to_table()["last"].isot.tolist(), ["2000-05-28T15:55:49.000"])
        texts = [line.split()[2] for line in self.moons.text.splitlines()[1:-1]]
        self.assertEqual(self.moons.time().isot.tolist(), texts)
        last = self.found.time()[0]
        self.assertEqual(len(finder.conjunctions(YEAR, "jupiter", "saturn", end=last, **SEEN)), 1)
        self.assertEqual(len(finder.conjunctions(YEAR, "jupiter", "saturn", start=last, **SEEN)), 0)

    @unittest.skipUnless(has("pandas"), "pandas is not here")
    def test_tables_of_pandas(self):
        rows = self.moons.to_pandas()
        lines = [
            f"{'C' if row.certain else 'U'} {row.first.isoformat()[:23]} {row.last.isoformat()[:23]} {row.turn or ''}".strip()
            for row in rows.itertuples()
        ]
        self.assertEqual(lines, self.moons.text.splitlines()[1:-1])
        self.assertEqual(rows["first_ms"].tolist(), self.moons.first.tolist())
        self.assertEqual({*rows["target"], *rows["kind"]}, {"moon", "apsis"})

    @unittest.skipUnless(has("pandas"), "pandas is not here")
    def test_tables_of_two_ticks_are_joined(self):
        import pandas

        seconds, exact = (finder.apsides(YEAR, "moon", tick=tick, observer="earth").to_pandas() for tick in (1, 1000))
        self.assertEqual(list(seconds.columns), list(exact.columns))
        self.assertEqual(seconds.dtypes.tolist(), exact.dtypes.tolist())
        both = pandas.merge_asof(seconds, exact, on="last", direction="nearest", tolerance=pandas.Timedelta("1s"))
        # (within the second of the one lies the millisecond of the other)
        later = both["last_ms_x"] - both["last_ms_y"]
        self.assertTrue(((later >= 0) & (later < 1000)).all())
        self.assertEqual(exact["turn"].isna().tolist(), (~exact["certain"]).tolist())
        self.assertGreater(int(exact["turn"].isna().sum()), 0)

    @unittest.skipUnless(has("pandas") and has("erfa"), "pandas or erfa is not here")
    def test_tables_with_what_is_seen(self):
        rows = finder.conjunctions(YEAR, "moon", "sun", observer="earth", frame="ecl", end="2000-03-01").to_pandas(
            seen=True, values=True
        )
        # New moons of 2000 in the Astronomical Almanac: January 6, 18:14, and February 5, 13:03 (UT).
        self.assertEqual(rows["seen_utc"].dt.round("min").astype(str).tolist(), ["2000-01-06 18:14:00", "2000-02-05 13:03:00"])
        self.assertLess(rows["angle"].max(), 6)
        read = finder.Windows.of_text(self.moons.text)
        self.assertRaises(TypeError, read.to_pandas, seen=True)
        self.assertEqual(len(read.to_pandas(seen=True, files=YEAR)), len(self.moons))

    @unittest.skipUnless(has("pandas") and has("pyarrow"), "pandas or pyarrow is not here")
    def test_parquet(self):
        import pandas

        with tempfile.TemporaryDirectory() as folder:
            name = os.path.join(folder, "moons.parquet")
            self.moons.to_pandas().to_parquet(name)
            self.assertEqual(pandas.read_parquet(name)["last_ms"].tolist(), self.moons.last.tolist())

    def test_what_a_notebook_shows(self):
        page = self.moons._repr_html_()
        self.assertEqual((page.count("<tr>"), page.count("<caption>")), (21, 1))
        self.assertIn("(the first 20 of 28)", page)
        self.assertIn("and 23 more>", repr(self.moons))
        self.assertIn("<td>perigee</td>", page)

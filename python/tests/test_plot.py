"""The function that is drawn around a window has there the signs that the window says; the pictures are drawn."""

import importlib.util
import unittest

import numpy as np

import finder
import finder.plot
from tests.common import YEAR, InFolder, of_the_whole, sample, split_year

SEEN = {"observer": "earth", "frame": "ecl"}
DISCS = {"radii": (696_000, 6051.8), "observer": "earth"}
EVENTS = {
    "coord": lambda: finder.coordinate(YEAR, "moon", "z", 15_000, **SEEN),
    "radius": lambda: finder.distance(YEAR, "mercury", 100_000_000, observer="earth"),
    "apsis": lambda: finder.apsides(YEAR, "moon", observer="earth"),
    "conj": lambda: finder.conjunctions(YEAR, "mercury", "sun", **SEEN),
    "oppo": lambda: finder.oppositions(YEAR, "moon", **SEEN),
    "station": lambda: finder.stations(YEAR, "mercury", **SEEN),
    "sep": lambda: finder.separation(YEAR, "venus", "jupiter", degrees=1, observer="earth"),
    "sepext": lambda: finder.separation_extremes(YEAR, "mercury", "venus", observer="earth"),
    "any": lambda: finder.occultations(YEAR, "sun", "venus", **DISCS),
    "full": lambda: finder.occultations(YEAR, "sun", "venus", kind="full", **DISCS),
    "annular": lambda: finder.occultations(
        YEAR, "mercury", "sun", (2439.7, 696_000), kind="annular", observer="jupiter"
    ),
}


class Curves(InFolder):
    def test_the_function_turns_in_the_window(self):
        for kind, search in EVENTS.items():
            found = search()
            self.assertGreater(len(found), 0)
            for number in (0, len(found) - 1):
                with self.subTest(kind, number=number):
                    drawn = finder.plot.curve(found, YEAR, number, margin=120, points=5)
                    sign = 1 if found[number].turn == "rise" else -1
                    self.assertLess(drawn.values[0] * sign, 0)
                    self.assertGreater(drawn.values[-1] * sign, 0)

    def test_files_are_read_as_one(self):
        header, files = split_year(self.folder)
        found = EVENTS["station"]()
        one = finder.plot.curve(found, YEAR, 3)
        other = finder.plot.curve(found, [header, *files], 3)
        self.assertTrue(np.array_equal(one.values, other.values))
        self.assertEqual(len(one.times), 201)


@unittest.skipUnless(importlib.util.find_spec("matplotlib"), "matplotlib is not here")
class Pictures(InFolder):
    def setUp(self):
        super().setUp()
        import matplotlib
        import matplotlib.pyplot as plt

        matplotlib.use("Agg")
        self.addCleanup(plt.close, "all")

    def assert_fits(self, axes):
        """All that is written is within the picture, and no two names of rows are on one another."""
        figure = axes.figure
        figure.canvas.draw()
        drawn = figure.canvas.get_renderer()
        # (in inches)
        box, (width, height) = figure.get_tightbbox(drawn), figure.get_size_inches()
        self.assertGreaterEqual(min(box.x0, box.y0), -0.01)
        self.assertLessEqual(box.x1, width + 0.01)
        self.assertLessEqual(box.y1, height + 0.01)
        boxes = [label.get_window_extent(drawn) for label in axes.get_yticklabels() if label.get_text()]
        for one, other in zip(boxes, boxes[1:]):
            self.assertFalse(one.overlaps(other))

    def test_pictures(self):
        found = finder.conjunctions(YEAR, "moon", "sun", depth=4, **SEEN)
        axes = finder.plot.timeline({"New Moon": found, "stations": EVENTS["station"]()}, title="2000")
        self.assertEqual([label.get_text() for label in axes.get_yticklabels()], ["New Moon", "stations"])
        axes = finder.plot.around(found, YEAR, 2)
        self.assertIn("positions in doubles", " ".join(axes.get_xlabel().split()))
        axes.figure.savefig(self.folder / "picture.png")
        self.assertTrue((self.folder / "picture.png").read_bytes().startswith(b"\x89PNG"))

    @of_the_whole
    def test_what_is_written_fits(self):
        """Long names of rows, titles and units, sets and windows, one row and many."""
        found = EVENTS["full"]()
        back = finder.retrograde(YEAR, "mercury", **SEEN)
        name = "Venus is wholly behind the Sun, as it is seen from the centre of the Earth by its light"
        rows = {name: found, "Mercury moves backward": back, "sure times alone": back.sure}
        for shown in sample((rows, {name: found}, {f"{name}, {number}": found for number in range(20)}), 2):
            self.assert_fits(finder.plot.timeline(shown, title=f"{name}, and a title that is wider than the picture"))
        for margin in sample((8, 7_200, 40 * 86_400), 2):
            self.assert_fits(finder.plot.around(found, YEAR, margin=margin))

    def test_units_of_time(self):
        found = EVENTS["apsis"]()
        for margin, unit in ((8, "seconds"), (900, "minutes"), (20_000, "hours"), (500_000, "days")):
            axes = finder.plot.around(found, YEAR, 5, margin=margin)
            self.assertTrue(axes.get_xlabel().startswith(f"{unit} from "))
            low, high = axes.get_xlim()
            self.assertLess(high - low, 320)

    def test_rises_and_falls_stand_apart(self):
        """In a row with many windows no rise is at the height of a fall, and each is drawn as a line."""
        apsides = EVENTS["apsis"]()
        axes = finder.plot.timeline({"apsides": apsides})
        heights = [set(line.get_ydata()) for line in axes.get_lines()]
        self.assertEqual([len(each) for each in heights], [1, 1])
        self.assertFalse(heights[0] & heights[1])
        self.assertEqual([line.get_marker() for line in axes.get_lines()], ["^", "v"])
        lines = finder.plot.timeline({"many": crowd_of(apsides)}).get_lines()
        self.assertEqual([line.get_marker() for line in lines], ["|", "|"])

    def test_sets_are_bars(self):
        back = finder.retrograde(YEAR, "mercury", **SEEN)
        lines = finder.plot.timeline({"back": back}).get_lines()
        self.assertEqual(len(lines), len(back.possible) + len(back.sure))
        ends = [line.get_xdata() for line in lines[len(back.possible) :]]
        self.assertEqual([str(end[0]) for end in ends], [str(time) for time in back.sure.datetime64("first")])

    def test_years_that_are_no_dates(self):
        text = finder.conjunctions(YEAR, "jupiter", "saturn", **SEEN).text.replace(" 2000-05", " -000583-05")
        early = finder.Windows.of_text(text.replace("1999-12-24", "-000584-12-24").replace("2001-01", "-000582-01"))
        axes = finder.plot.timeline({"early": early})
        self.assertIn("Julian years", axes.get_xlabel())
        self.assertAlmostEqual(float(axes.get_lines()[0].get_xdata()[0]), -583 + 148 / 365.25, delta=0.1)
        self.assert_fits(axes)


def crowd_of(found):
    """A report with many windows in both directions: one each day."""
    days = np.arange("2000-01-01", "2000-12-31", dtype="M8[D]")
    turns = ["rise", "fall"] * len(days)
    lines = [f"C {day}T00:00:00 {day}T00:00:00 {turn}\n" for day, turn in zip(days, turns)]
    head = found.text.splitlines(keepends=True)[0]
    return finder.Windows.of_text(f"{head}{''.join(lines)}END certain {len(lines)} undecided 0\n")

"""What is made of sets of times: differences, spans that are long enough, totals, and whether a time is in a set."""

import datetime
import importlib
import random
import unittest
from fractions import Fraction

import numpy as np

from finder import Spans, TimeSet
from finder.searches.times import seconds_of_length

scales = importlib.import_module("finder.seen.scales")

# Lengths of time, and their seconds.
LENGTHS = (
    ("2h", 7200), ("90min", 5400), ("90 minutes", 5400), ("1h30m", 5400), ("1 d 1 s", 86_401), ("0.5h", 1800),
    (45, 45), (0.25, Fraction(1, 4)), (datetime.timedelta(hours=2), 7200), (np.timedelta64(3, "m"), 180),
    (np.int64(7), 7),
)  # fmt: skip
NO_LENGTHS = ("", "soon", "2", "h", "1..2h", "-2h", -1, datetime.timedelta(seconds=-1), True, None, [1])


def set_of(sure, possible, end=10_000):
    """A set of spans from 0 to an end, at a tick of a second."""
    rows = (Spans(1, [first for first, _ in spans], [last for _, last in spans]) for spans in (sure, possible))
    return TimeSet(0, end, *rows, ["a request"])


class Sets(unittest.TestCase):
    def test_lengths(self):
        for length, seconds in LENGTHS:
            with self.subTest(length):
                self.assertEqual(seconds_of_length(length), seconds)
        for length in NO_LENGTHS:
            with self.subTest(length), self.assertRaisesRegex((ValueError, TypeError), "length of time"):
                seconds_of_length(length)

    def test_difference(self):
        one = set_of([(10, 100)], [(0, 110)])
        other = set_of([(50, 60)], [(45, 65)])
        self.assertEqual(one - other, one & ~other)
        self.assertEqual(list((one - other).sure), [(10, 44), (66, 100)])
        self.assertEqual(list((one - other).possible), [(0, 49), (61, 110)])
        with self.assertRaises(TypeError):
            one - 5

    def test_longer_than(self):
        made = set_of([(0, 60), (100, 161), (200, 300)], [(0, 61), (100, 161), (190, 310)]).longer_than("1min")
        self.assertEqual(list(made.sure), [(100, 161), (200, 300)])
        self.assertEqual(list(made.possible), [(0, 61), (100, 161), (190, 310)])

    def test_longer_than_keeps_its_promise(self):
        """By brute force: between the sure and the possible times any set may lie, and its long spans are found."""
        draw = random.Random(1)
        for _ in range(200):
            ticks = [draw.choice("sp.") * draw.randint(1, 9) for _ in range(20)]
            letters = "".join(ticks)
            true = [letter == "s" or (letter == "p" and draw.random() < 0.5) for letter in letters]
            length = draw.randint(0, 9)
            made = set_of(runs(letters, "s"), runs(letters, "sp"), len(letters) - 1).longer_than(length)
            text = "".join("t" if each else "." for each in true)
            long = {tick for first, last in runs(text, "t") if last - first > length for tick in range(first, last + 1)}
            sure, possible = ({tick for span in rows for tick in range(span[0], span[1] + 1)} for rows in made.rows)
            self.assertLessEqual(sure, long)
            self.assertLessEqual(long, possible)

    def test_total(self):
        total = set_of([(0, 60), (100, 160)], [(0, 3600), (4000, 4001)]).total()
        self.assertEqual(total.sure, datetime.timedelta(seconds=120))
        self.assertEqual(total.possible, datetime.timedelta(hours=1, seconds=1))
        fine = Spans(1000, [0], [1])
        self.assertEqual(fine.total(), datetime.timedelta(milliseconds=1))

    def test_contains(self):
        made = set_of([(10, 20)], [(5, 25)])
        for time, known in ((4, False), (5, None), (9, None), (10, True), (20, True), (21, None), (26, False)):
            self.assertIs(made.contains(time), known, f"{time}")
        self.assertIs(made.contains("2000-01-01T12:00:15.5"), True)
        self.assertIs(made.contains("2000-01-01T12:00:20.5"), None)
        self.assertIs(made.contains("2000-01-01T12:00:04.5"), None)
        with self.assertRaisesRegex(ValueError, "outside of the set's span"):
            made.contains(-1)


def runs(letters, wanted):
    """The spans of places whose letter is among some."""
    made, first = [], None
    for place, letter in enumerate(letters + "|"):
        if letter in wanted and first is None:
            first = place
        elif letter not in wanted and first is not None:
            made.append((first, place - 1))
            first = None
    return made


class Clocks(unittest.TestCase):
    def test_names(self):
        """A clock shows the name of its own scale or zone."""
        rows = (
            (scales.Clock(), "UTC"),
            (scales.Clock(scales.Scale.TT), "TT"),
            (scales.Clock(scales.Scale.TDB), "TDB"),
            (scales.Clock(zone=scales.zone_of("Europe/Berlin")), "Europe/Berlin"),
            (scales.Clock.of("+02:00"), "UTC+02:00"),
            (scales.Clock.of("-0330"), "UTC-03:30"),
            (scales.Clock.of("tt"), "TT"),
            (scales.Clock.of(datetime.timezone.utc), "UTC"),
            (scales.Clock(scales.Scale.TT, name="Terrestrial Time"), "Terrestrial Time"),
        )
        for clock, name in rows:
            self.assertEqual(clock.name, name)

    def test_offsets(self):
        """A second of TDB in UTC+2: 2000-01-01T12:00:00 TDB is 11:58:55.816 UTC."""
        for text in ("+02:00", "+0200", "+2", "UTC+2"):
            self.assertEqual(scales.Clock.of(text).iso(0.0), "2000-01-01T13:58:55.816+02:00")

    def test_refused(self):
        for text, said in (
            ("Europe/Berln", "did you mean 'Europe/Berlin'"),
            ("+25:00", "from -18:00 to \\+18:00"),
            ("+02:75", "from -18:00 to \\+18:00"),
            ("", "no time zone"),
        ):
            with self.subTest(text), self.assertRaisesRegex(ValueError, said):
                scales.Clock.of(text)
        with self.assertRaisesRegex(TypeError, "a clock is"):
            scales.Clock.of(2)


if __name__ == "__main__":
    unittest.main()

"""The bytes of an ephemeris text: JPL's form of numbers, the limits of the format, and several files of one text."""

import os
import re
import struct
import unittest
from fractions import Fraction
from pathlib import Path
from unittest import mock

import numpy as np

import finder
from finder.ephemeris import writing
from finder.ephemeris.blocks import layouts
from finder.ephemeris.text import COLUMNS, Column, EphemerisText, WrongText
from tests.common import YEAR, InFolder
from tests.kernels import series_of_text

DAY = 86_400


def text_of_year():
    """The text of JPL's year, from its doubles."""
    series, start, ratio = series_of_text()
    columns = {}
    for name, (coefficients, length) in series.items():
        columns[name] = Column(coefficients, round(32 * DAY / length))
    return EphemerisText(int(start), 32 * DAY, 12, columns, ratio)


class Numbers(unittest.TestCase):
    def test_every_double_comes_back(self):
        """18 digits tell a double from its neighbours: random ones of all sizes, and those at the edges of the form."""
        random = np.random.default_rng(6)
        bits = random.integers(0, 2**63, 40_000, dtype=np.uint64).astype(np.uint64)
        values = bits.view(float)
        values = values[np.isfinite(values) & (np.abs(values) > 1e-89) & (np.abs(values) < 2**36)]
        small = 10.0 ** random.uniform(-15, 10, 20_000) * random.choice([-1, 1], 20_000)
        edges = [0.0, -0.0, 1.0, -1.0, 0.1, 1e-10, 9.999999999999999e9, 2.0**36 - 2**-16, np.nextafter(1, 2), 1 / 3]
        every = np.concatenate([values, small, edges])
        text = writing.fields(every).tobytes().decode("ascii")
        back = [float(word) for word in text.replace("D", "E").split()]
        self.assertEqual(
            [struct.pack("d", each + 0.0) for each in back], [struct.pack("d", each + 0.0) for each in every]
        )
        self.assertRegex(text, r"\A(?:  ?-?0\.[0-9]{18}D[+-][0-9]{2})*\Z")
        self.assertEqual(len(text), 26 * len(every))

    def test_fields_are_those_of_jpl(self):
        """The doubles of JPL's text of the year are written in the letters that JPL wrote."""
        lines = re.split(r"\n *\d+ +1018 *\r?\n", YEAR.read_text("ascii"))[1:]
        words = [word for block in lines for word in block.split()[2 : 2 + 816]]
        self.assertEqual(len(words), 12 * 816)
        made = writing.fields(np.array([float(word.replace("D", "E")) for word in words])).tobytes().decode("ascii")
        self.assertEqual(made.split(), words)

    def test_smallest_numbers_are_zero(self):
        made = writing.fields(np.array([5e-324, -1e-95, 1e-89]))
        self.assertEqual(made.tobytes().decode("ascii").split()[:2], ["0.000000000000000000D+00"] * 2)
        self.assertEqual(float(made.tobytes().decode("ascii").split()[2].replace("D", "E")), 1e-89)

    def test_dates_are_exact(self):
        """27 seconds are 0.0003125 days: by the fractions of Python."""
        for seconds in (0, 27, -27, 43_200, -211_813_488_000 // 27 * 27, 675 * 12_345_677):
            self.assertEqual(Fraction(writing.date_text(seconds)), 2_451_545 + Fraction(seconds, DAY))


class Texts(InFolder):
    def write(self, text):
        names = []
        for number, data in enumerate(writing.files(text)):
            names.append(self.folder / f"text-{number}.asc")
            names[-1].write_bytes(data)
        return names

    def test_program_reads_what_is_written(self):
        """The columns that the program finds, and JPL's own windows of a year, to the letter."""
        names = self.write(text_of_year())
        found, jpl = finder.check(names), finder.check(YEAR)
        self.assertEqual((found.start, found.end, found.blocks), (jpl.start, jpl.end, jpl.blocks))
        self.assertEqual(found.columns, {name: jpl.columns[name] for name in COLUMNS})
        for kind, words in (("conj", ("jupiter", "saturn")), ("apsis", ("moon",)), ("station", ("mercury",))):
            made, theirs = (finder.find(files, kind, *words, observer="earth", tick=1000) for files in (names, YEAR))
            self.assertEqual(made.text, theirs.text)

    def test_several_files_are_one_text(self):
        """A text that is too long for one file is a header and files of blocks, which the program reads as one."""
        text = text_of_year()
        whole = finder.conjunctions(self.write(text), "moon", "sun", observer="earth", frame="ecl").text
        with mock.patch.object(writing, "MAX_BYTES", 100_000):
            names = self.write(text)
        self.assertGreater(len(names), 3)
        self.assertEqual(finder.conjunctions(names, "moon", "sun", observer="earth", frame="ecl").text, whole)
        self.assertEqual(finder.check(names).blocks, 12)

    def test_titles_are_lines_of_ascii(self):
        text = text_of_year()
        titled = EphemerisText(
            text.start, text.block, 12, text.columns, text.mass_ratio, ("Sterne über " * 20, "GROUP 1")
        )
        names = self.write(titled)
        self.assertEqual(finder.check(names).blocks, 12)
        lines = names[0].read_bytes().split(b"GROUP   1030")[0].splitlines()
        self.assertLessEqual(max(map(len, lines)), 84)
        self.assertIn(b". GROUP 1", lines)

    def test_clipped_to_blocks(self):
        text = text_of_year()
        for start, end, blocks in ((text.start, text.end, 12), (text.start + 1, text.start + 2, 1), (0, 32 * DAY, 2)):
            made = text.clipped(start, end)
            self.assertEqual(made.blocks, blocks)
            self.assertLessEqual(made.start, start)
            self.assertGreaterEqual(made.end, end)
            moon = made.columns["moon"].coefficients
            first = (made.start - text.start) // text.block * 8
            np.testing.assert_array_equal(moon, text.columns["moon"].coefficients[first : first + 8 * blocks])

    def test_limits_of_the_format(self):
        """What the program would refuse is refused before, by body and span."""
        zeros = np.zeros((12, 3, 4))
        far = zeros.copy()
        far[5, 1, 0] = 2.0**36
        for said, text in (
            ("multiple of 27", EphemerisText(1, 32 * DAY, 12, {"sun": Column(zeros, 1)})),
            ("at most 32 days", EphemerisText(0, 64 * DAY, 12, {"sun": Column(zeros, 1)})),
            ("a search reads at most 16384", EphemerisText(0, 675, 16_385, {"sun": Column(zeros, 1)})),
            ("name fewer bodies", EphemerisText(0, DAY, 12, {"sun": Column(np.zeros((12 * 450, 3, 4)), 450)})),
            ("sun has 33 coefficients", EphemerisText(0, DAY, 12, {"sun": Column(np.zeros((12, 3, 33)), 1)})),
            ("granules of whole seconds", EphemerisText(0, 675, 12, {"sun": Column(np.zeros((84, 3, 4)), 7)})),
            ("sun has 2\\^36 km or more in 2000-01-06T12:00:00", EphemerisText(0, DAY, 12, {"sun": Column(far, 1)})),
            ("outside of the format", EphemerisText(27 * 10**10, DAY, 12, {"sun": Column(zeros, 1)})),
            ("EMRAT is 0.5", EphemerisText(0, DAY, 12, {"sun": Column(zeros, 1)}, 0.5)),
        ):
            with self.subTest(said), self.assertRaisesRegex(WrongText, said):
                text.checked()

    def test_blocks_of_a_span(self):
        """They begin with it, and where it is a multiple of days they end with it."""
        for days in (1, 2, 29, 31, 59, 365, 366, 1461, 36_525):
            for layout in layouts(43_200, 43_200 + days * DAY):
                self.assertEqual(layout.start + layout.block * layout.blocks, 43_200 + days * DAY)
                self.assertEqual(layout.block % 675, 0)
        for layout in layouts(100.25, 10_000_000.5):
            self.assertEqual(layout.start, 81)
            self.assertGreaterEqual(layout.start + layout.block * layout.blocks, 10_000_000.5)
            self.assertEqual(layout.block % 27, 0)


class Written(InFolder):
    def setUp(self):
        super().setUp()
        patch = mock.patch.dict(os.environ, FINDER_CACHE=str(self.folder / "cache"))
        patch.start()
        self.addCleanup(patch.stop)

    def test_write(self):
        eph = finder.Ephemeris.open(YEAR, "2000-05-01", "2000-06-01")
        names = eph.write(self.folder / "out")
        self.assertEqual([Path(name).read_bytes() for name in names], [Path(name).read_bytes() for name in eph.files])
        self.assertEqual(eph.write(self.folder / "out"), names)
        Path(names[0]).write_text("other")
        with self.assertRaisesRegex(FileExistsError, "other bytes"):
            eph.write(self.folder / "out")
        self.assertEqual(os.listdir(self.folder / "out"), ["ephemeris.asc"])

"""What `Ephemeris.open` reads: JPL's ASCII and binary files and SPK kernels, of one year, beside JPL's own text."""

import bz2
import gzip
import lzma
import os
import re
import shutil
import subprocess
import unittest
from pathlib import Path
from unittest import mock

import numpy as np

import finder
from tests import kernels
from tests.common import PROGRAM, TOP, YEAR, InFolder, split_year

ASC2EPH = Path("/usr/lib/pluto/jpl-eph/asc2eph")
DAY = 86_400
needs_asc2eph = unittest.skipUnless(ASC2EPH.exists(), "there is no asc2eph here (Debian: pluto-jpl-eph)")


def searches_of_century():
    """The 41 searches of the benchmark over a century, by their names."""
    lines = (TOP / "bench/century.txt").read_text().splitlines()
    return [line.split("|")[1].split() for line in lines if line and not line.startswith("#")]


def windows_of(files, words):
    """What the program prints, without its line of the request's span."""
    span = ["--from", "2000-01-01T00:00:00", "--to", "2001-01-01T00:00:00"]
    done = subprocess.run([PROGRAM, "find", *words, *span, "--", *files], capture_output=True, check=True, text=True)
    return done.stdout


def blocks_of(eph):
    """The blocks of a text, without its header."""
    return re.split(rb"GROUP +1070\s*\n", b"".join(Path(name).read_bytes() for name in eph.files))[1]


class InCache(InFolder):
    """Tests with a cache of their own."""

    def setUp(self):
        super().setUp()
        patch = mock.patch.dict(os.environ, FINDER_CACHE=str(self.folder / "cache"))
        patch.start()
        self.addCleanup(patch.stop)

    def refused(self, said, call, error=ValueError):
        """A call is refused by a sentence."""
        with self.assertRaisesRegex(error, said) as caught:
            call()
        return str(caught.exception)

    def same_series(self, eph, start=None):
        """The coefficients of a text are those of JPL's, bit for bit, of its blocks."""
        made, first, ratio = kernels.series_of_text(Path(eph.files[-1]))
        theirs, begin, jpl_ratio = kernels.series_of_text()
        self.assertEqual(ratio, jpl_ratio)
        for name, (series, length) in theirs.items():
            at = round((first - begin) / length)
            np.testing.assert_array_equal(made[name][0], series[at : at + len(made[name][0])], name)


class Ascii(InCache):
    def test_file_as_it_is(self):
        """A text that the program reads as it stands is no other text."""
        eph = finder.Ephemeris.open(YEAR)
        self.assertEqual(eph.files, (str(YEAR),))
        self.assertFalse((self.folder / "cache").exists())
        sums = subprocess.run(["sha256sum", YEAR], capture_output=True, check=True, text=True).stdout
        self.assertEqual(eph.sha256, sums.split()[0])
        self.assertEqual((eph.start, eph.end), (-734_400, 32_443_200))
        self.assertEqual(eph.names["earth"], "earth")

    def test_clipped_text_has_the_windows_of_the_whole(self):
        eph = finder.Ephemeris.open(YEAR, "2000-05-01", "2000-06-01")
        self.assertEqual(finder.check(eph).blocks, 2)
        self.assertEqual((eph.start, eph.end), (10_324_800, 15_854_400))
        self.same_series_of_blocks(eph)
        for start, end in ((None, None), ("2000-05-10", "2000-05-20")):
            found = finder.apsides(eph, "moon", observer="earth", start=start, end=end)
            whole = finder.apsides(YEAR, "moon", observer="earth", start=start or "2000-05-01", end=end or "2000-06-01")
            self.assertEqual(found.text, whole.text)

    def test_one_text_of_two_spans(self):
        """Two spans within the same blocks have one text, and each its own span."""
        one, other = (
            finder.Ephemeris.open(YEAR, *span) for span in (("2000-05-05", "2000-05-20"), ("2000-05-10", None))
        )
        self.assertEqual(one.requested_span, (10_756_800, 12_052_800))
        again = finder.Ephemeris.open(YEAR, "2000-05-06", "2000-05-21")
        self.assertEqual((again.files, again.requested_span), (one.files, (10_843_200, 12_139_200)))
        self.assertEqual(other.requested_span, (11_188_800, None))
        found = finder.apsides(again, "moon", observer="earth")
        self.assertEqual((found.start, found.end), (10_843_200, 12_139_200))

    def same_series_of_blocks(self, eph):
        """The blocks of a text stand in JPL's, letter for letter."""
        self.assertIn(blocks_of(eph).strip(), YEAR.read_bytes())

    def test_titles_name_the_source(self):
        eph = finder.Ephemeris.open(YEAR, "2000-05-01", "2000-06-01")
        head = Path(eph.files[0]).read_text("ascii").split("GROUP   1030")[0]
        plain = " ".join(head.split())
        self.assertIn("JPL Planetary Ephemeris DE405/DE405", plain)
        self.assertIn(finder.Ephemeris.open(YEAR).sha256, plain)
        self.assertIn("2451664.50  2451728.50", Path(eph.files[0]).read_text("ascii"))

    def test_any_order_a_folder_a_pattern_and_compressed(self):
        header, files = split_year(self.folder)
        said = finder.conjunctions(YEAR, "moon", "sun", observer="earth").text
        names = [str(name) for name in files]
        for source in (
            [*names[::-1], header],
            [names[1], header, names[0], names[2]],
            [header, self.folder / "ascp*.405"],
        ):
            eph = finder.Ephemeris.open(source)
            self.assertEqual(eph.files, (str(header), *names))
            self.assertEqual(finder.conjunctions(eph, "moon", "sun", observer="earth").text, said)
        for name, compression in zip([*names, header], (gzip, bz2, lzma, gzip)):
            packed = self.folder / "packed" / (Path(name).name + ".any")
            packed.parent.mkdir(exist_ok=True)
            packed.write_bytes(compression.compress(Path(name).read_bytes()))
        (self.folder / "packed" / "README").write_text("no ephemeris")
        eph = finder.Ephemeris.open(self.folder / "packed")
        self.assertEqual(finder.conjunctions(eph, "moon", "sun", observer="earth").text, said)

    def test_several_headers(self):
        """Parts that have each a header are one text again."""
        for name, (first, last) in (("a.asc", ("2000-01-01", "2000-04-01")), ("b.asc", ("2000-04-01", "2000-12-01"))):
            eph = finder.Ephemeris.open(YEAR, first, last)
            shutil.copyfile(eph.files[0], self.folder / name)
        joined = finder.Ephemeris.open([self.folder / "b.asc", self.folder / "a.asc"])
        self.assertEqual((joined.start, joined.end), (-734_400, 29_678_400))
        found = finder.apsides(joined, "moon", observer="earth", start="2000-01-01", end="2000-12-01").text
        whole = finder.apsides(YEAR, "moon", observer="earth", start="2000-01-01", end="2000-12-01").text
        self.assertEqual(found, whole)

    def test_layouts_of_other_series(self):
        """JPL's other series, of 64 days, of 15 columns and without a Moon's libration, are clipped and read."""
        for path in sorted((TOP / "examples").glob("*-layout.asc")):
            with self.subTest(path.name):
                whole = finder.Ephemeris.open(path)
                eph = finder.Ephemeris.open(path, whole.start + 5 * DAY, whole.start + 20 * DAY)
                self.assertEqual(finder.check(eph).columns, finder.check(path).columns)
                packed = self.folder / "packed.gz"
                packed.write_bytes(gzip.compress(path.read_bytes()))
                span = {"start": whole.start + 5 * DAY, "end": whole.start + 20 * DAY}
                said = finder.coordinate(path, "mercury", "x", 2e7, **span).text
                for other in (eph, finder.Ephemeris.open(packed)):
                    self.assertEqual(finder.coordinate(other, "mercury", "x", 2e7, **span).text, said)

    def test_refusals(self):
        header, files = split_year(self.folder)
        opened = finder.Ephemeris.open
        self.refused("name the header", lambda: opened(files[0]))
        self.refused("without blocks", lambda: opened(header))
        self.refused(
            "1999-12-24T00:00:00 to 2001-01-11T00:00:00 .*is asked for",
            lambda: opened(YEAR, "2000-01-01", "2002-01-01"),
        )
        self.refused("start= is before end=", lambda: opened(YEAR, "2000-02-01", "2000-01-01"))
        self.refused("no folder|no file|No such", lambda: opened(self.folder / "none.405"), OSError)
        self.refused("no file is like", lambda: opened(str(self.folder / "*.none")), OSError)
        (self.folder / "empty").mkdir()
        self.refused("has no file of an ephemeris", lambda: opened(self.folder / "empty"))
        (self.folder / "text").write_text("Dear reader")
        self.refused("begins with b'Dear reader'", lambda: opened(self.folder / "text"))
        (self.folder / "nothing").write_bytes(b"")
        self.refused("is empty", lambda: opened(self.folder / "nothing"))
        (self.folder / "cut.gz").write_bytes(gzip.compress(YEAR.read_bytes())[:9_000])
        self.refused("compressed and damaged", lambda: opened(self.folder / "cut.gz"))
        lines = YEAR.read_bytes().splitlines(keepends=True)
        (self.folder / "cut.asc").write_bytes(b"".join(lines[:-3]))
        self.refused("cut off within its block 12", lambda: opened(self.folder / "cut.asc"))
        changed = YEAR.read_bytes().replace(b"-0.338008787742210925D+08", b"-0.338008787742210926D+08")
        (self.folder / "changed.asc").write_bytes(changed)
        self.refused("two series|of one", lambda: opened([YEAR, self.folder / "changed.asc"]))
        self.refused("two series", lambda: opened([YEAR, TOP / "examples/de200-layout.asc"]))
        self.refused("blocks are missing, 2000-06-01T00:00:00 to 2000-09-05", lambda: gap(self.folder))
        self.refused("a source is a name", lambda: opened(7), TypeError)
        self.refused("no file is named", lambda: opened([]))

    def test_compressed_and_binary_files_are_named_by_searches(self):
        for name, data, said in (
            ("a.405", gzip.compress(YEAR.read_bytes()), "compressed by gzip"),
            ("b.405", lzma.compress(YEAR.read_bytes()), "compressed by xz"),
            ("c.405", bz2.compress(b"text"), "compressed by bzip2"),
            ("d.405", b"DAF/SPK ".ljust(1024), "an SPK kernel"),
        ):
            (self.folder / name).write_bytes(data)
            said = f"{name} is {said}: search finder.Ephemeris.open"
            self.refused(said, lambda: finder.apsides(self.folder / name, "moon", observer="earth"))


def gap(folder):
    """Opens the first and the third of three files, without the second."""
    header, files = split_year(folder)
    return finder.Ephemeris.open([header, files[0], files[2]]) if files else None


@needs_asc2eph
class Binary(InCache):
    def setUp(self):
        super().setUp()
        text = YEAR.read_bytes()
        end = re.search(rb"GROUP +1070 *\r?\n", text).end()
        (self.folder / "header.405").write_bytes(text[:end])
        (self.folder / "ascp2000.405").write_bytes(text[end:].lstrip())
        words = [str(ASC2EPH), ".", "-d405", "-r2451536.5,2451920.5", "-ojpleph.405"]
        subprocess.run(words, cwd=self.folder, check=True, capture_output=True)
        little = self.folder / "jpleph.405"
        self.files = [little, self.folder / "big.405"]
        self.files[1].write_bytes(kernels.swapped(little.read_bytes()))

    def test_same_bytes_of_windows(self):
        """Both byte orders have JPL's coefficients, so their blocks are the same bytes; and JPL's windows, to the
        letter."""
        ephs = [finder.Ephemeris.open(name) for name in self.files]
        self.assertEqual(blocks_of(ephs[0]), blocks_of(ephs[1]))
        self.same_series(ephs[0])
        for words in searches_of_century():
            self.assertEqual(windows_of(ephs[0].files, words), windows_of([YEAR], words))

    def test_clipped_and_compressed(self):
        packed = self.folder / "packed"
        packed.write_bytes(lzma.compress(self.files[1].read_bytes(), preset=0))
        eph = finder.Ephemeris.open(packed, "2000-05-01", "2000-06-01")
        self.assertEqual(finder.check(eph).blocks, 2)
        self.same_series(eph)
        self.refused("is asked for", lambda: finder.Ephemeris.open(packed, "2000-05-01", "2020-06-01"))

    def test_two_files(self):
        """Two files that follow one another, or are the same, are one text; others are refused."""
        size, data = 8 * 1018, self.files[0].read_bytes()
        for name, records in (("a", (2, 8)), ("b", (7, 14)), ("c", (9, 14))):
            part = data[: 2 * size] + data[size * records[0] : size * records[1]]
            (self.folder / name).write_bytes(part)
        whole = finder.Ephemeris.open(self.files[0])
        joined = finder.Ephemeris.open([self.folder / "b", self.folder / "a"])
        self.assertEqual(blocks_of(joined), blocks_of(whole))
        self.refused(
            "blocks are missing of 2000-07-03", lambda: finder.Ephemeris.open([self.folder / "a", self.folder / "c"])
        )
        (self.folder / "cut").write_bytes(data[: 3 * size - 100])
        self.refused("has no records of 32 days", lambda: finder.Ephemeris.open(self.folder / "cut"))
        self.refused("one form", lambda: finder.Ephemeris.open([YEAR, self.files[0]]))


if __name__ == "__main__":
    unittest.main()

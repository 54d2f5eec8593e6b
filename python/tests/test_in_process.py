"""Searches in this process return what those of the command return, with the same refusals."""

import concurrent.futures
import pickle
import platform
import tempfile
import unittest
from pathlib import Path
from unittest import mock

import finder
from finder.process import library

from .common import PROGRAM, SECOND, YEAR, of_the_whole

SEEN = {"observer": "earth", "frame": "ecl"}


def setUpModule():
    """Skips all where there is no library for this machine."""
    if platform.machine() != "x86_64":
        raise unittest.SkipTest(f"the library is for x86-64, and this is {platform.machine()}")


def both(search, *words, **options):
    """What a search returns by the command, and in this process."""
    return search(*words, program=PROGRAM, **options), search(*words, in_process=True, **options)


class Results(unittest.TestCase):
    """Results are those of the command."""

    def compare(self, search, *words, **options):
        by_command, here = both(search, *words, **options)
        self.assertEqual(here, by_command)
        return here

    def test_searches(self):
        found = self.compare(finder.conjunctions, YEAR, "jupiter", "saturn", **SEEN)
        self.assertEqual([window.first for window in found], [SECOND])
        self.compare(finder.stations, YEAR, "mercury", workers=7, **SEEN)
        self.compare(finder.find, YEAR, "coord", "mars", axis="z", observer="sun", tick=1000, cut="third")

    def test_sets(self):
        self.compare(finder.retrograde, YEAR, "mercury", **SEEN)
        self.compare(finder.near, YEAR, "moon", "sun", degrees="1.5", observer="earth")

    def test_check(self):
        self.compare(finder.check, YEAR)

    def test_parts_of_bodies_that_almost_cancel(self):
        self.compare(finder.oppositions, YEAR, "moon", "earth", "2000-02-01", "2000-03-20", observer="mars", frame="ecl")

    def test_extremes(self):
        by_command, here = both(finder.least, YEAR, "moon", observer="earth")
        self.assertEqual((here.window, here.value), (by_command.window, by_command.value))

    def test_files_in_order(self):
        self.compare(finder.over_files, finder.apsides, [YEAR], "earth", observer="sun", jobs=2)

    def test_certificates(self):
        made = self.compare(finder.certificate, YEAR, "apsis", "earth", observer="sun")
        self.compare(finder.verify, YEAR, made)
        wrong = finder.Certificate.of_text(made.text.replace(" N", " F", 1))
        with self.assertRaises(finder.CertificateRefused) as caught:
            finder.verify(YEAR, wrong, in_process=True)
        self.assertEqual(caught.exception.line, "finder: certificate line 3: 73 CertMark")

    def test_a_text_that_is_longer_than_the_room(self):
        with mock.patch.object(library, "ROOM", 10):
            self.compare(finder.stations, YEAR, "mercury", **SEEN)

    def test_threads(self):
        whole = finder.stations(YEAR, "mercury", in_process=True, **SEEN)
        with concurrent.futures.ThreadPoolExecutor(4) as pool:
            calls = [pool.submit(finder.stations, YEAR, "mercury", in_process=True, **SEEN) for _ in range(8)]
        self.assertEqual([call.result() for call in calls], [whole] * 8)

    @of_the_whole
    def test_every_kind(self):
        options = {"observer": "earth", "start": "2000-03-01", "end": "2000-06-01", "tick": 1}
        for kind in ("conj", "oppo", "sepext"):
            self.compare(finder.find, YEAR, kind, "venus", "mars", **options)
        for kind in ("apsis", "station"):
            self.compare(finder.find, YEAR, kind, "venus", **options)


class Refusals(unittest.TestCase):
    """Refusals are those of the command."""

    def compare(self, error, search, *words, **options):
        caught = []
        for how in ({"program": PROGRAM}, {"in_process": True}):
            with self.assertRaises(error) as raised:
                search(*words, **how, **options)
            caught.append((type(raised.exception), raised.exception.status, raised.exception.line, str(raised.exception)))
        self.assertEqual(caught[1], caught[0])
        pickle.loads(pickle.dumps(raised.exception))

    def test_statuses(self):
        self.compare(finder.WordsRefused, finder.find, YEAR, "sep", "moon", "sun", observer="earth")
        self.compare(finder.FileFault, finder.check, __file__)
        self.compare(finder.ReadFailed, finder.check, "no-file")
        self.compare(finder.SpanRefused, finder.apsides, YEAR, "moon", "2010", "2011", observer="earth")
        self.compare(finder.EventRefused, finder.apsides, YEAR, "moon", observer="moon")

    def test_a_name_that_is_no_utf8(self):
        with tempfile.TemporaryDirectory() as folder:
            name = Path(folder, "a\udcff.asc")
            name.write_bytes(YEAR.read_bytes())
            self.compare(finder.WordsRefused, finder.check, name)

    def test_what_it_cannot_do(self):
        for option in ({"timeout": 1}, {"program": PROGRAM}):
            with self.assertRaises(TypeError):
                finder.check(YEAR, in_process=True, **option)

    def test_no_library(self):
        library._call.cache_clear()
        self.addCleanup(library._call.cache_clear)
        with mock.patch.object(library, "LIBRARY", "libfinder-mips.so"), self.assertRaises(finder.NoProgram) as caught:
            finder.check(YEAR, in_process=True)
        self.assertIn("there is no libfinder-mips.so", str(caught.exception))

    def test_a_library_of_another_kind(self):
        library._call.cache_clear()
        self.addCleanup(library._call.cache_clear)
        with mock.patch.object(library, "find_library", lambda: YEAR), self.assertRaises(finder.NoProgram):
            finder.check(YEAR, in_process=True)


if __name__ == "__main__":
    unittest.main()

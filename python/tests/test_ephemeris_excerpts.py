"""Excerpts of a text: the same numbers, and the same pieces of each search; and numbers that are at hand."""

import functools
import importlib.util
import os
import pickle
import unittest
from pathlib import Path
from unittest import mock

import numpy as np

import finder
from finder.ephemeris import excerpts
from finder.ephemeris.excerpts import Excerpts
from finder.ephemeris.series import Series
from finder.reports.calendar import time_text
from tests.common import PROGRAM, YEAR, InFolder, command

HAS_ERFA = importlib.util.find_spec("erfa") is not None
GREENWICH = "51.4769 N 0 E 46 m"
DAY = 86_400
# Searches of a place: their words, and the part of the text's days in which they are made.
NADIR = ("--radius1=99995.1", "--radius2=1737.4")
SEARCHES = (
    ("sep", "sun", "zenith", ("--ref=-0.014543897651582599",), (0, 20)),
    ("sep", "sun", "zenith", ("--ref=-0.014543897651582599", "--tick=1000"), (3.1, 4.9)),
    ("sep", "jupiter", "zenith", ("--ref=0.5",), (7, 8)),
    ("sepext", "venus", "zenith", (), (0, 20)),
    ("conj", "mars", "zenith", (), (0, 20)),
    ("oppo", "moon", "zenith", (), (11.2, 13)),
    ("full", "nadir", "moon", NADIR, (0, 20)),
    ("any", "nadir", "moon", NADIR, (4.7, 5.6)),
    ("conj", "moon", "venus", ("--tick=1000",), (0, 20)),
    ("any", "moon", "sun", ("--radius1=1737.4", "--radius2=695700"), (17.01, 17.02)),
    ("station", "mercury", None, (), (0, 20)),
    ("coord", "sun", None, ("--axis=z", "--ref=0"), (19, 20)),
)


@functools.lru_cache(maxsize=1)
def sky():
    """Twenty days of a place, with the new Moon of February 2000."""
    with mock.patch.dict(os.environ, FINDER=str(PROGRAM)):
        return finder.Ephemeris.open(YEAR).sky(GREENWICH, "2000-01-27", "2000-02-16", delta_t=64, cache=False)


def text_time(seconds, words):
    return time_text(int(seconds) * 1_000, 1_000) if "--tick=1000" in words else time_text(int(seconds))


def certificate(files, kind, bodies, words, span):
    """The certificate of a search of files: each piece of it."""
    options = [f"--target={bodies[0]}", *(f"--second={body}" for body in bodies[1:]), "--observer=earth", *words]
    ends = [f"--{name}={text_time(end, words)}" for name, end in zip(("from", "to"), span)]
    return command("cert", f"--kind={kind}", *options, *ends, "--", *files)


@unittest.skipUnless(HAS_ERFA, "no erfa")
class SameSearches(unittest.TestCase):
    def test_same_pieces(self):
        """The certificate of a search of an excerpt is that of the same search of the text, letter for letter."""
        parts = Excerpts(sky().files)
        for kind, target, second, words, days in SEARCHES:
            bodies = [sky().names[body] for body in (target, second) if body is not None]
            span = [sky().start + day * DAY for day in days]
            with self.subTest(kind=kind, bodies=bodies, days=days):
                files = parts.files([*bodies, "earth"], *span).files
                self.assertLess(os.path.getsize(files[0]), os.path.getsize(sky().files[0]) / 2)
                found = certificate(files, kind, bodies, words, span)
                self.assertEqual(found, certificate(sky().files, kind, bodies, words, span))
                self.assertGreater(found.count("\nL "), 0)

    def test_same_numbers(self):
        """An excerpt has the blocks of its span and the numbers of its columns, and no others."""
        first, last = sky().start + 5.5 * DAY, sky().start + 7 * DAY
        parts = Excerpts(sky().files)
        (name,) = parts.files(["venus", "moon"], first, last - 1).files
        found, whole = Series(name), Series(list(sky().files), first, last)
        self.assertEqual((found.start, found.end), (sky().start + 5 * DAY, sky().start + 7 * DAY))
        # (the last time of a block is of the one that begins there)
        (name,) = parts.files(["venus", "moon"], first, last).files
        self.assertEqual(Series(name).end, sky().start + 8 * DAY)
        for body in ("venus", "moon", "emb"):
            self.assertTrue(np.array_equal(found.coefficients(body), whole.coefficients(body)), body)
        with self.assertRaisesRegex(ValueError, "the files have no column of mars"):
            found.coefficients("mars")

    def test_observer_at_the_origin(self):
        """The Earth's centre of a place's text is its origin: a search from either finds the same windows."""
        words = sky().files, "sep", "sun", sky().names["zenith"], sky().start, sky().end
        found = [
            finder.find(*words, ref="-0.014543897651582599", observer=observer, program=PROGRAM)
            for observer in ("earth", "ssb")
        ]
        self.assertEqual(len(found[0]), 40)
        self.assertEqual([list(each) for each in found[:1]], [list(each) for each in found[1:]])
        rows = sky().run_by(PROGRAM).rises("sun", precise=False)
        self.assertEqual([each.window for each in rows], [window for window in found[0] if window.turn == "rise"])
        self.assertEqual({" observer ssb " in each.request for each in rows}, {True})


@unittest.skipUnless(HAS_ERFA, "no erfa")
class Files(InFolder):
    def test_each_excerpt_is_written_once(self):
        parts = Excerpts(sky().files)
        span = sky().start + DAY, sky().end - DAY
        first = parts.files(["sun", "earth"], *span).files
        self.assertEqual(parts.files(["earth", "sun"], *span).files, first)
        other = parts.files(["mars", "earth"], *span).files
        folder = Path(first[0]).parent
        self.assertEqual({Path(name) for name in (*first, *other)}, set(folder.iterdir()))
        del parts
        self.assertFalse(folder.exists())

    def test_where_the_text_itself_is_searched(self):
        """A short text, one of another form, a body that it has not, a span that it has not, and a full disk."""
        inside = sky().start, sky().end
        text = Path(sky().files[0]).read_bytes()
        other, broken = self.folder / "other.asc", self.folder / "broken.asc"
        other.write_bytes(text + b"\n")
        broken.write_bytes(text.replace(b"GROUP   1041", b"GROUP   1042"))
        cases = (
            ([str(YEAR)], ["sun"], inside),
            ([str(other)], ["sun"], inside),
            ([str(broken)], ["sun"], inside),
            ([*sky().files, *sky().files], ["sun"], inside),
            (sky().files, ["zenith"], inside),
            (sky().files, ["sun"], (sky().start - 1, sky().end)),
            (sky().files, ["sun"], (sky().start, sky().end + 1)),
            (sky().files, ["sun"], (sky().end, sky().end)),
        )
        for files, bodies, span in cases:
            with self.subTest(files=files, bodies=bodies, span=span):
                self.assertEqual(Excerpts(files).files(bodies, *span).files, tuple(files))
        with mock.patch.object(excerpts, "SHORT", len(text) + 1):
            self.assertEqual(Excerpts(sky().files).files(["sun"], *inside).files, sky().files)
        with mock.patch.object(excerpts, "LONG", 1_000):
            self.assertEqual(Excerpts(sky().files).files(["sun"], *inside).files, sky().files)
        with mock.patch.object(excerpts.scratch, "new_folder", side_effect=OSError(28, "No space left on device")):
            self.assertEqual(Excerpts(sky().files).files(["sun"], *inside).files, sky().files)

    def test_a_full_disk_leaves_nothing(self):
        """What could be written of an excerpt is removed, and the text itself is searched."""
        parts = Excerpts(sky().files)
        first = parts.files(["mars"], sky().start, sky().end).files

        def write_some(path, data):
            with path.open("wb") as file:
                file.write(data[:100])
            raise OSError(28, "No space left on device")

        with mock.patch.object(excerpts.Path, "write_bytes", autospec=True, side_effect=write_some):
            self.assertEqual(parts.files(["sun"], sky().start, sky().end).files, sky().files)
        self.assertEqual([str(path) for path in Path(first[0]).parent.iterdir()], list(first))


@unittest.skipUnless(HAS_ERFA, "no erfa")
class NumbersAtHand(unittest.TestCase):
    def test_they_are_those_of_the_files(self):
        """The numbers of a text that was made here are those that are read of its files, to the last bit."""
        spans = ((), (sky().start + 2.5 * DAY, sky().end - 3.2 * DAY))
        for span in spans:
            made, read = Series(sky(), *span), Series(list(sky().files), *span)
            self.assertEqual(
                (made.start, made.end, made.files_start, made.files_end, made.block, made.number),
                (read.start, read.end, read.files_start, read.files_end, read.block, read.number),
            )
            for body in set(sky().names.values()) - {"earth", "ssb"}:
                self.assertEqual(made.coefficients(body).tobytes(), read.coefficients(body).tobytes(), body)
        with self.assertRaisesRegex(finder.WrongFiles, r"the files have .* \(TDB\), and nothing of"):
            Series(sky(), sky().end + DAY, sky().end + 2 * DAY)

    def test_another_process_reads_them(self):
        kept = pickle.loads(pickle.dumps(sky()._kept))
        self.assertIsNotNone(sky()._kept.numbers)
        self.assertIsNone(kept.numbers)
        self.assertEqual(kept, sky()._kept)


if __name__ == "__main__":
    unittest.main()

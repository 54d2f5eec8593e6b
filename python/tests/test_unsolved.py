"""No event is lost or has the time of another where it is solved for bodies as they are seen."""

import importlib.util
import sys
import unittest
from unittest import mock

import numpy as np

import finder
from finder.spans import time_text
from tests.common import TOP, YEAR, InFolder, of_the_whole, split_year

ECL = {"observer": "earth", "frame": "ecl"}
MOONS = (
    "FIND conj target moon second sun observer earth frame ecl axis - values - dir any width 1 depth 40 cut half "
    "span 1999-12-24T00:00:00 2001-01-11T00:00:00\n"
)


def windows(*lines):
    """The windows of a report of new moons with these lines."""
    certain = sum(line.startswith("C") for line in lines)
    end = f"END certain {certain} undecided {len(lines) - certain}\n"
    return finder.Windows.of_text(MOONS + "".join(f"{line}\n" for line in lines) + end)


class Unsolved(InFolder):
    def test_a_file_that_ends_within_light_time(self):
        """What is seen before light from Uranus can have set out in the file is named, what is seen later solved."""
        header, files = split_year(self.folder)
        part, whole = finder.Series([header, files[1]]), finder.Series(YEAR)
        sky = finder.ApparentPlaces(whole, of_date=False)
        outcomes = set()
        for hours in range(1, 9, 2):
            place = part.seen("uranus", "earth", "eq", np.array([part.start + 3_600 * hours]))[0, 0]
            span = {"start": int(part.start), "end": int(part.start) + 86_400}
            found = finder.coordinate([header, files[1]], "uranus", "x", f"{place:.3f}", observer="earth", **span)
            there = finder.seen(found, series=whole, of_date=False).seconds
            missing = bool(there[0] - sky.light("uranus", "earth", there)[0] < part.start)
            outcomes.add(missing)
            seen = finder.seen(found, [header, files[1]], of_date=False)
            self.assertEqual((len(found), seen.missing.tolist()), (1, [missing]))
            if missing:
                self.assertEqual(seen.unsolved, [(found[0], seen.reasons[0])])
                self.assertIn("the files end within light time", seen.reasons[0])
                self.assertTrue(np.isnat(seen.datetime64()[0]))
                self.assertTrue(np.isnan(finder.values(found, [header, files[1]], at=seen).target.ra[0]))
            else:
                self.assertEqual((seen.unsolved, seen.reasons), ([], ("",)))
                self.assertAlmostEqual(seen.seconds[0], there[0], delta=0.002)
        self.assertEqual(outcomes, {True, False})

    def test_two_windows_have_no_time_in_common(self):
        """The new moon of 6 January is seen less than a minute before its window. Of two windows about it the nearer
        one has its time, and of an undecided and a certain one the certain one."""
        near, far = "C 2000-01-06T18:15:27 2000-01-06T18:15:27 fall", "C 2000-01-06T18:20:00 2000-01-06T18:20:00 fall"
        seen = finder.seen(windows(near, far), YEAR, of_date=False)
        self.assertEqual(seen.missing.tolist(), [False, True])
        self.assertIn("another window", seen.reasons[1])
        undecided = "U 2000-01-06T18:15:28 2000-01-06T18:15:28"
        self.assertEqual(finder.seen(windows(near, undecided), YEAR, of_date=False).missing.tolist(), [False, True])

    def test_undecided_windows(self):
        """One of a second has the time of the event about it, and the name of that; a long one is not looked at."""
        found = windows("U 2000-01-06T18:15:27 2000-01-06T18:15:27", "U 2000-02-05T12:00:00 2000-02-05T14:00:00")
        seen = finder.seen(found, YEAR, of_date=False)
        certain = finder.seen(windows("C 2000-01-06T18:15:27 2000-01-06T18:15:27 fall"), YEAR, of_date=False)
        self.assertAlmostEqual(seen.seconds[0], certain.seconds[0], delta=0.002)
        self.assertEqual(seen.missing.tolist(), [False, True])
        self.assertEqual(seen.turn.tolist(), ["fall", ""])
        self.assertIn("longer than 60 seconds", seen.reasons[1])
        self.assertEqual(finder.names(found), ["undecided", "undecided"])
        self.assertEqual(finder.names(found, turn=seen.turn), ["new moon", "undecided"])
        self.assertIn("1 of 2 have a time, in doubles, unproved", repr(seen))

    def test_undecided_windows_that_are_seen_hours_later(self):
        """From Neptune the angle between Earth and Moon is seen to be greatest or least some four hours later. Many
        of the windows are undecided, and each has its time."""
        found = finder.separation_extremes(YEAR, "earth", "moon", observer="neptune", end="2000-12-31")
        undecided = found[~found.certain]
        self.assertGreater(len(undecided), 20)
        seen = finder.seen(undecided, YEAR, of_date=False)
        self.assertEqual(seen.unsolved, [])
        later = seen.later / 3_600
        self.assertTrue(((later > 3.5) & (later < 4.8)).all())

    @unittest.skipUnless(importlib.util.find_spec("astropy"), "astropy is not here")
    @of_the_whole
    def test_times_of_astropy(self):
        found = windows("C 2000-01-06T18:15:27 2000-01-06T18:15:27 fall", "U 2000-02-05T12:00:00 2000-02-05T14:00:00")
        seen = finder.seen(found, YEAR, of_date=False)
        for time, scale, text in ((seen.time(), "tdb", "14:42"), (seen.tt, "tt", "14:42"), (seen.utc, "utc", "13:38")):
            self.assertEqual(time.scale, scale)
            self.assertEqual(time.mask.tolist(), [False, True])
            self.assertTrue(time.isot[0].startswith(f"2000-01-06T18:{text}"), time.isot[0])

    def test_where_nothing_is_near(self):
        """A new moon in the midst of a month, and one that rises, are none."""
        midst = "C 2000-01-21T00:00:00 2000-01-21T00:00:00 fall"
        found = windows(midst, "C 2000-02-05T13:05:03 2000-02-05T13:05:03 rise")
        seen = finder.seen(found, YEAR, of_date=False)
        self.assertEqual(seen.missing.tolist(), [True, True])
        for reason in seen.reasons:
            self.assertIn("does not turn within 10 days", reason)

    def test_nothing_found(self):
        found = finder.occultations(YEAR, "moon", "sun", (1737.4, 695_700), observer="earth")
        seen = finder.seen(found, YEAR)
        self.assertEqual((len(found), len(seen), seen.unsolved, finder.names(found)), (0, 0, [], []))
        self.assertEqual(len(finder.values(found, YEAR)), 0)

    def test_distances_stay_in_their_windows(self):
        for found in (
            finder.apsides(YEAR, "moon", observer="earth", tick=1000),
            finder.distance(YEAR, "mercury", 100_000_000, observer="earth", width=3600),
        ):
            seen = finder.seen(found, YEAR)
            self.assertFalse(seen.missing.any())
            self.assertTrue((seen.seconds >= (found.first - 1) / found.tick).all())
            self.assertTrue((seen.seconds <= found.last / found.tick).all())

    def test_later_by_the_way_of_light(self):
        """An opposition of Jupiter is seen 11.2 minutes later without precession (docs/guide/windows.md)."""
        found = finder.oppositions(YEAR, "jupiter", "sun", **ECL)
        self.assertAlmostEqual(finder.seen(found, YEAR, of_date=False).later[0] / 60, 11.2, delta=0.05)

    def test_light_comes_to_another_body(self):
        found = finder.separation_extremes(YEAR, "earth", "sun", observer="moon", dir="fall")
        here, there = (finder.seen(found, YEAR, arrival=body).seconds for body in ("moon", "earth"))
        self.assertTrue(((there - here > 1.15) & (there - here < 1.4)).all())

    def test_light_comes_when_the_files_are_over(self):
        """An event a quarter of an hour before the end of the files, whose light takes longer to Jupiter."""
        series = finder.Series(YEAR)
        place = series.seen("moon", "earth", "eq", series.end - 900)[2, 0]
        found = finder.coordinate(YEAR, "moon", "z", f"{place:.3f}", observer="earth", start="2001-01-10")
        for arrival, missing in (("moon", False), ("jupiter", True)):
            seen = finder.seen(found, YEAR, arrival=arrival, of_date=False)
            self.assertEqual(seen.missing.tolist(), [missing])
        self.assertEqual(seen.reasons, ("the files end before light of it comes to jupiter",))


class Refusals(InFolder):
    def test_without_erfa(self):
        found = finder.conjunctions(YEAR, "jupiter", "saturn", **ECL)
        apsides = finder.apsides(YEAR, "moon", observer="earth", end="2000-02-01")
        with mock.patch.dict(sys.modules, {"erfa": None}):
            for options in ({}, {"of_date": False}):
                with self.assertRaisesRegex(finder.NoErfa, "need the package erfa"):
                    finder.seen(found, YEAR, **options)
            with self.assertRaises(ImportError):
                finder.values(found, YEAR, apparent=True, of_date=True)
            # (an almanac prints distances geometric)
            self.assertEqual(finder.seen(apsides, YEAR).unsolved, [])

    def test_what_has_no_times(self):
        found = finder.conjunctions(YEAR, "jupiter", "saturn", **ECL)
        near = finder.near(YEAR, "jupiter", "saturn", degrees=1.5, observer="earth")
        for wrong in (None, near, found[0], "text"):
            for call in (finder.seen, finder.values, finder.names, finder.intervals, finder.on_at_start):
                self.assertRaises(TypeError, call, *((wrong,) if call is finder.names else (wrong, YEAR)))
        self.assertRaises(ValueError, finder.seen, found, YEAR, phases=True)
        self.assertRaises(ValueError, finder.values, found, YEAR, of_date=True)
        self.assertRaises(ValueError, finder.values, found, YEAR, at=[0.0, 1.0])
        self.assertEqual(list(finder.seen(found)), list(finder.seen(found, YEAR)))
        self.assertRaises(TypeError, finder.seen, finder.Windows.of_text(found.text))

    def test_files_that_are_not_one_series(self):
        header, files = split_year(self.folder)
        other = self.folder / "other.asc"
        other.write_text(files[1].read_text().replace("D-01", "D-02"))
        fewer = self.folder / "fewer.asc"
        fewer.write_text(files[1].read_text().replace("  1018", "   728"))
        turned = self.folder / "turned.405"
        turned.write_bytes(files[1].read_bytes() + files[0].read_bytes())
        named = self.folder / "ascp2000.430"
        named.write_bytes(files[1].read_bytes())
        for wrong, said in (
            ([*files], f"{files[0]} does not begin with a header"),
            ([header], f"{header} has a header and no block"),
            ([header, turned], f"{turned} has blocks that are not in order of time"),
            ([header, files[0], files[2]], f"{files[2]} does not go on where {files[0]} ends"),
            ([header, files[0], other], f"{files[0]} and {other} have other numbers of the same days"),
            ([header, files[0], fewer], f"{fewer} has blocks of 728 numbers, and the header says 1018"),
            ([header, files[0], named], f"{header} and {named} are of two series"),
            ([header, files[0], YEAR], f"{YEAR} has a header of its own"),
        ):
            with self.subTest(said):
                with self.assertRaises(finder.WrongFiles) as caught:
                    finder.Series(wrong)
                self.assertIn(said, str(caught.exception))
                self.assertIsInstance(caught.exception, ValueError)
        with self.assertRaisesRegex(finder.WrongFiles, "1999-12-24T00:00:00 to 2001-01-11T00:00:00"):
            finder.Series(YEAR, 2e9, 3e9)

    def test_every_layout(self):
        """What the command reads is read for places too, over the same span: the Earth is about 1 au from the Sun."""
        for file in sorted((TOP / "examples").glob("de*.asc")):
            with self.subTest(file.name):
                series, found = finder.Series(file), finder.check(file)
                self.assertEqual((series.start, series.end), (found.start, found.end))
                far = np.linalg.norm(series.seen("earth", "sun", "eq", series.start + 86_400))
                self.assertAlmostEqual(far / 149_597_870.7, 1, delta=0.02)

    def test_bodies_and_frames_that_are_none(self):
        series = finder.Series(YEAR)
        for sky in (series, finder.ApparentPlaces(series, of_date=False)):
            with self.assertRaisesRegex(ValueError, "did you mean 'earth'"):
                sky.seen("moon", "erth", "eq", [0.0])
            with self.assertRaisesRegex(ValueError, "no frame"):
                sky.seen("moon", "earth", "galactic", [0.0])

    def test_places_of_times_that_were_changed(self):
        """An array of times that is changed in place is another one."""
        sky = finder.ApparentPlaces(finder.Series(YEAR), of_date=False)
        times = np.array([0.0])
        before = sky.seen("sun", "earth", "eq", times)
        times += 86_400
        after = sky.seen("sun", "earth", "eq", times)
        self.assertTrue(np.array_equal(after, sky.seen("sun", "earth", "eq", 86_400)))
        self.assertGreater(abs(after - before).max(), 1e6)

    def test_a_series_of_a_span(self):
        """Only the blocks of a span are kept, whose places are those of the whole; outside of them there are none."""
        header, files = split_year(self.folder)
        whole, part = finder.Series(YEAR), finder.Series([header, *files], 0.0, 86_400.0 * 40)
        ends = time_text(int(part.start)), time_text(int(part.end))
        self.assertEqual(ends, ("1999-12-24T00:00:00", "2000-02-26T00:00:00"))
        self.assertEqual((part.files_start, part.files_end), (whole.start, whole.end))
        times = np.linspace(part.start, part.end, 1_000)[:-1]
        for body in ("moon", "earth", "mercury", "pluto", "ssb"):
            self.assertTrue(np.array_equal(whole.body(body, times, rates=True), part.body(body, times, rates=True)))
        self.assertTrue(np.isnan(part.body("sun", np.array([part.start - 1, part.end + 1, np.nan]))).all())
        rates = whole.body("moon", times, rates=True)[3:]
        change = (whole.body("moon", times + 1) - whole.body("moon", times - 1)) / 2
        self.assertLess(abs(rates - change)[:, 1:].max(), 1e-6)


if __name__ == "__main__":
    unittest.main()

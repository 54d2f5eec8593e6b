"""Eclipses and occultations at places, beside the Swiss Ephemeris 2.10.03 over the same coefficients.

Its answers stand in swiss_answers.json, as `bench/eclipses_of_places.py --keep` wrote them with Debian's libswe-dev,
swe-basic-data and pluto-jpl-eph:

    bench/eclipses_of_places.py --keep python/tests/swiss_answers.json header.405 ascp1960.405 --
    examples/de405-2000.asc

Those of 2000 are of the repository's text. The others need JPL's text from 1960 to 1980 (header.405 and ascp1960.405),
and are looked at where $FINDER_DE405_1960 names the folder that has it."""

import functools
import importlib.util
import os
import unittest
from pathlib import Path

import finder
from tests import swiss
from tests.common import YEAR, of_the_whole, sample

# The seconds by which contacts may differ: the library's place of an observer is up to 200 m from that of Skyfield and
# of this package (as if nutation were left out of it), and its own search leaves some tenths of a second.
WITHIN = 1.0
ANSWERS = swiss.kept(Path(__file__).with_name("swiss_answers.json"))
OTHER = Path(os.environ.get("FINDER_DE405_1960", "/nowhere"))


@functools.lru_cache(maxsize=None)
def source(is_2000):
    return finder.Ephemeris.open(YEAR if is_2000 else [OTHER / "header.405", OTHER / "ascp1960.405"])


@unittest.skipUnless(importlib.util.find_spec("erfa"), "there is no erfa here")
class BesideSwissEphemeris(unittest.TestCase):
    def look(self, is_2000):
        cases = [case for case in swiss.CASES if case.day.startswith("2000") == is_2000]
        self.assertGreater(len(cases), 7)
        for case in sample(cases, 5):
            with self.subTest(case.name):
                ours = swiss.found(source(is_2000), case)
                rows = swiss.compared(case, ANSWERS[case.name], ours)
                self.assertEqual({name for name, _, _ in rows}, set(ours))
                self.assertGreaterEqual(sum(off is not None for _, off, _ in rows), 2)
                for name, off, is_same in rows:
                    self.assertTrue(is_same, name)
                    if off is not None:
                        self.assertLess(abs(off), WITHIN, name)

    def test_cases(self):
        """Two places each: three eclipses of the Sun, one of the Moon, ten occultations of six planets and three
        stars."""
        self.assertEqual(set(ANSWERS), {case.name for case in swiss.CASES})
        self.assertEqual(len({case.day for case in swiss.CASES if case.kind == "occult"}), 10)

    @of_the_whole
    def test_the_year_2000(self):
        self.look(True)

    @unittest.skipUnless((OTHER / "ascp1960.405").exists(), "$FINDER_DE405_1960 has no text of 1960 by JPL")
    def test_other_years(self):
        self.look(False)

    @of_the_whole
    def test_magnitudes(self):
        """Of the partial eclipse of 25 December 2000 at Washington: magnitude and obscuration."""
        case = next(case for case in swiss.CASES if case.name == "solar 2000-12-25 Washington")
        sky = source(True).sky(swiss.PLACES[case.place], "2000-12-25", "2000-12-27", delta_t=case.delta_t, cache=False)
        (eclipse,) = sky.eclipses(radii={"sun": swiss.SUN, "moon": swiss.MOON})
        magnitude, _, obscuration = ANSWERS[case.name].attributes
        self.assertAlmostEqual(eclipse.magnitude, magnitude, delta=1e-4)
        self.assertAlmostEqual(eclipse.obscuration, obscuration, delta=1e-4)


if __name__ == "__main__":
    unittest.main()

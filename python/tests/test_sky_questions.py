"""The questions that are put to the sky of a place, beside Skyfield over the same coefficients."""

import doctest
import functools
import importlib
import importlib.util
import unittest
import warnings

import numpy as np

import finder
from tests.common import YEAR, of_the_whole

HAS = {name: importlib.util.find_spec(name) is not None for name in ("skyfield", "astropy", "erfa", "pandas")}
BERLIN = "52.52 N 13.40 E 34 m"
TROMSO = "69.65 N 18.96 E 10 m"
DELTA_T = 63.83


@functools.lru_cache(maxsize=None)
def sky_of(place, start="2000-06-01", end="2000-07-01"):
    return finder.Ephemeris.open(YEAR).sky(place, start, end, delta_t=DELTA_T)


@unittest.skipUnless(HAS["erfa"], "there is no erfa here")
class Questions(unittest.TestCase):
    @of_the_whole
    def test_counts_of_a_month(self):
        """A month of 30 days at Berlin: a sunrise a day, a moonrise a lunar day."""
        sky = sky_of(BERLIN)
        self.assertEqual(len(sky.rises()), 30)
        self.assertEqual(len(sky.sets()), 30)
        self.assertEqual(len(sky.transits("sun")), 30)
        self.assertEqual(len(sky.transits("sun", lower=True)), 30)
        self.assertIn(len(sky.rises("moon")), (28, 29))
        for made in (sky.rises(), sky.sets("moon"), sky.transits("jupiter"), sky.twilight("civil")):
            self.assertTrue(made.certain.all())
            self.assertTrue((np.diff(made.seconds) > 0).all())

    def test_polar_summer(self):
        """At Tromsø the Sun does not set in June (timeanddate.com: 2000-05-20 to 2000-07-22)."""
        sky = sky_of(TROMSO)
        rises = sky.rises()
        self.assertEqual(len(rises), 0)
        self.assertEqual(rises.said, "The Sun does not set at any time from 2000-05-31 to 2000-06-30.")
        self.assertIn("stays above -6 degrees", sky.twilight().said)
        self.assertEqual(len(sky.transits()), 30)
        with self.assertWarnsRegex(finder.NeverReached, "never dark"):
            self.assertEqual(len(sky.dark().possible), 0)

    def test_pole(self):
        """At the north pole the Moon rises and sets once in a month of 27.3 days, the Sun once a year, in March."""
        sky = sky_of("90 N 0 E", "2000-03-01", "2000-06-01")
        self.assertEqual((len(sky.rises("sun")), len(sky.sets("sun"))), (1, 0))
        self.assertEqual(f"{sky.rises('sun')[0].at():%m-%d}", "03-18")
        self.assertIn(len(sky.rises("moon")), (3, 4))
        self.assertIn(len(sky.sets("moon")), (3, 4))
        self.assertTrue(all(abs(moment.altitude + 0.82) < 0.05 for moment in sky.rises("moon")))

    def test_never_reached(self):
        with self.assertWarnsRegex(finder.NeverReached, "Jupiter does not reach 80 degrees .* it is at most 5"):
            self.assertEqual(len(sky_of(BERLIN).above("jupiter", 80).possible), 0)

    def test_sets_within(self):
        sky = sky_of(BERLIN)
        dark, high = sky.dark("nautical"), sky.above("saturn", 5)
        self.assertEqual(sky.above("saturn", 5, within=dark), high & dark)
        inside = [each for each in sky.rises("saturn") if dark.contains(int(each.seconds))]
        self.assertEqual(sky.rises("saturn", within=dark), finder.Moments(inside))

    def test_phases_and_seasons(self):
        """By the US Naval Observatory's Phases of the Moon and Earth's Seasons for 2000, to the minute of UT."""
        sky = sky_of(BERLIN)
        shown = [f"{moment.name} {finder.Clock().minute(moment.seconds):%m-%d %H:%M}" for moment in sky.phases()]
        self.assertEqual(
            shown,
            ["new moon 06-02 12:14", "first quarter 06-09 03:29", "full moon 06-16 22:27", "last quarter 06-25 01:00"],
        )
        (solstice,) = sky.seasons()
        self.assertEqual((solstice.name, f"{solstice.at():%m-%d %H:%M}"), ("June solstice", "06-21 01:47"))

    def test_refused(self):
        sky = sky_of(BERLIN)
        centre = finder.Ephemeris.open(YEAR).sky(None, "2000-06-01", "2000-06-10")
        rows = (
            (lambda: sky.rises("jupitr"), "did you mean 'jupiter'"),
            (lambda: sky.rises("pluto"), "this sky has no 'pluto'"),
            (lambda: sky.above("sun", 91), "an altitude is from -90 to 90"),
            (lambda: sky.rises(limb="left"), "a limb is upper, centre, lower"),
            (lambda: sky.rises("sun", altitude=-1, pressure=1000), "give altitude=, or pressure="),
            (lambda: sky.rises("sun", pressure=3000), "a pressure is from 0 to 1100"),
            (lambda: sky.rises("sun", temperature=200), "a temperature is from -150 to 60"),
            (lambda: sky.twilight("dark"), "a twilight is civil, nautical, astronomical"),
            (lambda: sky.dark("moon"), "a twilight is"),
            (lambda: centre.rises(), "asked of a place"),
            (lambda: centre.above("moon", 3), "asked of a place"),
            (lambda: sky.between("2000-05-01", "2000-06-02"), "lies in its span"),
            (lambda: sky.nights(sky.dark("civil"), "2000-13"), "no month"),
            (lambda: sky.nights(sky.dark("civil"), "2001-01"), "no night of the span"),
            (lambda: sky.eclipses(radii={"earth": 1}), "no radius is of 'earth'"),
            (lambda: sky_of("90 N 0 E", "2000-06-01", "2000-06-10").transits(), "no meridian"),
        )
        for call, said in rows:
            with self.subTest(said), self.assertRaisesRegex(ValueError, said):
                call()

    @unittest.skipUnless(HAS["pandas"] and HAS["astropy"], "there is no pandas or no astropy here")
    def test_forms(self):
        sky = sky_of(BERLIN).between("2000-06-20", "2000-06-22")
        rises = sky.rises()
        self.assertEqual(list(rises.to_pandas("Europe/Berlin").columns)[:3], ["time", "name", "body"])
        self.assertEqual(len(rises.to_table()), len(rises))
        self.assertLess(abs((rises.time() - rises.time()[0]).sec - (rises.seconds - rises.seconds[0])).max(), 1e-6)
        for zone in ("Europe/Berlin", "+02:00"):
            # (timeanddate.com has 04:43 for Berlin on the 20th and the 21st of June)
            self.assertEqual([f"{finder.Clock.of(zone).minute(each.seconds):%H:%M}" for each in rises], ["04:43"] * 2)
        self.assertEqual(rises[0].at("+02:00").utcoffset(), rises[0].at("Europe/Berlin").utcoffset())

    def test_examples(self):
        """The examples of the modules."""
        with warnings.catch_warnings():
            warnings.simplefilter("ignore")
            for name in ("refraction", "discs", "bodies"):
                made = doctest.testmod(importlib.import_module(f"finder.sky.{name}"))
                self.assertEqual(made.failed, 0, name)
                self.assertGreater(made.attempted, 0, name)


if __name__ == "__main__":
    unittest.main()

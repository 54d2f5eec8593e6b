"""Places on the Earth, and UT1 by the table of the IERS."""

import doctest
import importlib.util
import math
import unittest
from pathlib import Path

import numpy as np

from finder.sky import earth_rotation as rotation
from finder.sky import place
from finder.sky.earth_rotation import YEAR, EarthRotation, delta_t_of_history, earth_rotation
from finder.sky.place import Place
from tests.common import of_the_whole

HAS_ASTROPY = importlib.util.find_spec("astropy") is not None
HAS_SKYFIELD = importlib.util.find_spec("skyfield") is not None

# Each text and the place that it says.
TEXTS = (
    ("52.52 N 13.40 E", (52.52, 13.40, 0)),
    ("52.52,13.40", (52.52, 13.40, 0)),
    ("-33.8568 151.2153 40", (-33.8568, 151.2153, 40)),
    ("13.40 E 52.52 N", (52.52, 13.40, 0)),
    ("52°31'12\"N, 13°24'E, 34 m", (52.52, 13.40, 34)),
    ("27.98 N 86.92 E 8.848 km", (27.98, 86.92, 8848)),
    ("0 N 200 E", (0, -160, 0)),
)
# Each place that is none, and a part of the sentence that says why.
REFUSED = (
    ((95, 13), "latitude is from -90 to 90"),
    ((139.7, 35.7), "the latitude comes first"),
    ((10, 400), "longitude is from -180 to 360"),
    ((10, -181), "longitude is from -180 to 360"),
    ((10, 20, -6_371_000), "inside the Earth"),
    ((10, 20, 400_000), "not on the Earth"),
    ((math.nan, 20), "finite"),
    (("north", 20), "latitude is a number of degrees"),
    ((True, 20), "latitude is a number of degrees"),
)
REFUSED_TEXTS = (
    ("Berlin", "no place: 'Berlin'"),
    ("52.52 N", "no place"),
    ("52.52 N 13.40", "a letter of N and S, and one of E and W"),
    ("52 N 13 N", "a letter of N and S, and one of E and W"),
    ("-52 N 13 E", "a sign and a letter"),
    ("52°61'N 13 E", "60 minutes"),
    ("52 N 13 E high", "no height in metres"),
)
# Delta T in seconds by year, as F. Espenak and J. Meeus print it ("Five Millennium Canon of Solar Eclipses", table
# 1-1), and how far from it the polynomials may be.
HISTORY = (
    (-500, 17190, 40), (0, 10580, 10), (500, 5710, 5), (1000, 1570, 5), (1300, 490, 5), (1600, 120, 1), (1700, 9, 0.5),
    (1800, 14, 0.5), (1900, -3, 0.5), (1955, 31.1, 0.1),
)  # fmt: skip


class Places(unittest.TestCase):
    def test_examples(self):
        self.assertEqual(doctest.run_docstring_examples(place.Place, vars(place)), None)
        self.assertEqual(str(Place(52.52, 13.40, 34)), "52.5200 N 13.4000 E, 34 m")

    def test_texts(self):
        for text, (latitude, longitude, metres) in TEXTS:
            with self.subTest(text):
                made = Place.of(text)
                self.assertAlmostEqual(made.latitude, latitude, places=10)
                self.assertAlmostEqual(made.longitude, longitude, places=10)
                self.assertAlmostEqual(made.metres, metres, places=6)

    def test_refused(self):
        for words, said in REFUSED:
            with self.subTest(words), self.assertRaisesRegex((ValueError, TypeError), said):
                Place(*words)
        for text, said in REFUSED_TEXTS:
            with self.subTest(text), self.assertRaisesRegex(ValueError, said):
                Place.of(text)
        for other in (None, 52.52, b"52 N 13 E", {"latitude": 1}, (1,), (1, 2, 3, 4)):
            with self.subTest(other), self.assertRaisesRegex(TypeError, "a place is"):
                Place.of(other)

    @unittest.skipUnless(HAS_ASTROPY, "there is no astropy here")
    def test_astropy(self):
        from astropy import units
        from astropy.coordinates import EarthLocation

        made = Place.of(EarthLocation(lat=-33.8568 * units.deg, lon=151.2153 * units.deg, height=40 * units.m))
        self.assertAlmostEqual(made.latitude, -33.8568, places=9)
        self.assertAlmostEqual(made.longitude, 151.2153, places=9)
        self.assertAlmostEqual(made.metres, 40, places=6)
        with self.assertRaisesRegex(TypeError, "one place is wanted"):
            Place.of(EarthLocation(lat=[1, 2] * units.deg, lon=[1, 2] * units.deg))
        self.assertAlmostEqual(Place(52 * units.deg, 13 * units.deg, 1 * units.km).metres, 1000)

    @unittest.skipUnless(HAS_SKYFIELD, "there is no Skyfield here")
    def test_skyfield(self):
        from skyfield.api import wgs84

        made = Place.of(wgs84.latlon(-33.8568, 151.2153, elevation_m=40))
        self.assertEqual(made, Place(-33.8568, 151.2153, 40))


class DeltaT(unittest.TestCase):
    def test_history(self):
        for year, value, error in HISTORY:
            with self.subTest(year):
                self.assertAlmostEqual(delta_t_of_history(year), value, delta=error)

    def test_number(self):
        made = earth_rotation(delta_t=69.2)
        self.assertEqual(made.delta_t(1e9), 69.2)
        self.assertFalse(made.is_extrapolated(-1e12, 1e12))
        for wrong in (math.nan, math.inf, True):
            with self.subTest(wrong), self.assertRaisesRegex(ValueError, "delta_t is TT less UT1"):
                earth_rotation(delta_t=wrong)

    @unittest.skipUnless(HAS_ASTROPY, "there is no astropy here")
    def test_examples(self):
        self.assertEqual(doctest.testmod(rotation).failed, 0)

    @unittest.skipUnless(HAS_ASTROPY, "there is no astropy here")
    @of_the_whole
    def test_beside_astropy(self):
        """UT1 since 1972 is astropy's, which goes in straight lines between the days of the table. (Before 1972 erfa's
        `utcut1` leaves out how UTC drifted within a day, by up to 2.6 ms.)"""
        from astropy.time import Time
        from astropy.utils import iers

        made = earth_rotation()
        at = np.random.default_rng(1).uniform(-28 * YEAR, 22.8 * YEAR, 300)
        days, rest = np.divmod(at, rotation.DAY)
        with iers.earth_orientation_table.set(iers.IERS_B.open(iers.IERS_B_FILE)):
            theirs = Time(rotation.J2000_DATE + days, rest / rotation.DAY, format="jd", scale="tdb").ut1
        seconds = (theirs.jd1 - rotation.J2000_DATE) * rotation.DAY + theirs.jd2 * rotation.DAY
        off = abs(made.ut1(at) - seconds)
        self.assertLess(off.max(), 1e-4)

    @unittest.skipUnless(HAS_ASTROPY and HAS_SKYFIELD, "there is no astropy or no Skyfield here")
    def test_beside_skyfield(self):
        """From 1975 to 2022 Skyfield's table is of the IERS too."""
        from skyfield.api import load

        scale, made = load.timescale(builtin=True), earth_rotation()
        for year in np.arange(1975, 2022.5, 0.7):
            seconds = (year - 2000) * YEAR
            theirs = float(scale.tt_jd(rotation.J2000_DATE + seconds / rotation.DAY).delta_t)
            self.assertAlmostEqual(float(made.delta_t(seconds)), theirs, delta=1e-3, msg=f"{year}")

    @unittest.skipUnless(HAS_ASTROPY, "there is no astropy here")
    def test_is_smooth(self):
        """No jump of the value or of the rate at an end of the table, or at a change of polynomials."""
        made = earth_rotation()
        for year in (-500, 1600, 1700, 1860, 1900, 1941, 1962, 2000, 2022.912, 2023, 2100):
            about = (year - 2000) * YEAR + np.array([-7200.0, -3600, 0, 3600, 7200])
            values = made.delta_t(about)
            self.assertLess(abs(np.diff(values)).max(), 0.2, f"{year}")
            self.assertLess(abs(np.diff(values, 2)).max(), 2e-5, f"{year}")

    @unittest.skipUnless(HAS_ASTROPY, "there is no astropy here")
    def test_error_beyond_the_table(self):
        """The rule, applied to the years of the table itself, is about as wrong as it says."""
        made = earth_rotation()
        inside = np.arange(made.start, made.end, 30 * rotation.DAY)
        values = made.delta_t(inside)
        for years in (1, 2, 5, 10, 20):
            missed = []
            for number in range(13, len(inside)):
                later = inside[number] + years * YEAR
                if later < made.end:
                    guess = rotation._after(inside[: number + 1], values[: number + 1], np.array([later]))[0]
                    missed.append(guess - float(made.delta_t(later)))
            stated = rotation.WALK * years**1.5
            self.assertLess(np.sqrt(np.mean(np.square(missed))), stated, f"{years}")
            self.assertLess(np.abs(missed).max(), 3 * stated, f"{years}")

    @unittest.skipUnless(HAS_ASTROPY, "there is no astropy here")
    def test_said(self):
        made = earth_rotation()
        inside, after, before = ((year - 2000) * YEAR for year in (2010, 2031, 1950))
        for start, said in (
            (inside, r"^UT1 is by the series C04 .* from 1962-01-01 to 20[0-9-]+\.$"),
            (after, r"after it delta T is extrapolated .* standard error of [0-9.]+ s in this span\.$"),
            (before, r"before it delta T is that of the polynomials of Espenak and Meeus .* error of [0-9.]+ s"),
        ):
            self.assertRegex(made.sentence(start, start + YEAR), said)
        self.assertTrue(made.is_extrapolated(inside, after))
        with self.assertRaisesRegex(ValueError, "years -2000 to 3000"):
            made.delta_t(1_100 * YEAR)

    @unittest.skipUnless(HAS_ASTROPY, "there is no astropy here")
    def test_files(self):
        from astropy.utils import iers

        # (the file that is named is read by astropy, and the one that it ships by numpy)
        same, quick = earth_rotation(iers.IERS_B_FILE), earth_rotation()
        at = np.linspace(-40 * YEAR, 40 * YEAR, 5_000)
        self.assertTrue(np.array_equal(same.delta_t(at), quick.delta_t(at)))
        self.assertEqual(same.sentence(0.0, 1.0), quick.sentence(0.0, 1.0))
        finals = Path(iers.__file__).parent / "tests" / "data" / "finals2000A-2016-04-30-test"
        if finals.exists():
            made = earth_rotation(finals)
            # (its first line, of 2016-02-01, has 0.0262719 s as the value of Bulletin B; TAI less UTC was 36 s)
            at = (57419 - rotation.J2000_MJD) * rotation.DAY + 68.184
            self.assertIn("finals of the IERS", made.sentence(at, at))
            self.assertAlmostEqual(float(made.delta_t(at)), 68.184 - 0.0262719, places=6)
        with self.assertRaisesRegex(ValueError, "no table of UT1"):
            earth_rotation(__file__)
        with self.assertRaises(FileNotFoundError):
            earth_rotation("no/such/file")


class Numbers(unittest.TestCase):
    def test_table_of_three_days(self):
        """A table that is given day by day: TT less UTC was 64.184 s in 2000."""
        made = EarthRotation.of_table("a table", [51544, 51545, 51546], [0.355, 0.354, 0.353])
        self.assertAlmostEqual(float(made.delta_t((51545 - 51544.5) * 86400 + 64.184)), 63.83, places=9)
        with self.assertRaisesRegex(ValueError, "fewer than three days"):
            EarthRotation.of_table("a table", [51544, 51545], [0.355, 0.354])


if __name__ == "__main__":
    unittest.main()

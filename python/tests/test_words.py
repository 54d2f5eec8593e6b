"""Times and numbers of every form are the command's."""

import datetime
import decimal
import importlib.util
import unittest
from decimal import Decimal
from fractions import Fraction

import numpy as np

import finder
from finder.searches.numbers import cosine_of_degrees, decimal_text
from finder.searches.times import ticks_of_time
from finder.spans import WrongReport, ticks_of, time_text

# Texts of times, and their seconds since J2000.
TIMES = {
    "2000-01-01T12:00:00": 0,
    "1999-12-31T23:59:59": -43_201,
    "2000-02-29T12:00:00": 59 * 86_400,
    "1900-03-01T12:00:00": -36_465 * 86_400,
    "-004713-11-24T12:00:00": -2_451_545 * 86_400,
    "8977-06-07T12:00:00": (5_000_000 - 2_451_545) * 86_400,
}
# Exact roots: 45 degrees by sqrt(2), 36 by sqrt(5), 30 by sqrt(3); 1 degree by tables.
COSINES = {
    0: "1",
    1: "0.999847695156391239",
    "30": "0.866025403784438646",
    36.0: "0.809016994374947424",
    Decimal(45): "0.707106781186547524",
    60: "0.5",
    90: "0",
    Fraction(0): "1",
    120: "-0.5",
    135: "-0.707106781186547525",
    144: "-0.809016994374947425",
    180: "-1",
}
# Those that are not the cosine itself, rounded up.
COSINES_UP = {
    1: "0.99984769515639124",
    "30": "0.866025403784438647",
    36.0: "0.809016994374947425",
    Decimal(45): "0.707106781186547525",
    135: "-0.707106781186547524",
    144: "-0.809016994374947424",
}


def has(name):
    return importlib.util.find_spec(name) is not None


class Times(unittest.TestCase):
    def test_texts_of_the_command(self):
        for text, seconds in TIMES.items():
            with self.subTest(text):
                self.assertEqual((ticks_of(text), time_text(seconds)), (seconds, text))
                self.assertEqual(ticks_of_time(text, 1, False), seconds)
        self.assertEqual(ticks_of("1999-12-31T23:59:59.250", 1000), -43_200_750)
        self.assertEqual(time_text(-43_200_750, 1000), "1999-12-31T23:59:59.250")
        for text in (
            "2001-02-29T00:00:00",
            "2000-01-01T24:00:00",
            "2000-01-01T12:00:60",
            "-000000-01-01T00:00:00",
            "2000-1-01T00:00:00",
            "2000-01-01T12:00:00.000",
            "2000-01-01 12:00:00",
            "",
        ):
            self.assertRaises(WrongReport, ticks_of, text)
        self.assertRaises(WrongReport, ticks_of, "2000-01-01T12:00:00", 1000)

    def test_forms_of_one_time(self):
        forms = [
            1_500,
            np.int32(1_500),
            "2000-01-01T12:25:00",
            "2000-01-01T12:25",
            "2000-01-01 12:25:00.000",
            np.datetime64("2000-01-01T12:25"),
            np.datetime64("2000-01-01T12:25:00", "ns"),
            datetime.datetime(2000, 1, 1, 12, 25),
        ]
        for form in forms:
            for tick in (1, 1000):
                for up in (False, True):
                    self.assertEqual(ticks_of_time(form, tick, up), 1_500 * tick, repr(form))
        for day in ("1999-12-24", datetime.date(1999, 12, 24), np.datetime64("1999-12-24")):
            self.assertEqual(ticks_of_time(day, 1, True), -734_400)
        self.assertEqual(ticks_of_time(np.datetime64("1900"), 1, True), ticks_of("1900-01-01T00:00:00"))
        self.assertEqual(ticks_of_time(np.datetime64("-4713-11-24T12"), 1, True), -2_451_545 * 86_400)

    def test_times_between_ticks(self):
        for form in (
            "2000-01-01T11:59:58.0004",
            np.datetime64("2000-01-01T11:59:58.0004", "us"),
            datetime.datetime(2000, 1, 1, 11, 59, 58, 400),
        ):
            self.assertEqual(
                [ticks_of_time(form, tick, up) for tick in (1, 1000) for up in (False, True)],
                [-2, -1, -2_000, -1_999],
                repr(form),
            )

    def test_what_is_no_time(self):
        for form in (
            True,
            None,
            np.timedelta64(1, "s"),
            datetime.time(1),
        ):
            self.assertRaises(TypeError, ticks_of_time, form, 1, False)
        for form in (
            1.5,
            float("nan"),
            "",
            "2000-1",
            "2000T12:00",
            "2000-01T12:00",
            "2000-13",
            "2000-13-01",
            "2000-01-01T12",
            "2000-01-01T12:00.5",
            "2000-01-01T12:00:00+2",
            "2000-01-01Z",
            np.datetime64("NaT"),
        ):
            self.assertRaises(ValueError, ticks_of_time, form, 1, False)

    @unittest.skipUnless(has("astropy"), "astropy is not here")
    def test_times_of_astropy(self):
        from astropy.time import Time, TimeDelta

        for text, seconds in TIMES.items():
            if not text.startswith("-"):
                for up in (False, True):
                    self.assertEqual(ticks_of_time(Time(text, scale="tdb"), 1, up), seconds)
        whole = Time("2000-01-01T12:00:00.125", scale="tdb")
        self.assertEqual([ticks_of_time(whole, 1000, up) for up in (False, True)], [125, 125])
        self.assertEqual([ticks_of_time(whole, 1, up) for up in (False, True)], [0, 1])
        # TDB is 64.184 seconds after UTC in 2000, to two milliseconds.
        utc = Time("2000-05-28T00:00:00", scale="utc")
        self.assertEqual(ticks_of_time(utc, 1, False) - ticks_of("2000-05-28T00:00:00"), 64)
        self.assertRaises(TypeError, ticks_of_time, whole + TimeDelta([1, 2], format="sec"), 1, False)

    def test_years_months_and_floats(self):
        for form, text in (
            ("2031", "2031-01-01T00:00:00"),
            ("2031-06", "2031-06-01T00:00:00"),
            ("-000584", "-000584-01-01T00:00:00"),
            (-43_200.0, "2000-01-01T00:00:00"),
            (np.float64(86_400), "2000-01-02T12:00:00"),
        ):
            self.assertEqual(ticks_of_time(form, 1, False), ticks_of(text))
        self.assertEqual(ticks_of_time(0.25, 1000, False), 250)

    @unittest.skipUnless(has("astropy") and has("erfa"), "astropy or erfa is not here")
    def test_times_with_a_zone(self):
        """What a zone says is a time of UTC: astropy says which one of TDB that is."""
        from astropy.time import Time

        zone = datetime.timezone(datetime.timedelta(hours=5, minutes=30))
        for utc, forms in {
            "2000-05-01T00:00:00": (
                "2000-05-01T00:00:00Z",
                "2000-05-01 00:00 UTC",
                "2000-05-01T02:00:00+02:00",
                "2000-04-30T20:30:00-0330",
                datetime.datetime(2000, 5, 1, 5, 30, tzinfo=zone),
            ),
            "1972-07-01T00:00:00": ("1972-07-01T00:00:00Z", datetime.datetime(1972, 7, 1, 5, 30, tzinfo=zone)),
        }.items():
            for form in forms:
                for tick in (1, 1000):
                    expected = ticks_of_time(Time(utc, scale="utc"), tick, True)
                    self.assertEqual(ticks_of_time(form, tick, True), expected, form)

    @unittest.skipUnless(has("skyfield"), "skyfield is not here")
    def test_times_of_skyfield(self):
        """The seconds of TDB are those of Skyfield's own two parts of a Julian date."""
        from skyfield.api import load

        scale = load.timescale(builtin=True)
        self.assertEqual(ticks_of_time(scale.tdb(2000, 5, 1), 1000, True), ticks_of("2000-05-01T00:00:00") * 1000)
        utc = scale.utc(2000, 5, 28)
        self.assertEqual(ticks_of_time(utc, 1, False) - ticks_of("2000-05-28T00:00:00"), 64)
        self.assertRaises(TypeError, ticks_of_time, scale.utc(2000, 1, [1, 2]), 1, False)

    @unittest.skipUnless(has("pandas") and has("astropy"), "pandas or astropy is not here")
    def test_timestamps_of_pandas(self):
        import pandas
        from astropy.time import Time

        time = pandas.Timestamp("2000-01-01T12:00:00.000000001")
        self.assertEqual([ticks_of_time(time, 1000, up) for up in (False, True)], [0, 1])
        # (half an hour that comes twice, where clocks are put back: astropy's time of UTC tells which it is)
        for fold, hour in ((True, 0), (False, 1)):
            twice = pandas.Timestamp("2000-10-29 02:30").tz_localize("Europe/Berlin", ambiguous=fold)
            utc = Time(f"2000-10-29T{hour:02}:30:00", scale="utc")
            self.assertEqual(ticks_of_time(twice, 1000, True), ticks_of_time(utc, 1000, True))


class Numbers(unittest.TestCase):
    def test_decimals(self):
        for value, text in (
            (5, "5"),
            (np.int64(-7), "-7"),
            (149597870.7, "149597870.7"),
            (np.float64(0.1), "0.1"),
            ("1.50e8", "1.50e8"),
            (Decimal("0.998"), "0.998"),
            (-1e-7, "-1e-07"),
        ):
            self.assertEqual(decimal_text(value), text)
        for value in (float("nan"), float("inf"), Decimal("NaN")):
            self.assertRaises(ValueError, decimal_text, value)
        for value in (True, None, b"1", 1j, [1], Fraction(1, 3)):
            self.assertRaises(TypeError, decimal_text, value)

    @unittest.skipUnless(has("astropy"), "astropy is not here")
    def test_quantities(self):
        from astropy import units

        self.assertEqual(decimal_text(1 * units.au), "149597870.7")
        self.assertEqual(cosine_of_degrees(60 * units.arcmin), COSINES[1])

    def test_cosines_are_rounded_to_18_places(self):
        for degrees, text in COSINES.items():
            self.assertEqual(cosine_of_degrees(degrees), text, repr(degrees))
        self.assertEqual(cosine_of_degrees("0.00000001"), "0.999999999999999999")
        self.assertEqual(cosine_of_degrees("179.99999999"), "-1")
        self.assertEqual(cosine_of_degrees(Fraction(1, 3)), "0.999983076857744188")
        for degrees in COSINES:
            self.assertEqual(cosine_of_degrees(degrees, up=True), COSINES_UP.get(degrees, COSINES[degrees]))
        self.assertEqual(cosine_of_degrees("0.00000001", up=True), "1")
        self.assertEqual(cosine_of_degrees("179.99999999", up=True), "-0.999999999999999999")
        self.assertEqual(cosine_of_degrees("90.00000000000000001", up=True), "0")
        with decimal.localcontext() as context:
            context.prec = 5
            self.assertEqual(cosine_of_degrees(1), COSINES[1])
        for degrees in (-1, "180.1", "north"):
            self.assertRaises(ValueError, cosine_of_degrees, degrees)
        self.assertIs(finder.cosine_of_degrees, cosine_of_degrees)

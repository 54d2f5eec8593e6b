"""SPK kernels that `Ephemeris.open` reads, made of JPL's year: beside JPL's own text, jplephem and closed forms."""

import gzip
import importlib.util
import sys
import types
import unittest
from unittest import mock

import numpy as np

import finder
from tests import kernels
from tests.common import YEAR
from tests.test_ephemeris_sources import InCache, blocks_of, searches_of_century, windows_of

DAY = 86_400
needs_jplephem = unittest.skipUnless(importlib.util.find_spec("jplephem"), "there is no jplephem here")


@needs_jplephem
class Kernels(InCache):
    def test_coefficients_and_windows_of_the_year(self):
        """A kernel as JPL's are, of its numbers of the year: the doubles of the text, and its windows, to the
        letter."""
        eph = finder.Ephemeris.open(kernels.write_year(self.folder / "year.bsp"))
        self.same_series(eph)
        self.assertEqual(eph.errors, {})
        for words in searches_of_century():
            self.assertEqual(windows_of(eph.files, words), windows_of([YEAR], words))

    def test_both_orders_and_types(self):
        """The other byte order, and type 3, have the same blocks; what it is is told by the first bytes, not the
        name."""
        plain = finder.Ephemeris.open(kernels.write_year(self.folder / "a"))
        for name, order, kind in (("b.405", ">", 2), ("c.asc", "<", 3)):
            other = finder.Ephemeris.open(kernels.write_year(self.folder / name, order, kind))
            self.assertEqual(blocks_of(other), blocks_of(plain))
        packed = self.folder / "d"
        packed.write_bytes(gzip.compress((self.folder / "a").read_bytes(), 1))
        self.assertEqual(blocks_of(finder.Ephemeris.open(packed)), blocks_of(plain))

    def test_clipped(self):
        kernel = kernels.write_year(self.folder / "year.bsp")
        eph = finder.Ephemeris.open(kernel, "2000-05-01", "2000-06-01")
        self.assertEqual(finder.check(eph).blocks, 2)
        self.same_series(eph)
        said = self.refused("is asked for", lambda: finder.Ephemeris.open(kernel, "2000-05-01", "2020-06-01"))
        self.assertIn("1999-12-24T00:00:00 to 2001-01-11T00:00:00", said)

    def test_records_that_lie_otherwise(self):
        """An excerpt whose longest records begin before the Moon's is laid into shorter blocks, and what is longer is
        fitted; the places are those of jplephem."""
        series, start, _ = kernels.series_of_text()
        segments = []
        for name, (coefficients, length) in series.items():
            first = int(40 * DAY // length)
            part = coefficients[first : int(-(-200 * DAY // length))]
            segments.append(kernels.chebyshev_segment(*kernels.PAIRS[name], part, start + first * length, length))
        segments.append(kernels.chebyshev_segment(399, 3, *earth(series, start)))
        eph = finder.Ephemeris.open(kernels.write_spk(self.folder / "part.bsp", segments))
        self.assertEqual((eph.start, eph.end), (start + 40 * DAY, start + 200 * DAY))
        self.assertEqual(finder.check(eph).block, 8 * DAY)
        self.assertLess(max(error.largest_km for error in eph.errors.values()), 4e-6)
        times = np.random.default_rng(3).uniform(eph.start, eph.end, 500)
        for body in ("mercury", "mars", "pluto", "moon", "earth"):
            off = finder.Series(eph).body(body, times) - finder.Series(YEAR).body(body, times)
            self.assertLess(np.abs(off).max(), 4e-6, body)

    def test_bodies_of_ones_own(self):
        """A moon of Jupiter, whose places are summed from two segments, in a column that is free."""
        series, start, _ = kernels.series_of_text()
        moon = np.zeros((384, 3, 4))
        moon[:, 0, 0], moon[:, 1, 0] = 421_800.0, 1_000.0
        path = kernels.write_year(self.folder / "year.bsp")
        extra = kernels.write_spk(self.folder / "io.bsp", [kernels.chebyshev_segment(501, 5, moon, start, 1.0 * DAY)])
        eph = finder.Ephemeris.open([path, extra], bodies=["sun", "earth", "moon", "jupiter", 501])
        self.assertEqual(eph.names["io"], "pluto")
        times = np.random.default_rng(4).uniform(eph.start, eph.end, 200)
        away = finder.Series(eph).body("pluto", times) - finder.Series(YEAR).body("jupiter", times)
        self.assertLess(np.abs(away[0] - 421_800).max(), 1e-5)
        self.assertLess(eph.errors["io"].largest_km, 1e-6)
        named = finder.Ephemeris.open([path, extra], bodies={"Io": 501, "sun": "sun"})
        self.assertEqual(sorted(named.names), ["Io", "ssb", "sun"])
        self.refused("no places of jupiter \\(599\\)", lambda: finder.Ephemeris.open([path, extra], bodies=[599]))
        self.refused("bodies= are of SPK kernels", lambda: finder.Ephemeris.open(YEAR, bodies=["sun"]), TypeError)

    def test_refusals(self):
        series, start, _ = kernels.series_of_text()
        year = series["sun"][0], start, series["sun"][1]
        write, segment = kernels.write_spk, kernels.chebyshev_segment
        sun = write(self.folder / "sun.bsp", [segment(10, 0, *year)])
        said = self.refused("no places of earth", lambda: finder.Ephemeris.open(sun))
        self.assertIn("there are segments of 10", said)
        no_moon = write(self.folder / "earth.bsp", [segment(3, 0, *year), segment(399, 3, *year)])
        self.refused("no places of moon", lambda: finder.Ephemeris.open(no_moon))
        first, later = segment(10, 0, year[0][:8], start, year[2]), segment(
            10, 0, year[0][12:], start + 192 * DAY, year[2]
        )
        torn = write(self.folder / "gap.bsp", [first, later])
        said = self.refused("no place of 10 from 0", lambda: finder.Ephemeris.open(torn, bodies=["sun"]))
        self.assertIn("2000-04-30T00:00:00 to 2000-07-03T00:00:00", said)
        turned = segment(10, 0, *year)
        turned.frame = 13
        odd = write(self.folder / "frame.bsp", [turned])
        self.refused("axes of the frame 13", lambda: finder.Ephemeris.open(odd, bodies=["sun"]))
        year_path = kernels.write_year(self.folder / "year.bsp")
        copy = kernels.write_year(self.folder / "copy.bsp", ">")
        same = finder.Ephemeris.open([year_path, copy])
        self.same_series(same)
        other = write(self.folder / "other.bsp", [segment(10, 0, year[0] + 1.0, *year[1:])])
        said = self.refused("of two series", lambda: finder.Ephemeris.open([year_path, other]))
        self.assertIn("other places of 10 from 0, by 1", said)
        later = finder.Ephemeris.open([year_path, other], bodies=["sun", "earth", "moon"])
        moved = finder.Series(later).body("sun", [0.0]) - finder.Series(YEAR).body("sun", [0.0])
        self.assertGreater(np.abs(moved).max(), 0.1)
        (self.folder / "damaged.bsp").write_bytes(sun.read_bytes()[:700].ljust(2048, b"\1"))
        self.refused("damaged SPK kernel", lambda: finder.Ephemeris.open(self.folder / "damaged.bsp"))
        (self.folder / "frames.bpc").write_bytes(b"DAF/PCK ".ljust(4096, b"\0"))
        self.refused("kernel DAF/PCK, and no SPK", lambda: finder.Ephemeris.open(self.folder / "frames.bpc"))

    def test_ecliptic_of_j2000(self):
        """A segment on the ecliptic of J2000 is turned to its equator."""
        series, start, _ = kernels.series_of_text()
        flat = np.zeros((12, 3, 2))
        flat[:, 1, 0] = 1e8
        segment = kernels.chebyshev_segment(2000001, 10, flat, start, 32.0 * DAY)
        segment.frame = 17
        path = kernels.write_spk(self.folder / "ceres.bsp", [segment])
        eph = finder.Ephemeris.open(
            [kernels.write_year(self.folder / "year.bsp"), path], bodies={"ceres": 2000001, "sun": "sun"}
        )
        places = finder.Series(eph)
        away = places.body(eph.names["ceres"], [0.0]) - places.body("sun", [0.0])
        # (the cosine and the sine of 84381.448 arc seconds)
        np.testing.assert_allclose(away.ravel(), [0, 91_748_206.2069, 39_777_715.5932], atol=2e-3)

    def test_types_that_are_fitted(self):
        """States at times of type 9, straight between them, which jplephem evaluates: a line is its own series."""
        series, start, _ = kernels.series_of_text()
        times = start + 3_600.0 * np.arange(24 * 30 + 1)
        states = np.stack([7e3 + 2.0 * times, 3.0 * times, 0 * times, 0 * times + 2, 0 * times + 3, 0 * times], axis=1)
        probe = kernels.write_spk(self.folder / "probe.bsp", [kernels.state_segment(-77, 10, states, times)])
        year = kernels.write_year(self.folder / "year.bsp")
        eph = finder.Ephemeris.open([year, probe], bodies={"sun": "sun", "probe": -77})
        at = np.random.default_rng(5).uniform(eph.start, eph.end, 300)
        away = finder.Series(eph).body(eph.names["probe"], at) - finder.Series(YEAR).body("sun", at)
        # (jplephem takes one double for a time, in which the probe goes by 0.0002 km)
        np.testing.assert_allclose(away, np.stack([7e3 + 2 * at, 3 * at, 0 * at]), atol=1e-3)
        self.assertLess(eph.errors["probe"].largest_km, 1e-3)
        self.assertIn("Fit of probe", " ".join(eph.titles))

    def test_types_of_spice(self):
        """A type that jplephem does not know goes to SpiceyPy: what it is asked, and what is said if it is missing."""
        series, start, _ = kernels.series_of_text()
        numbers = np.zeros(100)
        probe = kernels.Segment(-98, 10, 13, start, start + 384 * DAY, numbers)
        paths = [kernels.write_year(self.folder / "year.bsp"), kernels.write_spk(self.folder / "probe.bsp", [probe])]
        words = {"bodies": {"sun": "sun", "probe": -98}}
        loaded = []
        spice = types.SimpleNamespace(
            furnsh=loaded.append,
            unload=loaded.remove,
            spkgps=lambda target, time, frame, center: (np.array([1e6 + target, 2.0 * (time - start), center]), 0.0),
        )
        with mock.patch.dict(sys.modules, spiceypy=spice):
            eph = finder.Ephemeris.open(paths, **words)
        self.assertEqual(loaded, [])
        at = np.array([0.0, 86_400.0])
        away = finder.Series(eph).body(eph.names["probe"], at) - finder.Series(YEAR).body("sun", at)
        np.testing.assert_allclose(away, [[1e6 - 98] * 2, 2 * (at - start), [10, 10]], atol=2e-6)
        with mock.patch.dict(sys.modules, spiceypy=None):
            self.refused(
                "type 13, which needs the package spiceypy",
                lambda: finder.Ephemeris.open(paths, cache=False, **words),
                ImportError,
            )

    @unittest.skipUnless(importlib.util.find_spec("spiceypy"), "there is no spiceypy here")
    def test_type_13(self):
        """A spacecraft's type 13, written and read by SPICE itself: an ellipse about the Sun."""
        import spiceypy

        start, step = 0.0, 7_200.0
        times = start + step * np.arange(400)
        turn = 2 * np.pi / (90 * DAY)
        states = [
            [
                1e8 * np.cos(turn * t),
                1e8 * np.sin(turn * t),
                0,
                -1e8 * turn * np.sin(turn * t),
                1e8 * turn * np.cos(turn * t),
                0,
            ]
            for t in times
        ]
        path = str(self.folder / "probe.bsp")
        handle = spiceypy.spkopn(path, "probe", 0)
        spiceypy.spkw13(handle, -98, 10, "J2000", times[0], times[-1], "probe", 7, len(times), states, times)
        spiceypy.spkcls(handle)
        eph = finder.Ephemeris.open(
            [kernels.write_year(self.folder / "year.bsp"), path], bodies={"sun": "sun", "probe": -98}
        )
        at = np.random.default_rng(6).uniform(times[0], times[-1], 100)
        away = finder.Series(eph).body(eph.names["probe"], at) - finder.Series(YEAR).body("sun", at)
        np.testing.assert_allclose(away, 1e8 * np.array([np.cos(turn * at), np.sin(turn * at), 0 * at]), atol=1e-3)


def earth(series, start):
    """The Earth from the barycentre of Earth and Moon, by the Moon's column and EMRAT: series, start and length."""
    moon, length = series["moon"]
    return -moon[10:50] / 82.30056, start + 10 * length, length


if __name__ == "__main__":
    unittest.main()

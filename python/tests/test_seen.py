"""Times as they are seen, numbers and names, of JPL's year 2000 in DE405, by values that others printed.

Minutes of phases and seasons are those of the US Naval Observatory for 2000 ("Phases of the Moon", "Earth's Seasons",
in UT). Eclipses are F. Espenak's for 2000 (NASA: gamma, magnitudes, minutes of UT, the length of totality). The great
conjunction is J. Meeus's (Astronomical Algorithms). Elongations of Mercury are those of The Astronomical Almanac for
2000. UTC is within a second of UT, and TDB is 64.184 seconds after UTC in all of 2000, to two milliseconds.
"""

import importlib.util
import unittest

import numpy as np

import finder
from finder.spans import ticks_of
from tests.common import YEAR, InFolder

ECL = {"observer": "earth", "frame": "ecl"}
TDB_LESS_UTC = 64.184
NEW = (
    "0106 1814,0205 1303,0306 0517,0404 1812,0504 0412,0602 1214,0701 1920,0731 0225,0829 1019,0927 1953,1027 0758,"
    "1125 2311,1225 1722"
)
FIRST = (
    "0114 1334,0212 2321,0313 0659,0411 1330,0510 2000,0609 0329,0708 1253,0807 0102,0905 1627,1005 1059,1104 0727,"
    "1204 0355"
)
FULL = (
    "0121 0440,0219 1627,0320 0444,0418 1741,0518 0734,0616 2227,0716 1355,0815 0513,0913 1937,1013 0853,1111 2115,"
    "1211 0903"
)
LAST = (
    "0128 0757,0227 0353,0328 0021,0426 1930,0526 1155,0625 0100,0724 1102,0822 1851,0921 0128,1020 0759,1118 1524,"
    "1218 0041"
)
# Both radii of a shadow at the Moon: the Earth's with one part in 100 for the air, and the Sun's (docs/guide/recipes.md).
EARTH, SUN, MOON = 6_442.4, 695_700.0, 1_737.4


def moment(text):
    """The seconds since J2000 (TDB) of a minute of 2000 in UTC, as `0106 1814`."""
    month, day, hour, minute = text[:2], text[2:4], text[5:7], text[7:]
    return ticks_of(f"2000-{month}-{day}T{hour}:{minute}:00") + TDB_LESS_UTC


@unittest.skipUnless(importlib.util.find_spec("erfa"), "erfa is not here")
class Almanacs(InFolder):
    def assert_minutes(self, times, texts, within=31):
        """Those of the times that are in 2000 are these minutes, which are rounded."""
        wanted = [moment(text) for text in texts.split(",")]
        times = [time for time in times if moment("0101 0000") <= time < moment("1231 2359") + 60]
        self.assertEqual(len(times), len(wanted))
        for time, want in zip(times, wanted):
            self.assertLess(abs(time - want), within)

    def test_phases(self):
        new = finder.conjunctions(YEAR, "moon", "sun", **ECL)
        self.assert_minutes(finder.seen(new, YEAR).seconds, NEW)
        full = finder.oppositions(YEAR, "moon", "sun", **ECL)
        self.assert_minutes(finder.seen(full, YEAR).seconds, FULL)
        quarters = finder.separation(YEAR, "moon", "sun", cosine=0, observer="earth")
        times = finder.seen(quarters, YEAR, phases=True).seconds
        self.assert_minutes(times[quarters.falls], FIRST)
        self.assert_minutes(times[quarters.rises], LAST)
        self.assertEqual({*finder.names(new), *finder.names(full)}, {"new moon", "full moon"})
        self.assertEqual(finder.names(quarters)[:2], ["last quarter", "first quarter"])

    def test_seasons(self):
        for axis, rise, fall, names in (
            ("y", "0320 0735", "0922 1727", ["March equinox", "September equinox"]),
            ("x", "1221 1337", "0621 0148", ["June solstice", "December solstice"]),
        ):
            found = finder.coordinate(YEAR, "sun", axis, **ECL)
            times = finder.seen(found, YEAR).seconds
            self.assert_minutes(times[found.rises], rise, within=60)
            self.assert_minutes(times[found.falls], fall, within=60)
            self.assertEqual(finder.names(found), names)

    def test_great_conjunction(self):
        """28 May 2000 at 16h of dynamical time, Jupiter and Saturn 1.15 degrees apart."""
        found = finder.conjunctions(YEAR, "jupiter", "saturn", **ECL)
        times = finder.seen(found, YEAR)
        self.assertLess(abs(times.seconds[0] - ticks_of("2000-05-28T16:00:00")), 1_800)
        self.assertAlmostEqual(finder.values(found, YEAR, at=times, apparent=True).angle[0], 1.15, delta=0.03)

    def test_lunar_eclipse(self):
        """21 January 2000: the umbra from 03:01.4 to 06:25.5, and totality of 76.9 minutes."""
        moon = {"observer": "moon", "kind": "full", "end": "2000-02-01"}
        umbra = finder.occultations(YEAR, "earth", "sun", (EARTH + MOON, SUN + MOON), **moon)
        total = finder.occultations(YEAR, "earth", "sun", (EARTH - MOON, SUN - MOON), **moon)
        for time, want in zip(finder.seen(umbra, YEAR, arrival="earth").seconds, ("0121 0301", "0121 0625")):
            self.assertLess(abs(time - moment(want) - 27), 30)
        length = float(np.diff(finder.seen(total, YEAR, arrival="earth").seconds)[0]) / 60
        self.assertAlmostEqual(length, 76.9, delta=0.3)
        self.assertEqual(finder.names(umbra), ["partial eclipse begins (U1)", "partial eclipse ends (U4)"])
        self.assertEqual(finder.names(total), ["total eclipse begins (U2)", "total eclipse ends (U3)"])

    def test_solar_eclipses(self):
        """Gamma and magnitude of the four of 2000, all partial, from the Moon's shadow as it is seen."""
        found = finder.occultations(YEAR, "moon", "sun", (MOON + 6_378.1, SUN - 6_378.1), observer="earth")
        self.assertEqual(finder.names(found), ["solar eclipse begins", "solar eclipse ends"] * 4)
        times = finder.seen(found, YEAR).seconds
        sky = finder.ApparentPlaces(finder.Series(YEAR), of_date=False)
        wanted = ((-1.2233, 0.5795), (-1.2821, 0.4768), (1.2166, 0.6034), (1.1367, 0.7228))
        for begin, end, (gamma, magnitude) in zip(times[::2], times[1::2], wanted):
            off, along, far = shadow(sky, np.linspace(begin, end, 2_001))
            least = abs(off).argmin()
            self.assertAlmostEqual(off[least], gamma, delta=0.0005)
            self.assertAlmostEqual(magnitude_of(off[least], along[least], far[least]), magnitude, delta=0.003)

    def test_elongations(self):
        """The six of Mercury: 15 February 18 degrees east, 28 March 28 west, 9 June 24 east, 27 July 20 west, 6 October
        26 east, 15 November 19 west."""
        found = finder.separation_extremes(YEAR, "mercury", "sun", observer="earth", dir="rise")
        numbers = finder.values(found, YEAR, at=finder.seen(found, YEAR), apparent=True)
        sides = [f"greatest elongation {side}" for side in ("east", "west") * 3]
        self.assertEqual(finder.names(found, numbers.east), sides)
        self.assertEqual(numbers.elongation.round().tolist(), [18, 28, 24, 20, 26, 19])
        days = [str(day)[5:10] for day in finder.seen(found, YEAR).datetime64()]
        self.assertEqual(days, ["02-15", "03-28", "06-09", "07-27", "10-06", "11-15"])


def shadow(sky, times):
    """How far the axis of the Moon's shadow passes the Earth's centre in radii of the Earth, below 0 in the south, how
    far the Moon is from the plane through it across the axis, and the Moon from the Sun, in the same unit."""
    moon, sun = (sky.seen(body, "earth", "eq", times) / 6_378.137 for body in ("moon", "sun"))
    far = np.sqrt(((moon - sun) ** 2).sum(axis=0))
    toward = (moon - sun) / far
    along = -(moon * toward).sum(axis=0)
    near = moon + along * toward
    return np.sqrt((near**2).sum(axis=0)) * np.sign(near[2]), along, far


def magnitude_of(gamma, along, far):
    """The part of the Sun's diameter that is covered at the place of the Earth nearest to the axis (Meeus, 54)."""
    moon, sun = 0.272_488, SUN / 6_378.137
    outer, inner = (np.arcsin((sun + way * moon) / far) for way in (1, -1))
    penumbra = along * np.tan(outer) + moon / np.cos(outer)
    umbra = along * np.tan(inner) - moon / np.cos(inner)
    return (penumbra + 0.9972 - abs(gamma)) / (penumbra + umbra)


if __name__ == "__main__":
    unittest.main()

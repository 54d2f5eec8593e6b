"""Numbers at events, intervals, and names."""

import importlib.util
import unittest

import numpy as np

import finder
from tests.common import YEAR, InFolder, of_the_whole

EARTH = {"observer": "earth"}
ECL = {**EARTH, "frame": "ecl"}
STATIONS = (
    "FIND station target mercury second - observer earth frame ecl axis - values - dir any width 1 depth 40 cut half "
    "span 2000-01-01T00:00:00 2000-12-31T00:00:00\n"
)
DISCS = "FIND {} target {} second sun observer {} frame eq axis - values {},695700 dir any width 1 depth 40 cut half "
SPAN = (
    "span 2000-01-01T00:00:00 2000-12-31T00:00:00\nC 2000-02-21T00:00:00 2000-02-21T00:00:00 rise\n"
    "END certain 1 undecided 0\n"
)


def has(name):
    return importlib.util.find_spec(name) is not None


class Numbers(InFolder):
    def test_what_an_event_says_of_itself(self):
        """At an opposition longitudes differ by 180 degrees, at a node the latitude is 0, a distance is that one."""
        found = finder.oppositions(YEAR, "saturn", **ECL)
        numbers = finder.values(found, YEAR)
        self.assertAlmostEqual(abs(numbers.target.lon[0] - numbers.second.lon[0]), 180, delta=1e-5)
        self.assertAlmostEqual(numbers.angle[0], numbers.elongation[0], delta=1e-9)
        self.assertLess(abs(numbers.function[0]), 1e-5)
        found = finder.coordinate(YEAR, "moon", "z", **ECL)
        self.assertLess(abs(finder.values(found, YEAR).target.lat).max(), 1e-5)
        found = finder.distance(YEAR, "mercury", 100_000_000, **EARTH)
        numbers = finder.values(found, YEAR)
        self.assertLess(abs(numbers.target.distance_km - 1e8).max(), 40)
        self.assertTrue(np.array_equal(numbers.target.distance_au, numbers.target.distance_km / 149_597_870.7))
        self.assertIsNone(numbers.second)
        self.assertIsNone(numbers.angle)

    def test_sides_of_the_sun(self):
        """None from the Sun, of the Sun, and from the barycentre. At a last quarter the Moon is in the west."""
        quarters = finder.separation(YEAR, "moon", "sun", cosine=0, **EARTH)
        self.assertTrue(np.array_equal(finder.values(quarters, YEAR).east, quarters.falls))
        for found in (
            finder.apsides(YEAR, "earth", observer="sun"),
            finder.apsides(YEAR, "sun", observer="earth"),
            finder.apsides(YEAR, "earth", observer="ssb"),
        ):
            self.assertIsNone(finder.values(found, YEAR).elongation)
            self.assertIsNone(finder.values(found, YEAR).east)

    @unittest.skipUnless(has("erfa"), "erfa is not here")
    def test_places_of_date(self):
        """The equinox moves by 50.3 arc seconds a year: those of date differ by that, and by nutation, up to 17."""
        found = finder.apsides(YEAR, "moon", start="2000-12-01", **EARTH)
        old, date = (finder.values(found, YEAR, apparent=True, of_date=of_date) for of_date in (False, True))
        moved = (date.target.lon - old.target.lon) * 3_600
        years = found.last / (365.25 * 86_400)
        self.assertLess(abs(moved - 50.3 * years).max(), 18)
        self.assertIn("apparent, of date, in doubles, unproved", repr(date))

    def test_a_series_that_was_read_before(self):
        found = finder.stations(YEAR, "mercury", **ECL)
        series = finder.Series(YEAR)
        one, other = finder.values(found, YEAR), finder.values(found, series=series)
        self.assertTrue(np.array_equal(one.target.ra, other.target.ra))
        self.assertEqual(set(one.columns()) - {"seconds", "elongation", "east", "function"}, {
            f"target_{name}" for name in ("distance_km", "distance_au", "ra", "dec", "lon", "lat")
        })

    @unittest.skipUnless(has("astropy") and has("pandas"), "astropy or pandas is not here")
    @of_the_whole
    def test_tables(self):
        numbers = finder.values(finder.oppositions(YEAR, "saturn", **ECL), YEAR)
        table, frame = numbers.to_table(), numbers.to_pandas()
        self.assertEqual(str(table["second_distance_au"].unit), "AU")
        self.assertIn("unproved", table.meta["about"])
        self.assertIn("unproved", frame.attrs["about"])
        self.assertEqual(frame["target_ra"].tolist(), table["target_ra"].tolist())


class Intervals(InFolder):
    def test_rise_and_fall(self):
        """Jupiter moves forward at the begin of 2000, turns back in September, and has not turned at its end."""
        found = finder.stations(YEAR, "jupiter", start="2000-01-01", end="2001-01-01", **ECL)
        held = finder.intervals(found)
        self.assertEqual(held, [finder.Interval(None, found[0])])
        self.assertEqual([held[0].has(tick) for tick in (found[0].first - 1, found[0].last)], [True, False])
        self.assertIs(finder.on_at_start(found), True)
        near = finder.separation(YEAR, "venus", "jupiter", degrees=1, **EARTH)
        self.assertEqual(finder.intervals(near), [finder.Interval(near[0], near[1])])
        self.assertIs(finder.on_at_start(near), False)

    def test_they_are_the_times_of_the_set(self):
        """The intervals at which Mercury moves forward are the times that are not in the set of its backward ones."""
        found = finder.stations(YEAR, "mercury", **ECL)
        back = finder.retrograde(YEAR, "mercury", **ECL)
        held = finder.intervals(found)
        for tick in [*found.first.tolist(), *(found.first - 1).tolist(), found.start, found.end]:
            self.assertEqual(any(each.has(tick) for each in held), tick not in back.possible)

    def test_nothing_found(self):
        """Mars is never 170 degrees from the Sun in 2000: it is within that angle, which the files alone say."""
        none = finder.separation(YEAR, "mars", "sun", degrees=170, **EARTH)
        self.assertEqual(finder.intervals(none, YEAR), [finder.Interval(None, None, True, proved=False)])
        self.assertEqual(finder.intervals(none), [finder.Interval(None, None, None, proved=False)])
        self.assertIs(finder.on_at_start(none, YEAR), True)
        self.assertIsNone(finder.on_at_start(none))
        apart = finder.separation(YEAR, "mars", "sun", degrees=1, start="2000-01-01", end="2000-03-01", **EARTH)
        self.assertEqual(finder.intervals(apart, series=finder.Series(YEAR)), [])

    def test_undecided_windows(self):
        """What holds beside an undecided window follows from the certain ones on its other side."""
        lines = [
            "U 2000-02-01T00:00:00 2000-02-01T12:00:00",
            "C 2000-02-21T12:47:00 2000-02-21T12:47:00 fall",
            "C 2000-03-14T20:39:00 2000-03-14T20:39:00 rise",
            "U 2000-06-01T00:00:00 2000-06-01T12:00:00",
            "U 2000-07-01T00:00:00 2000-07-01T12:00:00",
        ]
        found = finder.Windows.of_text(STATIONS + "\n".join(lines) + "\nEND certain 2 undecided 3\n")
        first, fall, rise, one, other = found
        self.assertEqual(
            finder.intervals(found),
            [
                finder.Interval(None, first, None, proved=False),
                finder.Interval(first, fall),
                finder.Interval(rise, one),
                finder.Interval(one, other, None, proved=False),
                finder.Interval(other, None, None, proved=False),
            ],
        )
        # (in doubles: forward in January and from 17 July on, backward in June)
        known = [(each.begin, each.on, each.proved) for each in finder.intervals(found, YEAR)]
        self.assertEqual(known[0], (None, True, False))
        self.assertEqual([each.has(first.first) for each in finder.intervals(found)[:2]], [None, None])
        self.assertIsNone(finder.on_at_start(found))
        self.assertIs(finder.on_at_start(found, YEAR), True)

    def test_what_has_no_intervals(self):
        found = finder.stations(YEAR, "mercury", **ECL)
        for wrong in (
            finder.conjunctions(YEAR, "moon", "sun", **ECL),
            finder.stations(YEAR, "mercury", dir="rise", **ECL),
            found[found.rises],
        ):
            self.assertRaises(ValueError, finder.intervals, wrong)


class Names(InFolder):
    def test_names(self):
        for found, names in (
            (finder.apsides(YEAR, "moon", **EARTH), ["apogee", "perigee"]),
            (finder.apsides(YEAR, "earth", observer="sun"), ["perihelion", "aphelion"]),
            (finder.apsides(YEAR, "mars", **EARTH), ["greatest distance"]),
            (finder.conjunctions(YEAR, "mercury", "sun", **ECL), ["superior conjunction", "inferior conjunction"]),
            (finder.conjunctions(YEAR, "sun", "mercury", **ECL), ["superior conjunction", "inferior conjunction"]),
            (finder.conjunctions(YEAR, "moon", "sun", **EARTH), ["conjunction in right ascension"] * 2),
            (finder.oppositions(YEAR, "saturn", **ECL), ["opposition"]),
            (finder.stations(YEAR, "saturn", **ECL), ["station, turns direct", "station, turns retrograde"]),
            (
                finder.stations(YEAR, "saturn", **EARTH),
                ["station in right ascension, turns direct", "station in right ascension, turns retrograde"],
            ),
            (finder.coordinate(YEAR, "moon", "z", **ECL), ["ascending node", "descending node"]),
            (
                finder.separation(YEAR, "venus", "jupiter", degrees=1, **EARTH),
                ["comes within the angle", "leaves the angle"],
            ),
            (finder.separation_extremes(YEAR, "mars", "jupiter", dir="fall", **EARTH), ["closest approach"]),
            (
                finder.occultations(YEAR, "mercury", "sun", (2439.4, 695_700), observer="jupiter"),
                ["exterior ingress (I)", "exterior egress (IV)"],
            ),
            (
                finder.occultations(YEAR, "moon", "neptune", (1737.4, 24_622), kind="full", **EARTH),
                ["full occultation begins", "full occultation ends"],
            ),
        ):
            with self.subTest(found.request):
                self.assertEqual(finder.names(found)[: len(names)], names)

    def test_names_of_eclipses(self):
        for kind, target, observer, radius, name in (
            ("any", "earth", "moon", "8179.8", "penumbral eclipse begins (P1)"),
            ("full", "earth", "moon", "8179.8", "partial eclipse begins (U1)"),
            ("full", "earth", "moon", "4705.0", "total eclipse begins (U2)"),
            ("full", "earth", "moon", "6442.4", "umbra reaches the Moon's centre"),
            ("annular", "earth", "moon", "6442.4", "transit begins, wholly within"),
            ("any", "moon", "earth", "8115.5", "solar eclipse begins"),
            ("annular", "venus", "earth", "6051.8", "interior ingress (II)"),
        ):
            with self.subTest(name):
                found = finder.Windows.of_text(DISCS.format(kind, target, observer, radius) + SPAN)
                self.assertEqual(finder.names(found), [name])


if __name__ == "__main__":
    unittest.main()

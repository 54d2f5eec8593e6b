"""What is seen agrees with a solution by Skyfield over the same coefficients, for each kind that both have.

The kernel is made here of the numbers of JPL's text, by numpy's own sums of Chebyshev series. Skyfield solves by its
own search, its own light time, aberration, precession and nutation.
"""

import importlib.util
import itertools
import unittest

import numpy as np

import finder
from tests.common import YEAR, InFolder, of_the_whole, sample
from tests.skyfield_kernel import DAY, J2000, NAMES, kernel_of

EARTH = {"observer": "earth"}
ECL = {**EARTH, "frame": "ecl"}
# The seconds by which times may differ.
WITHIN = 0.2
# The days on both sides by which a change is taken.
ASIDE = 60 / DAY


HERE = importlib.util.find_spec("skyfield") and importlib.util.find_spec("erfa")


@unittest.skipUnless(HERE, "skyfield or erfa is not here")
class BesideSkyfield(InFolder):
    @classmethod
    def setUpClass(cls):
        from skyfield.api import load

        cls.scale = load.timescale(builtin=True)
        cls.kernel = kernel_of(YEAR)

    def time(self, days):
        return self.scale.tdb_jd(J2000, days)

    def aside(self, time, way):
        """A minute after a time, or before it."""
        return self.scale.tdb_jd(time.whole, time.tdb_fraction + way * ASIDE)

    def apparent(self, name, time, observer="earth"):
        return self.kernel[NAMES[observer]].at(time).observe(self.kernel[NAMES[name]]).apparent()

    def longitude(self, name, time):
        from skyfield.framelib import ecliptic_frame

        return self.apparent(name, time).frame_latlon(ecliptic_frame)[1].degrees

    def ascension(self, name, time):
        return self.apparent(name, time).radec("date")[0].hours * 15

    def angle(self, one, other, time, observer="earth"):
        return self.apparent(one, time, observer).separation_from(self.apparent(other, time, observer)).degrees

    def turns(self, state, step, begin=0.0, end=360.0):
        """The seconds at which a whole number changes, and what it is then."""
        from skyfield.searchlib import find_discrete

        state.step_days = step
        times, values = find_discrete(self.time(begin), self.time(end), state, epsilon=2e-9)
        return ((times.whole - J2000) + times.tdb_fraction) * DAY, values

    def assert_beside(self, found, theirs, **options):
        """All of theirs that are within our span are ours too."""
        ours = finder.seen(found, YEAR, **options).seconds
        ours = ours[(ours > 0) & (ours < 360 * DAY)]
        self.assertEqual(len(ours), len(theirs))
        self.assertGreater(len(ours), 0)
        self.assertLess(abs(ours - theirs).max(), WITHIN)

    def test_phases(self):
        def quarter(time):
            return ((self.longitude("moon", time) - self.longitude("sun", time)) % 360 // 90).astype(int)

        times, values = self.turns(quarter, 5)
        self.assert_beside(finder.conjunctions(YEAR, "moon", "sun", **ECL), times[values == 0])
        self.assert_beside(finder.oppositions(YEAR, "moon", "sun", **ECL), times[values == 2])
        halves = finder.separation(YEAR, "moon", "sun", cosine=0, **EARTH)
        self.assert_beside(halves, times[values % 2 == 1], phases=True)

    @of_the_whole
    def test_seasons(self):
        times, values = self.turns(lambda time: (self.longitude("sun", time) // 90 % 4).astype(int), 40)
        self.assert_beside(finder.coordinate(YEAR, "sun", "y", **ECL), times[values % 2 == 0])
        self.assert_beside(finder.coordinate(YEAR, "sun", "x", **ECL), times[values % 2 == 1])

    @of_the_whole
    def test_conjunctions_and_oppositions(self):
        pairs = (("mercury", "sun", 10), ("jupiter", "saturn", 40), ("saturn", "sun", 40), ("mars", "jupiter", 40))
        for one, other, step in sample(pairs, 3):

            def ahead(time, one=one, other=other):
                return (self.longitude(one, time) - self.longitude(other, time)) % 360

            times, _ = self.turns(lambda time, ahead=ahead: (ahead(time) // 180).astype(int), step)
            apart = 180 - abs(ahead(self.time(times / DAY)) - 180)
            self.assert_beside(finder.conjunctions(YEAR, one, other, **ECL), times[apart < 1])
            if (apart > 179).any():
                self.assert_beside(finder.oppositions(YEAR, one, other, **ECL), times[apart > 179])

    @of_the_whole
    def test_stations(self):
        frames = (("ecl", self.longitude), ("eq", self.ascension))
        planets = (("mercury", 5), ("jupiter", 20), ("saturn", 20))
        for (frame, where), (name, step) in sample(itertools.product(frames, planets), 4):

            def forward(time, name=name, where=where):
                ahead, behind = (where(name, self.aside(time, way)) for way in (1, -1))
                return (ahead - behind + 180) % 360 > 180

            found = finder.stations(YEAR, name, frame=frame, **EARTH)
            self.assert_beside(found, self.turns(forward, step)[0])

    def test_places(self):
        """Directions of date within a hundredth of an arc second, distances within 50 m in an astronomical unit."""
        from skyfield.framelib import ecliptic_frame

        for found in (finder.oppositions(YEAR, "saturn", **ECL), finder.apsides(YEAR, "moon", **EARTH)):
            numbers = finder.values(found, YEAR, apparent=True, of_date=True)
            name = found.request_words["target"]
            seen = self.apparent(name, self.time(numbers.seconds / DAY))
            right, up, far = seen.radec("date")
            north, along, _ = seen.frame_latlon(ecliptic_frame)
            for ours, theirs in (
                (numbers.target.ra, right.hours * 15),
                (numbers.target.dec, up.degrees),
                (numbers.target.lon, along.degrees),
                (numbers.target.lat, north.degrees),
            ):
                self.assertLess(abs((ours - theirs + 180) % 360 - 180).max() * 3_600, 0.01)
            self.assertLess(abs(numbers.target.distance_km / far.km - 1).max(), 3e-10)

    def test_separations(self):
        limit = 1.0
        found = finder.separation(YEAR, "venus", "jupiter", degrees=limit, **EARTH)
        times, _ = self.turns(lambda time: self.angle("venus", "jupiter", time) < limit, 0.5, 130, 150)
        self.assert_beside(found, times)

    @of_the_whole
    def test_elongations(self):
        def grows(time):
            ahead, behind = (self.angle("mercury", "sun", self.aside(time, way)) for way in (1, -1))
            return ahead > behind

        times, _ = self.turns(grows, 5)
        self.assert_beside(finder.separation_extremes(YEAR, "mercury", "sun", **EARTH), times)

    @of_the_whole
    def test_discs(self):
        """The contacts of the Earth's shadow and the Moon's centre, as they are seen from there, and of a transit of the
        Earth that is seen from Neptune."""
        eclipse = "earth", "moon", (6_442.4, 695_700.0), 20
        transit = "earth", "neptune", (6_371.0, 695_700.0), 208
        for (name, observer, radii, day), kind, signs in (
            (eclipse, "any", (1, 1)),
            (eclipse, "full", (1, -1)),
            (transit, "any", (1, 1)),
            (transit, "annular", (-1, 1)),
        ):

            def covered(time, name=name, observer=observer, radii=radii, signs=signs):
                pair = [self.apparent(each, time, observer) for each in (name, "sun")]
                discs = [sign * np.arcsin(size / each.distance().km) for sign, size, each in zip(signs, radii, pair)]
                return discs[0] + discs[1] > pair[0].separation_from(pair[1]).radians

            span = {"start": (day - 2) * DAY, "end": (day + 2) * DAY}
            found = finder.occultations(YEAR, name, "sun", radii, kind=kind, observer=observer, **span)
            self.assert_beside(found, self.turns(covered, 0.01, day - 1, day + 1)[0])


if __name__ == "__main__":
    unittest.main()

"""Motions of a user's own as texts, each with an answer from outside: closed forms, sgp4, Skyfield, astropy."""

import importlib.util
import json
import os
import unittest
from pathlib import Path

import numpy as np

import finder
from finder.ephemeris.fitting import FitError
from tests.common import YEAR, of_the_whole
from tests.test_ephemeris_sources import InCache

DAY = 86_400
# The International Space Station, as the documentation of the package sgp4 has it.
FIRST_LINE = "1 25544U 98067A   19343.69339541  .00001764  00000-0  38792-4 0  9991"
SECOND_LINE = "2 25544  51.6439 211.2001 0007417  17.6667  85.6398 15.50103472202482"
has = importlib.util.find_spec


def circle(period, radius=1e6, height=0.0):
    """A motion on a circle of a period in seconds, above the plane of x and y, whose turns are counted from J2000."""

    def places(seconds):
        turn = 2 * np.pi * np.mod(seconds, period) / period
        return np.array([radius * np.cos(turn), radius * np.sin(turn), 0 * turn + height])

    return places


class Fits(InCache):
    def fit(self, functions, start="2000-01-01", end="2000-02-01", **words):
        return finder.Ephemeris.fit(functions, start, end, **words)

    def test_scalar(self):
        """A scalar stands on the axis x: when a sine passes 0.3 follows from its closed form."""
        eph = self.fit({"tide": lambda seconds: 100 * np.sin(2 * np.pi * np.mod(seconds, 3 * DAY) / (3 * DAY))})
        found = finder.coordinate(eph, "tide", "x", 30)
        self.assertEqual(found.bodies["target"], "tide")
        half = np.arcsin(0.3) / (2 * np.pi) * 3 * DAY
        turns = 3 * DAY * np.arange(11)
        rises, falls = turns + half, turns + 1.5 * DAY - half
        every = np.sort(np.concatenate([rises, falls]))
        inside = every[(every > eph.start) & (every <= eph.end)]
        self.assertTrue(found.certain.all())
        np.testing.assert_array_equal(found.last, np.ceil(inside))
        self.assertEqual([turn for turn in found.turn[:2]], ["rise", "fall"])
        error = eph.errors["tide"]
        self.assertLess(error.largest_km, 1e-6)
        self.assertTrue(np.isnan(error.largest_arcseconds))

    def test_two_bodies_and_the_origin(self):
        """Two circles of 5 and of 7 days meet in longitude each 17.5 days, at once from the origin."""
        eph = self.fit({"inner": circle(5 * DAY), "outer": circle(7 * DAY, 2e6, 2e5)}, "2000-01-02", "2000-03-01")
        self.assertEqual(eph.origin, "earth")
        found = finder.conjunctions(eph, "inner", "outer")
        wanted = [17.5 * DAY, 35 * DAY, 52.5 * DAY]
        self.assertEqual(found.bodies, {"target": "inner", "second": "outer", "observer": "earth"})
        self.assertEqual(len(found), 3)
        # (they meet at whole seconds, of which the text may have the one before)
        np.testing.assert_allclose(found.last, wanted, atol=1)
        for observer in ("earth", "ssb"):
            self.assertEqual(list(finder.conjunctions(eph, "inner", "outer", observer=observer)), list(found))
        extreme = finder.least(eph, "inner", "outer", margin=0.001)
        self.assertAlmostEqual(extreme.value, np.degrees(np.arctan(0.1)), 4)
        near = finder.near(eph, "inner", "outer", degrees=10)
        self.assertEqual(len(near.sure), 3)

    def test_earth_and_moon_of_ones_own(self):
        """They stand in two columns together, and each is where its function has it."""
        functions = {"earth": circle(365 * DAY, 1e8), "moon": circle(27 * DAY, 4e5), "mars": circle(687 * DAY, 2e8)}
        eph = self.fit(functions)
        self.assertEqual(eph.names, {"earth": "earth", "moon": "moon", "mars": "mars", "ssb": "ssb"})
        times = np.random.default_rng(1).uniform(eph.start, eph.end, 200)
        series = finder.Series(eph)
        for name, function in functions.items():
            np.testing.assert_allclose(series.body(name, times), function(times), atol=2e-6)

    def test_eleven_bodies(self):
        functions = {f"body {number}": circle((20 + number) * DAY, 1e5 * (number + 1)) for number in range(11)}
        eph = self.fit(functions)
        self.assertEqual(len(set(eph.names.values()) - {"ssb"}), 11)
        times = np.random.default_rng(2).uniform(eph.start, eph.end, 100)
        series = finder.Series(eph)
        for name, function in functions.items():
            np.testing.assert_allclose(series.body(eph.names[name], times), function(times), atol=2e-6, err_msg=name)
        self.refused("11 bodies at most", lambda: self.fit({**functions, "one more": circle(DAY)}))

    def test_titles_and_errors(self):
        """The errors stand in the title, and are those that the series has at other times."""
        eph = self.fit({"probe": circle(3 * DAY)})
        plain = " ".join(Path(eph.files[0]).read_text("ascii").split("GROUP   1030")[0].split())
        self.assertIn(f"Fit of probe: {eph.errors['probe']}", plain)
        times = np.random.default_rng(3).uniform(eph.start, eph.end, 3_000)
        off = finder.Series(eph).body(eph.names["probe"], times) - circle(3 * DAY)(times)
        self.assertLess(np.sqrt((off**2).sum(axis=0)).max(), 2 * eph.errors["probe"].largest_km)
        self.assertIsInstance(eph.errors["probe"], FitError)
        self.assertLess(eph.errors["probe"].most_km, eph.errors["probe"].largest_km)

    def test_made_again_is_the_same_text(self):
        first, again = self.fit({"probe": circle(3 * DAY)}), self.fit({"probe": circle(3 * DAY)})
        self.assertEqual(first.files, again.files)
        other = self.fit({"probe": circle(3 * DAY, 2e6)})
        self.assertNotEqual(first.sha256, other.sha256)
        apart = self.fit({"probe": circle(3 * DAY)}, cache=False)
        self.assertEqual(apart.sha256, first.sha256)
        self.assertFalse(Path(apart.files[0]).is_relative_to(self.folder))

    def test_refusals(self):
        """Each is a sentence with the body, the span or the time, and what to do."""

        def with_nan(seconds):
            return np.where(seconds > 10 * DAY, np.nan, circle(DAY)(seconds))

        def with_a_jump(seconds):
            return circle(9 * DAY)(seconds) + np.where(seconds > 12.3 * DAY, 1e-3, 0.0)

        def kinked(seconds):
            return np.array([np.abs(seconds - 12.3 * DAY), 0 * seconds, 0 * seconds])

        for function, said in (
            (with_nan, "probe gives \\[nan"),
            (lambda seconds: circle(DAY)(seconds) * 1e5, "numbers below 2\\^36"),
            (lambda seconds: circle(DAY)(seconds)[:2], "array of shape \\(2, [0-9]+\\)"),
            (lambda seconds: circle(DAY)(seconds).T, "3 by [0-9]+ kilometres"),
            (lambda seconds: 7.0, "3 by [0-9]+ kilometres"),
            (lambda seconds: ["a"], "no array of numbers|type <U1"),
            (with_a_jump, "probe is .* km .* from its series at 2000-01-13T(19|2)|no smooth motion"),
            (kinked, "probe is .* km .* from its series at 2000-01-13T|no smooth motion"),
        ):
            with self.subTest(said):
                self.refused(said, lambda: self.fit({"probe": function}))
        rough = self.fit({"probe": with_a_jump}, tolerance=1.0)
        self.assertLess(rough.errors["probe"].largest_km, 1.0)
        self.refused("start is before end", lambda: self.fit({"a": circle(DAY)}, "2000-02-01", "2000-01-01"))
        self.refused("functions are a dictionary", lambda: self.fit({}), TypeError)
        self.refused("probe is a function of seconds", lambda: self.fit({"probe": 7}), TypeError)
        self.refused("a tolerance is", lambda: self.fit({"probe": circle(DAY)}, tolerance=0))
        self.refused("leave emb out", lambda: self.fit({"earth": circle(DAY), "emb": circle(DAY)}))
        self.refused("'ssb', the origin", lambda: self.fit({"ssb": circle(DAY)}))
        fast = {"probe": circle(600.0, 7e3)}
        self.refused(
            "more blocks than a search reads|name a shorter span", lambda: self.fit(fast, "1900-01-01", "2100-01-01")
        )

    def test_table(self):
        """Places at times: those of a circle each six hours, by polynomials; with velocities each day."""
        times = 2_000 + np.arange(0, 31 * DAY, DAY / 4)
        eph = self.fit({"probe": (times, circle(9 * DAY)(times))}, "2000-01-03", "2000-01-28", tolerance=1.0)
        at = np.random.default_rng(5).uniform(eph.start, eph.end, 300)
        off = finder.Series(eph).body(eph.names["probe"], at) - circle(9 * DAY)(at)
        self.assertLess(np.abs(off).max(), 1.0)
        turn = 2 * np.pi / (9 * DAY)
        speed = turn * np.array([-circle(9 * DAY)(times)[1], circle(9 * DAY)(times)[0], 0 * times])
        exact = self.fit(
            {"probe": (times, circle(9 * DAY)(times).T, speed.T)}, "2000-01-03", "2000-01-28", tolerance=0.1
        )
        off = finder.Series(exact).body(exact.names["probe"], at) - circle(9 * DAY)(at)
        self.assertLess(np.abs(off).max(), 0.05)
        self.refused("2000-01-01T12:33:20 to ", lambda: self.fit({"probe": (times, circle(9 * DAY)(times))}))
        self.refused("each after the one before", lambda: self.fit({"probe": (times[::-1], circle(DAY)(times))}))
        self.refused("3 by 124 are wanted", lambda: self.fit({"probe": (times, times)}))

    def test_command_line(self):
        """The text that is written is one for the program, with its own words for the names."""
        eph = self.fit({"probe": circle(3 * DAY)})
        names = eph.write(self.folder / "out")
        found = finder.coordinate(list(names), "pluto", "x", 3e5)
        self.assertEqual(found.request_words["target"], "pluto")
        self.assertIn(np.ceil(3 * DAY * np.arccos(0.3) / (2 * np.pi)), found.last)
        self.assertEqual(os.path.basename(names[0]), "motions.asc")

    def test_over_files_certificates_and_publishing(self):
        eph = self.fit({"inner": circle(5 * DAY), "outer": circle(7 * DAY, 2e6, 2e5)}, "2000-01-02", "2000-03-01")
        found = finder.conjunctions(eph, "inner", "outer")
        self.assertEqual(list(finder.over_files(finder.conjunctions, eph, "inner", "outer")), list(found))
        made = finder.certificate(eph, "conj", "inner", "outer")
        self.assertEqual((made.sha256, made.bodies["second"]), (eph.sha256, "outer"))
        made.save(self.folder / "meetings.cert")
        beside = self.folder / "meetings.cert.asc"
        self.assertEqual(beside.read_bytes(), Path(eph.files[0]).read_bytes())
        checked = finder.verify(beside, self.folder / "meetings.cert")
        self.assertEqual(list(checked.windows), list(found))
        self.assertIn(f"{eph.sha256}  meetings.cert.asc", (self.folder / "meetings.cert.sha256").read_text())


@unittest.skipUnless(has("sgp4"), "there is no sgp4 here")
class Satellites(InCache):
    @of_the_whole
    def test_distance_by_sgp4(self):
        """When the station is at 6,795 km from the Earth's centre, by sgp4 itself at UTC: on whatever axes."""
        from sgp4.api import Satrec

        satellite = Satrec.twoline2rv(FIRST_LINE, SECOND_LINE)
        eph = finder.Ephemeris.fit({"station": satellite}, "2019-12-09", "2019-12-10")
        found = finder.distance(eph, "station", 6_795, observer="earth", tick=1000)
        self.assertGreater(len(found), 20)
        # TDB less UTC: 32.184 + 37 seconds, and -0.0006 of TDB less TT in December (USNO Circular 179, 2.6)
        day = (found.last / 1000 - 69.1834) / DAY
        whole = np.floor(day)
        wrong, places, velocities = satellite.sgp4_array(2_451_545.0 + whole, day - whole)
        distance = np.sqrt((places**2).sum(axis=1))
        speed = np.abs((places * velocities).sum(axis=1) / distance)
        self.assertEqual(wrong.max(), 0)
        np.testing.assert_array_less(np.abs(distance - 6_795) / speed, 0.0025)

    @unittest.skipUnless(has("skyfield"), "there is no skyfield here")
    @of_the_whole
    def test_places_are_those_of_skyfield(self):
        """Both adapters, of the satellite itself and of Skyfield's, beside Skyfield's places of another UT1."""
        from sgp4.api import Satrec
        from skyfield.api import EarthSatellite, load

        scale = load.timescale(builtin=True)
        theirs = EarthSatellite(FIRST_LINE, SECOND_LINE, "ISS", scale)
        motions = {"own": Satrec.twoline2rv(FIRST_LINE, SECOND_LINE), "skyfield": theirs}
        eph = finder.Ephemeris.fit(motions, "2019-12-09", "2019-12-10")
        times = np.random.default_rng(7).uniform(eph.start, eph.end, 400)
        days = np.floor(times / DAY)
        places = theirs.at(scale.tdb_jd(2_451_545.0 + days, (times - days * DAY) / DAY)).position.km
        series = finder.Series(eph)
        self.assertLess(np.abs(series.body(eph.names["skyfield"], times) - places).max(), 2e-6)
        self.assertLess(np.abs(series.body(eph.names["own"], times) - places).max(), 1e-4)
        for name in motions:
            self.assertLess(eph.errors[name].largest_km, 1e-6)


@unittest.skipUnless(has("skyfield"), "there is no skyfield here")
class Skyfield(InCache):
    def test_function(self):
        """Mars from the Sun by Skyfield, over JPL's year as a kernel: its apsis is that of JPL's text."""
        from skyfield.jpllib import SpiceKernel

        from tests import kernels

        kernel = SpiceKernel(str(kernels.write_year(self.folder / "year.bsp")))
        self.addCleanup(kernel.close)
        vector = kernel["mercury"] - kernel["sun"]
        eph = finder.Ephemeris.fit({"mercury": vector}, "2000-01-01", "2001-01-01")
        span = {"start": "2000-01-02", "end": "2000-12-30"}
        made = finder.apsides(eph, "mercury", observer="ssb", **span)
        theirs = finder.apsides(YEAR, "mercury", observer="sun", **span)
        self.assertGreater(len(theirs), 7)
        self.assertEqual(list(made), list(theirs))


@unittest.skipUnless(has("astropy"), "there is no astropy here")
class Stars(InCache):
    @of_the_whole
    def test_star_of_a_catalogue(self):
        """The direction of a star with a large proper motion in 2050, beside astropy's `apply_space_motion`."""
        import astropy.units as u
        from astropy.coordinates import Distance, SkyCoord
        from astropy.time import Time

        # Barnard's star, by Hipparcos
        motion = {"pm_ra_cosdec": -797.84 * u.mas / u.yr, "pm_dec": 10326.93 * u.mas / u.yr}
        epoch = Time(1991.25, format="jyear", scale="tdb")
        place = SkyCoord(
            269.45402305 * u.deg,
            4.66828815 * u.deg,
            Distance(parallax=549.01 * u.mas),
            radial_velocity=-110.6 * u.km / u.s,
            obstime=epoch,
            **motion,
        )
        eph = finder.Ephemeris.fit({"barnard": place}, "2050-01-01", "2050-02-01")
        time = Time("2050-01-15T00:00:00", scale="tdb")
        later = place.apply_space_motion(new_obstime=time).cartesian.xyz.to_value("pc")
        seconds = (time.jd1 - 2_451_545.0 + time.jd2) * DAY
        made = finder.Series(eph).body(eph.names["barnard"], [seconds])[:, 0]
        apart = np.linalg.norm(np.cross(made / np.linalg.norm(made), later / np.linalg.norm(later)))
        # (astropy's is where the star is, ERFA's where it is seen, as light takes its time: a milliarcsecond of a year)
        self.assertLess(np.degrees(apart) * 3_600_000, 5)
        self.assertLess(eph.errors["barnard"].largest_arcseconds, 1e-6)
        names = eph.names
        self.assertEqual(json.loads(json.dumps(names))["barnard"], "pluto")


if __name__ == "__main__":
    unittest.main()

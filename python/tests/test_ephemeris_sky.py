"""The text of an apparent sky: its fit, its names, and its places beside Skyfield's over the same coefficients."""

import importlib.util
import unittest
from pathlib import Path

import numpy as np

import finder
from tests import kernels
from tests.common import YEAR, of_the_whole, sample
from tests.test_ephemeris_sources import InCache

DAY = 86_400
# Greenwich, the equator and a place past the polar circle: degrees, degrees, metres.
PLACES = ((51.4769, 0.0, 46.0), (0.0, -78.5, 2_850.0), (-77.85, 166.67, 10.0))
DELTA_T = 63.8
LIMIT = 3e-6
BODIES = ("sun", "moon", "mercury", "venus", "mars", "jupiter", "saturn", "uranus")
has_erfa = importlib.util.find_spec("erfa")
has_skyfield = importlib.util.find_spec("skyfield") and importlib.util.find_spec("jplephem")


def separation(one, other):
    """The angles between directions in milliarcseconds."""
    one, other = (each / np.sqrt((each**2).sum(axis=0)) for each in (one, other))
    return np.degrees(np.sqrt(((one - other) ** 2).sum(axis=0))) * 3_600_000


@unittest.skipUnless(has_erfa, "there is no erfa here")
class Skies(InCache):
    def sky(self, *place, start="2000-01-01", end="2000-02-01", **words):
        eph = finder.Ephemeris.open(YEAR)
        return eph.sky(finder.Place(*place) if place else None, start, end, **{"delta_t": DELTA_T, **words})

    def test_three_places_for_a_year(self):
        """Their series are within three microarcseconds, but at edges that are named, where light passes the Sun."""
        for place in sample(PLACES, 3):
            sky = self.sky(*place, end="2001-01-01")
            largest = {name: error.largest_arcseconds for name, error in sky.errors.items()}
            self.assertEqual(set(largest), {*BODIES, "zenith", "nadir"})
            self.assertLess(max(largest.values()), LIMIT)
            self.assertTrue(all(error.times > 2_000 for error in sky.errors.values()))
            self.assertEqual({edge.body for edge in sky.edges}, {"mercury", "venus"})
            for edge in sky.edges:
                self.assertLess(edge.end - edge.start, 3 * DAY)
                self.assertLess(edge.arcseconds, 1.0)
                self.assertIn(str(edge), "\n".join(sky.titles))

    @of_the_whole
    def test_edges_are_where_the_sun_is(self):
        """Mercury and Venus are beyond the Sun on 2000-05-09 and 2000-06-11 (superior conjunctions, as almanacs have
        them)."""
        edges = {edge.body: edge for edge in self.sky(*PLACES[0], end="2000-07-01").edges}
        for body, day in (("mercury", "2000-05-09"), ("venus", "2000-06-11")):
            noon = (np.datetime64(f"{day}T12:00:00") - np.datetime64("2000-01-01T12:00:00")) / np.timedelta64(1, "s")
            self.assertTrue(edges[body].start <= noon <= edges[body].end, edges[body])
        plain = self.sky(*PLACES[0], end="2000-07-01", bending=False)
        self.assertEqual(plain.edges, ())

    def test_names_and_titles(self):
        sky = self.sky(*PLACES[0], stars={"regulus": finder.Star(152.093, 11.967)})
        self.assertEqual(sky.names["moon"], "moon")
        self.assertEqual(len({sky.names[name] for name in ("zenith", "nadir", "regulus")}), 3)
        self.assertEqual((sky.origin, sky.axes, sky.place.latitude), ("earth", "equator", 51.4769))
        plain = " ".join(Path(sky.files[0]).read_text("ascii").split("GROUP   1030")[0].split())
        for said in (
            "from 51.4769 N 0.0000 E, 46 m",
            "light time, bending by the Sun, aberration",
            "true equator and equinox of date (IAU 2006, 2000A)",
            "UT1 is TT less 63.8 s",
            finder.Ephemeris.open(YEAR).sha256,
            "regulus in the column",
            f"Fit of moon: {sky.errors['moon']}",
        ):
            self.assertIn(said, plain)
        bodies = {"target": "moon", "second": "regulus", "observer": "earth"}
        self.assertEqual(finder.conjunctions(sky, "moon", "regulus").bodies, bodies)
        self.assertEqual(finder.near(sky, "moon", "regulus", cosine="0.9").bodies, bodies)
        self.assertEqual(finder.certificate(sky, "conj", "moon", "regulus").bodies, bodies)

    def test_refusals(self):
        eph = finder.Ephemeris.open(YEAR)
        sky = self.sky(*PLACES[0])
        said = self.refused("no body of this ephemeris is 'pluto'", lambda: finder.stations(sky, "pluto"))
        self.assertIn("zenith", said)
        self.refused("no body of this ephemeris is 9", lambda: finder.stations(sky, 9))
        found = finder.stations(sky, "mercury")
        self.refused("finder.seen is of geometric places", lambda: finder.seen(found))
        self.refused("finder.values is of geometric places", lambda: finder.values(found, sky))
        self.assertEqual(finder.stations(sky, "Mercury").text, finder.stations(sky, 199).text)
        self.refused("axes='ecliptic'", lambda: finder.stations(sky, "mars", frame="ECLIPJ2000"))
        self.refused("axes='ecliptic'", lambda: finder.stations(sky, "mars", frame="ecl"))
        self.refused("at most 10 bodies", lambda: self.sky(*PLACES[0], stars={f"s{n}": (n, n) for n in range(9)}))
        self.refused("no body of this sky is 'ceres'", lambda: eph.sky(None, bodies=["ceres"]))
        self.refused("zenith is a direction at a place", lambda: eph.sky(None, bodies=["zenith"]))
        self.refused("axes are", lambda: eph.sky(None, axes="galactic"))
        self.refused("the source has 1999-12-24", lambda: eph.sky(None, "2000-01-01", "2002-01-01"))
        self.refused("the source has 1999-12-24", lambda: eph.sky(None, "1999-12-24", "2000-01-01"))
        self.refused("regulus is a finder.Star", lambda: self.sky(stars={"regulus": "Leo"}), TypeError)
        self.refused("dec= from -90 to 90", lambda: finder.Star(10, 100))

    def test_geometric_places_are_those_of_the_source(self):
        """Without light time, bending, aberration and axes of date, from the Earth's centre: the differences of
        JPL's."""
        sky = self.sky(light_time=False, bending=False, aberration=False, axes="j2000")
        times = np.random.default_rng(1).uniform(sky.start, sky.end, 200)
        series, source = finder.Series(sky), finder.Series(YEAR)
        for body in ("moon", "sun", "mercury", "pluto"):
            off = series.body(body, times) - (source.body(body, times) - source.body("earth", times))
            self.assertLess(np.abs(off).max() / np.abs(series.body(body, times)).max(), 1e-11, body)
        self.assertEqual(sky.frames, ("eq", "ecl"))

    @of_the_whole
    def test_span_of_what_was_opened(self):
        """A sky of what was opened for a span is of that span, and the text has enough around it."""
        eph = finder.Ephemeris.open(YEAR, "2000-03-01", "2000-04-01")
        sky = eph.sky("52.52 N 13.40 E", delta_t=DELTA_T)
        found = finder.find(sky, "sep", "sun", "zenith", ref="-0.014543897651582599")
        self.assertEqual((found.start, found.end), (5_140_800, 7_819_200))
        self.assertEqual(len(found), 62)
        # (a block of the source begins with the first of these days, and one ends with the last)
        whole = finder.Ephemeris.open(YEAR, "2000-04-30", "2000-07-03").sky("52.52 N 13.40 E", delta_t=DELTA_T)
        self.assertLessEqual(whole.start, 10_324_800)
        self.assertGreaterEqual(whole.end, 15_854_400)


@unittest.skipUnless(has_erfa and has_skyfield, "there is no erfa, no skyfield or no jplephem here")
class BesideSkyfield(InCache):
    def setUp(self):
        super().setUp()
        from skyfield.api import load
        from skyfield.jpllib import SpiceKernel

        path = kernels.write_year(self.folder / "year.bsp")
        self.kernel = SpiceKernel(str(path))
        self.addCleanup(self.kernel.close)
        self.scale = load.timescale(delta_t=DELTA_T, builtin=True)
        self.eph = finder.Ephemeris.open(path)

    def times(self, seconds):
        days = np.floor(seconds / DAY)
        return self.scale.tdb_jd(2_451_545.0 + days, (seconds - days * DAY) / DAY)

    def seen(self, observer, target, time):
        """Skyfield's apparent directions on the true equator and equinox of date, without bending by the Earth:
        Skyfield takes for it the Earth's place when the light passed Saturn, so that it is wrong by up to six
        milliarcseconds.
        """
        here = observer.at(time)
        here._observer_gcrs_au = None
        ra, dec, _ = here.observe(target).apparent().radec(epoch="date")
        a, d = ra.radians, dec.radians
        return np.array([np.cos(d) * np.cos(a), np.cos(d) * np.sin(a), np.sin(d)])

    @of_the_whole
    def test_apparent_places(self):
        """Random times of a year at three places: within a tenth of a milliarcsecond."""
        from skyfield.api import wgs84

        random = np.random.default_rng(20)
        for place in sample(PLACES, 3):
            sky = self.eph.sky(finder.Place(*place), "2000-01-02", "2000-12-30", delta_t=DELTA_T)
            series = finder.Series(sky)
            observer = self.kernel["earth"] + wgs84.latlon(place[0], place[1], elevation_m=place[2])
            for body in sample(BODIES, 3):
                seconds = random.uniform(sky.start, sky.end, 25)
                edges = [edge for edge in sky.edges if edge.body == body]
                seconds = seconds[[not any(edge.start <= each <= edge.end for edge in edges) for each in seconds]]
                name = body if body in ("sun", "moon") else f"{body} barycenter"
                theirs = self.seen(observer, self.kernel[name], self.times(seconds))
                self.assertLess(separation(series.body(sky.names[body], seconds), theirs).max(), 0.1, (place, body))

    @of_the_whole
    def test_stars_and_the_centre(self):
        """A star with proper motion and parallax, from the Earth's centre, on both sorts of axes."""
        from skyfield.api import Star

        star = Star(
            ra_hours=10.139530740, dec_degrees=11.967208780, ra_mas_per_year=-249.4, dec_mas_per_year=4.91,
            parallax_mas=42.09, radial_km_per_s=5.9, epoch=2_448_349.0625,
        )  # fmt: skip
        sky = self.eph.sky(None, "2000-02-01", "2000-05-01", stars={"regulus": star})
        seconds = np.random.default_rng(21).uniform(sky.start, sky.end, 60)
        theirs = self.seen(self.kernel["earth"], star, self.times(seconds))
        made = finder.Series(sky).body(sky.names["regulus"], seconds)
        self.assertLess(separation(made, theirs).max(), 0.1)
        self.assertLess(sky.errors["regulus"].largest_arcseconds, LIMIT)
        self.assertEqual(finder.Star(1, 2), finder.ephemeris.stars.star_of((1, 2)))

    @of_the_whole
    def test_meetings_with_a_star(self):
        """When the Moon and Regulus have one right ascension of date: the zeros of Skyfield's difference."""
        from skyfield.api import Star
        from skyfield.searchlib import find_discrete

        star = Star(
            ra_hours=10.139530740,
            dec_degrees=11.967208780,
            ra_mas_per_year=-249.4,
            dec_mas_per_year=4.91,
            parallax_mas=42.09,
        )
        sky = self.eph.sky(None, "2000-02-01", "2000-05-01", stars={"regulus": star})
        found = finder.conjunctions(sky, "moon", "regulus", tick=1000)
        earth = self.kernel["earth"]

        def is_past(time):
            moon, other = (
                earth.at(time).observe(each).apparent().radec(epoch="date")[0].hours
                for each in (self.kernel["moon"], star)
            )
            return (moon - other + 12) % 24 >= 12

        is_past.step_days = 1.0
        times, past = find_discrete(
            *(self.times(np.array([float(each)]))[0] for each in (sky.start, sky.end)), is_past, 1e-9
        )
        seconds = ((times.whole - 2_451_545.0) + times.tdb_fraction) * DAY
        # (of half a turn the difference passes 0 too, the other way)
        meetings = seconds[past == 1]
        self.assertEqual(len(found), len(meetings))
        np.testing.assert_allclose(found.last / 1000, meetings, atol=0.02)

    def test_ecliptic_of_date(self):
        """Longitudes on the true ecliptic of date: those of Skyfield's own frame."""
        from skyfield.framelib import ecliptic_frame

        sky = self.eph.sky(None, "2000-02-01", "2000-05-01", axes="ecliptic")
        seconds = np.random.default_rng(22).uniform(sky.start, sky.end, 40)
        for body in ("sun", "moon", "mars"):
            name = body if body != "mars" else "mars barycenter"
            apparent = self.kernel["earth"].at(self.times(seconds)).observe(self.kernel[name]).apparent()
            theirs = apparent.frame_xyz(ecliptic_frame).km
            made = finder.Series(sky).body(body, seconds)
            self.assertLess(separation(made, theirs).max(), 0.1)


if __name__ == "__main__":
    unittest.main()

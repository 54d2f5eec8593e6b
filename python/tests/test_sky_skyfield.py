"""The sky of a place beside Skyfield over the same coefficients and the same delta T. `bench/sky_of_places.py` does so
for whole years at four places; here are three weeks at two places, and a brute force over 30 nights, minute by
minute."""

import functools
import importlib.util
import unittest

import numpy as np

import finder
from tests.common import IS_WHOLE, YEAR, of_the_whole, sample
from tests.skyfield_kernel import DAY, J2000, NAMES, kernel_of, scale_of

HERE = importlib.util.find_spec("skyfield") and importlib.util.find_spec("erfa")
DELTA_T = 63.83
# The largest difference in seconds.
WITHIN = 0.05
PLACES = {"Berlin": (52.52, 13.40, 34.0), "Tromsø": (69.65, 18.96, 10.0)}


@functools.lru_cache(maxsize=None)
def skyfield():
    """The kernel and the timescale."""
    return kernel_of(YEAR), scale_of(finder.earth_rotation(delta_t=DELTA_T))


@functools.lru_cache(maxsize=None)
def sky_of(name, start, end):
    return finder.Ephemeris.open(YEAR).sky(PLACES[name], start, end, delta_t=DELTA_T)


def here(name):
    """Skyfield's places of bodies from a place."""
    from skyfield.api import wgs84

    kernel, _ = skyfield()
    latitude, longitude, metres = PLACES[name]
    at = (kernel[NAMES["earth"]] + wgs84.latlon(latitude, longitude, elevation_m=metres)).at
    return lambda body, t: at(t).observe(kernel[NAMES[body]]).apparent()


def times_of(seconds):
    """Times of Skyfield, of seconds since J2000 (TDB)."""
    _, scale = skyfield()
    days, rest = np.divmod(np.asarray(seconds, dtype=float), DAY)
    return scale.tdb_jd(J2000 + days, rest / DAY)


@unittest.skipUnless(HERE, "there is no Skyfield or no erfa here")
class BesideSkyfield(unittest.TestCase):
    def altitude(self, name, body, seconds):
        return here(name)(body, times_of(seconds)).altaz()[0].degrees

    def error(self, function, seconds):
        """How many seconds a function's root is from times: its value there over its change."""
        value = function(seconds)
        change = (function(seconds + 1.0) - function(seconds - 1.0)) / 2
        return np.abs(value / change)

    def look(self, name, question, moments, function, step):
        """Each moment is a root of Skyfield's function, and there are as many as it changes its sign at small steps."""
        seconds = moments.seconds
        self.assertTrue(moments.certain.all(), question)
        if len(seconds):
            self.assertLess(self.error(function, seconds).max(), WITHIN, question)
        start, end = sky_of(name, *SPAN).span
        values = function(np.append(np.arange(start, end, step), end))
        self.assertEqual(len(seconds), int((np.diff(np.sign(values)) != 0).sum()), question)

    def test_altitudes(self):
        """Risings and settings, twilights, and passings of an altitude: 600 s between two looks of Skyfield."""
        for name in PLACES:
            sky = sky_of(name, *SPAN)
            rows = [(body, {}, 50 / 60 if body == "sun" else 34 / 60) for body in BODIES]
            rows += [("sun", {"kind": kind}, below) for kind, below in (("civil", 6), ("nautical", 12))]
            rows.append(("saturn", {"altitude": 20}, -20))
            for body, words, below in sample(rows, 3):
                moments = sky.twilight(**words) if "kind" in words else sky.rises(body, **words) + sky.sets(body, **words)
                function = functools.partial(self.over, name, body, below)
                self.look(name, f"{name} {body} {below}", moments, function, 600.0)

    def over(self, name, body, below, seconds):
        """How far a body is above an altitude in degrees; of the Moon its upper limb."""
        altitude, _, distance = here(name)(body, times_of(seconds)).altaz()
        limb = np.degrees(np.arcsin(1737.4 / distance.km)) if body == "moon" and below == 34 / 60 else 0.0
        return altitude.degrees + limb + below

    @of_the_whole
    def test_transits(self):
        for name in PLACES:
            sky = sky_of(name, *SPAN)
            for body in sample(BODIES, 2):
                moments = sky.transits(body) + sky.transits(body, lower=True)

                def west(seconds, name=name, body=body):
                    angle = here(name)(body, times_of(seconds)).hadec()[0].radians
                    return np.sin(angle)

                self.look(name, f"{name} {body}", moments, west, 3_600.0)

    def test_culminations(self):
        """At a culmination the altitude does not change: half a minute before and after it is the same."""
        sky = sky_of("Berlin", *SPAN)
        moments = sky.culminations("moon")
        before, after = (self.altitude("Berlin", "moon", moments.seconds + shift) for shift in (-30.0, 30.0))
        middle = self.altitude("Berlin", "moon", moments.seconds)
        # (an altitude bends by 15" a minute at least: a second off would leave 0.5")
        self.assertLess(abs(before - after).max() * 3_600, 0.05)
        for moment, low, high in zip(moments, np.maximum(before, after), np.minimum(before, after)):
            place = list(moments).index(moment)
            self.assertTrue(middle[place] > low if moment.name == "Moon highest" else middle[place] < high)

    @of_the_whole
    def test_thirty_nights_minute_by_minute(self):
        """Dark, Jupiter at least 30 degrees high, the Moon down: no minute of a sure span breaks a condition, and none
        that meets all lies outside the possible ones."""
        nights = 30 if IS_WHOLE else 2
        name, span = "Berlin", ("2000-10-01", f"2000-10-{1 + nights:02}")
        sky = sky_of(name, *span)
        found = sky.dark() & sky.above("jupiter", 30) & ~sky.above("moon", 0)
        minutes = np.arange(*sky.span, 60.0)
        sun, jupiter, moon = (self.altitude(name, body, minutes) for body in ("sun", "jupiter", "moon"))
        meets = (sun < -18) & (jupiter >= 30) & (moon < 0)
        sure, possible = (self.inside(minutes, rows) for rows in found.rows)
        self.assertGreater(meets.sum(), 100 * nights)
        self.assertFalse((sure & ~meets).any())
        self.assertFalse((meets & ~possible).any())
        # (and all but what lies within a second of an end is decided)
        self.assertLess((possible & ~sure).sum(), 5)

    def inside(self, seconds, rows):
        """Which times are in spans."""
        made = np.zeros(len(seconds), dtype=bool)
        for first, last in rows:
            made |= (seconds >= first / rows.tick) & (seconds <= last / rows.tick)
        return made

    def test_meetings(self):
        """Jupiter and Saturn have one right ascension of date at their meeting of 2000."""
        sky = sky_of("Berlin", "2000-05-25", "2000-06-05")
        (meeting,) = sky.meetings(["jupiter", "saturn"])

        def ahead(seconds):
            one, other = (here("Berlin")(body, times_of(seconds)).radec("date")[0].hours for body in ("jupiter", "saturn"))
            return one - other

        self.assertLess(self.error(ahead, np.array([meeting.seconds])).max(), WITHIN)
        apart = here("Berlin")("jupiter", times_of([meeting.seconds]))
        angle = apart.separation_from(here("Berlin")("saturn", times_of([meeting.seconds]))).degrees[0]
        self.assertAlmostEqual(meeting.separation, angle, places=6)

    @of_the_whole
    def test_a_meeting_of_date_that_is_none_of_j2000(self):
        """Precession moves two stars at 90 degrees of right ascension, 60 north and 60 south, past one another: in the
        axes of J2000 they never meet, and on the equator of date they do."""
        from skyfield.api import Star

        places = {"north": (90.0, 60.0), "south": (90.002, -60.0)}
        stars = {name: finder.Star(*place) for name, place in places.items()}
        words = {"bodies": ["sun", "moon"], "stars": stars}
        source, span = finder.Ephemeris.open(YEAR), ("2000-01-02", "2000-12-30")
        fixed = finder.conjunctions(source.sky(None, *span, axes="j2000", **words), "north", "south")
        self.assertEqual(len(fixed), 0)
        meetings = source.sky(None, *span, **words).meetings(["north", "south"])
        self.assertGreaterEqual(len(meetings), 1)
        kernel, _ = skyfield()
        for meeting in meetings:
            at = kernel[NAMES["earth"]].at(times_of([meeting.seconds]))
            seen = [Star(ra_hours=ra / 15, dec_degrees=dec) for ra, dec in places.values()]
            one, other = (at.observe(star).apparent().radec("date")[0].hours[0] * 54_000 for star in seen)
            self.assertLess(abs(one - other), 2e-3)

    def test_refraction(self):
        """Skyfield's refraction is Bennett's formula at all altitudes: within a minute of arc of ours down to the
        horizon, and within 4 seconds of arc of erfa's from 30 degrees on."""
        from skyfield.earthlib import refract

        from finder.sky.refraction import refraction

        for seen in (0.5, 2.0, 5.0, 10.0, 20.0, 30.0, 60.0):
            for pressure, temperature in ((1010.0, 10.0), (800.0, -10.0)):
                ours = seen - refraction(seen, pressure, temperature)
                back = float(refract(ours, temperature, pressure))
                self.assertLess(abs(back - seen) * 3_600, 4 if seen >= 30 else 40, seen)

    def test_places(self):
        """Altitude and azimuth at random times, within 5 milli-arcseconds."""
        for name in PLACES:
            sky = sky_of(name, *SPAN)
            at = np.random.default_rng(3).uniform(*sky.span, 200)
            for body in ("sun", "moon", "saturn"):
                altitude, azimuth = sky.altaz(body, at)
                theirs = here(name)(body, times_of(at)).altaz()
                off = np.abs([altitude - theirs[0].degrees, (azimuth - theirs[1].degrees + 180) % 360 - 180])
                self.assertLess((off * np.cos(np.radians([0 * altitude, altitude]))).max() * 3_600, 0.005)


# (in it the Sun sets for the winter at Tromsø, on 27 November)
SPAN = ("2000-11-15", "2000-12-05")
BODIES = ("sun", "moon", "mercury", "jupiter")


if __name__ == "__main__":
    unittest.main()

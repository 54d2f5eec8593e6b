#!/usr/bin/python3
"""The sky of four places beside Skyfield over the same coefficients and the same delta T: each rising, setting and
transit of seven bodies, each twilight, and each passing of an altitude.

    bench/sky_of_places.py [--jobs N] [--within SECONDS] --year YEAR.. FILE..

It prints a line for each place and question: how many events both have, and the largest difference in seconds, and its
status is 1 where a count differs or a difference is larger than `--within`. Where the counts differ Skyfield looks
again at steps of a quarter, which is said. Events in a span in which the text has a named edge (a body behind the Sun)
are counted, and their times are left out, which is said too. FILE.. are JPL's text of DE405, the header first. It wants
Skyfield, erfa and astropy."""

import argparse
import concurrent.futures
import os
import sys
from pathlib import Path

import numpy as np

TOP = Path(__file__).resolve().parents[1]
sys.path.insert(0, str(TOP / "python"))

import finder  # noqa: E402
from tests.skyfield_kernel import DAY, J2000, NAMES, kernel_of, scale_of  # noqa: E402

PLACES = {
    "Greenwich": finder.Place(51.4769, 0.0, 46),
    "Tromsø": finder.Place(69.65, 18.96, 10),
    "Quito": finder.Place(-0.22, -78.51, 2850),
    "Sydney": finder.Place(-33.8568, 151.2153, 40),
}
BODIES = ("sun", "moon", "mercury", "venus", "mars", "jupiter", "saturn")
REFRACTION, SUN, MOON_RADIUS = 34 / 60, 50 / 60, 1737.4
ALTITUDES = (("jupiter", 30.0), ("moon", 10.0), ("venus", 20.0))
# The days between two times at which Skyfield looks, each next one where the counts differ: what is up for less is not
# seen by it.
STEPS = (0.04, 0.01, 0.0025)
EPSILON = 1e-4 / DAY


def questions(sky):
    """What is asked: a name, the seconds of the events by this package, and what Skyfield looks for."""
    for body in BODIES:
        horizon = SUN if body == "sun" else REFRACTION
        radius = MOON_RADIUS if body == "moon" else 0.0
        yield f"{body} rises and sets", sky.rises(body) + sky.sets(body), altitude_above(body, -horizon, radius)
        yield f"{body} transits", sky.transits(body) + sky.transits(body, lower=True), meridian(body)
    for kind, below in (("civil", 6.0), ("nautical", 12.0), ("astronomical", 18.0)):
        yield f"{kind} twilight", sky.twilight(kind), altitude_above("sun", -below, 0.0)
    for body, degrees in ALTITUDES:
        moments = sky.rises(body, altitude=degrees, limb="centre") + sky.sets(body, altitude=degrees, limb="centre")
        yield f"{body} above {degrees:g}", moments, altitude_above(body, degrees, 0.0)


def altitude_above(body, degrees, radius):
    """Whether the upper limb of a body is above an altitude, for Skyfield."""

    def make(here, kernel):
        def is_above(t):
            altitude, _, distance = here(t).observe(kernel[NAMES[body]]).apparent().altaz()
            return altitude.degrees + np.degrees(np.arcsin(radius / distance.km)) >= degrees

        return is_above

    return make


def meridian(body):
    """Whether a body is west of the meridian, for Skyfield."""

    def make(here, kernel):
        def is_west(t):
            angle, _, _ = here(t).observe(kernel[NAMES[body]]).apparent().hadec()
            return angle.hours % 24 < 12

        return is_west

    return make


def compare(job):
    """The lines of a place and a year, and whether all hold."""
    name, year, files, within = job
    from skyfield.api import wgs84

    place = PLACES[name]
    sky = finder.Ephemeris.open(files).sky(place, f"{year}-01-01", f"{year + 1}-01-01")
    rotation = finder.earth_rotation()
    kernel, scale = kernel_of(*map(Path, files)), scale_of(rotation)
    spot = wgs84.latlon(place.latitude, place.longitude, elevation_m=place.metres)
    here = (kernel[NAMES["earth"]] + spot).at
    start, end = (scale.tdb_jd(J2000, each / DAY) for each in sky.span)
    lines, good = [], True
    for question, moments, make in questions(sky):
        line, holds = beside(sky, question, moments, make(here, kernel), (scale, start, end), within)
        lines.append(f"{year} {name:10} {line}")
        good = good and holds
    return lines, good


def beside(sky, question, moments, function, looked, within):
    """A line of a question, and whether it holds."""
    ours, said = moments.seconds, ""
    for step in STEPS:
        theirs = skyfield_times(function, step, *looked)
        if len(theirs) == len(ours):
            break
        said += f", Skyfield has {len(theirs)} at steps of {step * 1440:.0f} min"
    same = len(ours) == len(theirs)
    kept = ~np.any([(each.start <= ours) & (ours <= each.end) for each in edges_of(sky, question)], axis=0)
    kept = np.broadcast_to(kept, ours.shape)
    if not kept.all():
        said += f", {len(ours) - kept.sum()} in an edge left out"
    largest = float(np.abs(ours - theirs)[kept].max()) if same and kept.any() else 0.0
    holds = same and largest <= within and bool(moments.certain.all())
    line = f"{question:24} {len(ours):4} events, largest difference {largest:.4f} s{said}{'' if holds else '  WRONG'}"
    return line, holds


def edges_of(sky, question):
    """The spans in which the body of a question is behind the Sun."""
    return [edge for edge in sky.edges if question.startswith(edge.body)]


def skyfield_times(function, step, scale, start, end):
    """The seconds since J2000 (TDB) at which a function of Skyfield changes."""
    from skyfield import almanac
    from skyfield.nutationlib import iau2000b_radians

    def quick(t):
        # (as Skyfield's own almanac does: the series of 2000B is within a milli-arcsecond of that of 2000A)
        t._nutation_angles_radians = iau2000b_radians(t)
        return function(t)

    quick.step_days = step
    found, _ = almanac.find_discrete(start, end, quick, epsilon=EPSILON)
    return (found.whole - J2000 + found.tdb_fraction) * DAY


def main():
    parser = argparse.ArgumentParser(description=__doc__, formatter_class=argparse.RawDescriptionHelpFormatter)
    parser.add_argument("--year", type=int, nargs="+", default=[2000])
    parser.add_argument("--place", nargs="+", default=list(PLACES), choices=list(PLACES))
    parser.add_argument("--jobs", type=int, default=1)
    parser.add_argument("--within", type=float, default=0.05, help="seconds")
    parser.add_argument("files", nargs="+", metavar="FILE")
    words = parser.parse_args()
    os.environ.setdefault("FINDER", str(TOP / "release" / "finder-x86_64-linux"))
    jobs = [(name, year, words.files, words.within) for year in words.year for name in words.place]
    good = True
    with concurrent.futures.ProcessPoolExecutor(words.jobs) as pool:
        for lines, holds in pool.map(compare, jobs):
            print("\n".join(lines), flush=True)
            good = good and holds
    print("all hold" if good else "not all hold")
    return 0 if good else 1


if __name__ == "__main__":
    sys.exit(main())

#!/usr/bin/python3
"""Texts that the package makes, each beside a peer in one run: skies beside Skyfield, a clipped century beside the
whole, and many processes at once.

    bench/ephemerides.py [skies] [clipped] [processes]

`skies` makes the sky of three places for the year 2000, and compares 2,000 random places of bodies with Skyfield's
apparent ones over the same coefficients and the same delta T; and all risings and settings of the Sun. `clipped` makes
the 41 searches of `century.txt` over a year of a century, in the whole text and in one that `Ephemeris.open` clips.
`processes` lets 200 processes open one source at once, of which 20 are killed. Without words all three are made.

It prints tables in Markdown, of processor seconds, and its status is 1 where something does not hold that its line
says. It needs Skyfield, jplephem, erfa and astropy.
"""

import argparse
import os
import random
import resource
import signal
import subprocess
import sys
import tempfile
import time
from pathlib import Path

import numpy as np

TOP = Path(__file__).resolve().parents[1]
sys.path.insert(0, str(TOP / "python"))

import finder  # noqa: E402
from tests import kernels  # noqa: E402
from tests.common import PROGRAM, YEAR  # noqa: E402

DAY = 86_400
DELTA_T = 63.8
PLACES = {
    "Greenwich": (51.4769, 0.0, 46.0),
    "Quito": (-0.22, -78.51, 2_850.0),
    "McMurdo": (-77.85, 166.67, 10.0),
}
BODIES = ("sun", "moon", "mercury", "venus", "mars", "jupiter", "saturn", "uranus")
COMPARISONS, MILLIARCSECOND = 2_000, 1.0
MICROARCSECONDS, SECONDS = 3.0, 5.0
RATIO = 1 / 3
PROCESSES, KILLED = 200, 20
SPAN = ("2000-01-01", "2001-01-01")


def used(who):
    """The processor seconds that this process (`RUSAGE_SELF`) or its children have used."""
    spent = resource.getrusage(who)
    return spent.ru_utime + spent.ru_stime


def line(holds, text):
    """Prints what has to hold, and returns whether it does."""
    print(f"{'holds' if holds else 'DOES NOT HOLD'}: {text}", flush=True)
    return bool(holds)


def skies(folder):
    """The skies of three places, beside Skyfield."""
    from skyfield.api import load, wgs84
    from skyfield.jpllib import SpiceKernel

    path = kernels.write_year(folder / "year.bsp")
    kernel, scale = SpiceKernel(str(path)), load.timescale(delta_t=DELTA_T, builtin=True)
    draws = np.random.default_rng(2000)
    each = -(-COMPARISONS // (len(PLACES) * len(BODIES)))
    print("| Place | made in | largest error | edges | 99 in 100 beside Skyfield | largest | of times |")
    print("|---|---|---|---|---|---|---|")
    slowest, worst, apart, count, first = 0.0, 0.0, [], 0, None
    for name, place in PLACES.items():
        began = used(resource.RUSAGE_SELF)
        sky = finder.Ephemeris.open(path).sky(finder.Place(*place), *SPAN, delta_t=DELTA_T)
        spent = used(resource.RUSAGE_SELF) - began
        error = max(error.largest_arcseconds for error in sky.errors.values()) * 1e6
        observer = kernel["earth"] + wgs84.latlon(place[0], place[1], elevation_m=place[2])
        off = np.concatenate([beside(sky, observer, kernel, scale, body, draws, each) for body in BODIES])
        print(
            f"| {name} | {spent:.2f} s | {error:.2f} microarcseconds | {len(sky.edges)} | {np.quantile(off, 0.99):.4f} "
            f"milliarcseconds | {off.max():.4f} | {len(off)} |"
        )
        first = first or (observer, sky)
        slowest, worst, count = max(slowest, spent), max(worst, error), count + len(off)
        apart.append(off.max())
    return hold(slowest, worst, max(apart), count) and sunrises(kernel, scale, *first)


def hold(slowest, worst, apart, count):
    """What the skies of all places have to hold."""
    spent = f"a year's sky of a place takes at most {SECONDS:g} processor seconds: {slowest:.2f}"
    fits = f"it fits to {MICROARCSECONDS:g} microarcseconds outside of edges: {worst:.2f}"
    near = f"{count} places outside of edges are within {MILLIARCSECOND:g} milliarcsecond of Skyfield's"
    return all(
        [
            line(slowest <= SECONDS, spent),
            line(worst <= MICROARCSECONDS, fits),
            line(
                apart <= MILLIARCSECOND and count >= COMPARISONS - 50,
                f"{near}, without its bending by the Earth: {apart:.4f}",
            ),
        ]
    )


def beside(sky, observer, kernel, scale, body, draws, count):
    """The angles in milliarcseconds between a body's places in a text and Skyfield's, at random times outside of edges.

    Skyfield's bending by the Earth is left out: it takes the Earth's place of when the light passed Saturn.
    """
    seconds = draws.uniform(sky.requested_span[0], sky.requested_span[1], count)
    edges = [edge for edge in sky.edges if edge.body == body]
    seconds = seconds[[not any(edge.start <= each <= edge.end for edge in edges) for each in seconds]]
    days = np.floor(seconds / DAY)
    here = observer.at(scale.tdb_jd(2_451_545.0 + days, (seconds - days * DAY) / DAY))
    here._observer_gcrs_au = None
    target = kernel[body if body in ("sun", "moon") else f"{body} barycenter"]
    ra, dec, _ = here.observe(target).apparent().radec(epoch="date")
    a, d = ra.radians, dec.radians
    theirs = np.array([np.cos(d) * np.cos(a), np.cos(d) * np.sin(a), np.sin(d)])
    made = finder.Series(sky).body(sky.names[body], seconds)
    made = made / np.sqrt((made**2).sum(axis=0))
    return np.degrees(np.sqrt(((made - theirs) ** 2).sum(axis=0))) * 3_600_000


def sunrises(kernel, scale, observer, sky):
    """All risings and settings of the Sun of a year at the first place, beside Skyfield's."""
    from skyfield import almanac

    topos = observer.vector_functions[-1]
    began = used(resource.RUSAGE_CHILDREN)
    found = finder.separation(sky, "sun", "zenith", degrees="90.8333333333333333", tick=1000)
    ours = used(resource.RUSAGE_CHILDREN) - began
    began = used(resource.RUSAGE_SELF)
    ends = [scale.tdb_jd(2_451_545.0 + each / DAY) for each in sky.requested_span]
    times, _ = almanac.find_discrete(*ends, almanac.sunrise_sunset(kernel, topos))
    theirs = used(resource.RUSAGE_SELF) - began
    seconds = ((times.whole - 2_451_545.0) + times.tdb_fraction) * DAY
    same = len(seconds) == len(found)
    off = float(np.abs(found.last / 1000 - seconds).max()) if same else float("nan")
    both = f"{len(found)} windows in {ours:.2f} s, Skyfield {len(seconds)} in {theirs:.2f} s"
    print(f"risings and settings of the Sun: {both}")
    return line(same and off < 0.1, f"they are the same events, within 0.1 s: {off:.3f}")


def clipped(folder):
    """The searches of a year in a century: the whole text, and a clipped one."""
    century = folder / "century.asc"
    subprocess.run([sys.executable, TOP / "bench/texts.py", "large", century, YEAR], check=True)
    rows = (TOP / "bench/century.txt").read_text().splitlines()
    searches = [row.split("|")[1].split() for row in rows if row and not row.startswith("#")]
    span = ["--from", "2050-01-01T00:00:00", "--to", "2051-01-01T00:00:00"]
    began = used(resource.RUSAGE_CHILDREN)
    whole = [report(words, span, [century]) for words in searches]
    today = used(resource.RUSAGE_CHILDREN) - began
    began, children = used(resource.RUSAGE_SELF), used(resource.RUSAGE_CHILDREN)
    files = finder.Ephemeris.open(century, "2050-01-01", "2051-01-01").files
    opened = used(resource.RUSAGE_SELF) - began
    part = [report(words, span, files) for words in searches]
    now = used(resource.RUSAGE_CHILDREN) - children
    print("| 41 searches of a year | processor seconds |\n|---|---|")
    print(f"| in a century of {century.stat().st_size / 1e6:.0f} MB | {today:.2f} |")
    print(f"| in the text that is clipped | {now:.2f}, and {opened:.2f} to clip it once |")
    return all(
        [
            line(part == whole, "the windows are the same, to the letter"),
            line((now + opened) <= RATIO * today, f"they take at most a third: {(now + opened) / today:.2f}"),
        ]
    )


def report(words, span, files):
    """What the program prints for a search."""
    done = subprocess.run([PROGRAM, "find", *words, *span, "--", *files], check=True, capture_output=True)
    return done.stdout


def processes(folder):
    """Many processes that open one source at once, of which some are killed."""
    home = folder / "processes"
    environment = {**os.environ, "FINDER_CACHE": str(home), "PYTHONPATH": str(TOP / "python")}
    opens = "import sys, finder; print(finder.Ephemeris.open(sys.argv[1], '2000-02-01', '2000-12-01').sha256)"
    path = kernels.write_year(folder / "many.bsp")
    draws = random.Random(200)
    running = [
        subprocess.Popen(
            [sys.executable, "-c", opens, path], env=environment, stdout=subprocess.PIPE, stderr=subprocess.PIPE
        )
        for _ in range(PROCESSES)
    ]
    for process in draws.sample(running, KILLED):
        time.sleep(draws.uniform(0, 0.3))
        process.send_signal(signal.SIGKILL)
    sums = {out for out, _ in (process.communicate() for process in running) if out}
    killed = sum(process.returncode == -signal.SIGKILL for process in running)
    failed = sum(process.returncode not in (0, -signal.SIGKILL) for process in running)
    kept = [each for each in home.iterdir() if (each / "about.json").exists()]
    whole = subprocess.run([sys.executable, "-c", opens, path], env=environment, check=True, capture_output=True).stdout
    print(f"{PROCESSES} processes at once: {killed} killed, {failed} failed, {len(kept)} texts in the cache")
    summed = subprocess.run(["sha256sum", *kept[0].glob("*.asc")], check=True, capture_output=True, text=True).stdout
    return all(
        [
            line(len(kept) == 1 and failed == 0, "one text is in the cache, and no process failed that was not killed"),
            line(
                sums == {whole} and summed.split()[0] == whole.decode().strip(),
                "all have the same text, which is whole",
            ),
        ]
    )


PARTS = {"skies": skies, "clipped": clipped, "processes": processes}


def main():
    parser = argparse.ArgumentParser(description=__doc__, formatter_class=argparse.RawDescriptionHelpFormatter)
    parser.add_argument("parts", nargs="*", metavar="PART", help="skies, clipped, processes")
    words = parser.parse_args()
    if set(words.parts) - set(PARTS):
        parser.error(f"a part is one of {', '.join(PARTS)}")
    os.environ["FINDER"] = str(PROGRAM)
    good = True
    with tempfile.TemporaryDirectory() as folder:
        os.environ["FINDER_CACHE"] = str(Path(folder, "cache"))
        for part in words.parts or PARTS:
            print(f"\n{part}", flush=True)
            good = PARTS[part](Path(folder)) and good
    return 0 if good else 1


if __name__ == "__main__":
    sys.exit(main())

"""Sixty tasks in four roles, each in the form that its users type.

Expected days and hours of the year 2000 are those of the Astronomical Almanac for 2000 (phases, seasons, apsides,
elongations, oppositions, eclipses), in UT; the package's windows are TDB, some 64 seconds later. What is compared beside
them is computed in the test by other means, which its row names.
"""

import csv
import datetime
import io
import json
import logging
import os
import pickle
import subprocess
import sys
import unittest

import numpy as np

import finder
from tests.almanacs import has
from tests.common import PROGRAM, TOP, YEAR, InFolder, of_the_whole, split_year

NEEDED = ("astropy", "erfa", "pandas", "skyfield")
EARTH = {"observer": "earth"}
ECL = {"observer": "earth", "frame": "ecl"}
RADII = (6378, 695_700)
SEASONS = (
    finder.Event.MARCH_EQUINOX,
    finder.Event.JUNE_SOLSTICE,
    finder.Event.SEPTEMBER_EQUINOX,
    finder.Event.DECEMBER_SOLSTICE,
)


def days(found):
    """The days of windows, of TDB."""
    return [str(day)[5:] for day in found.datetime64().astype("datetime64[D]")]


def minutes(times):
    """Times of astropy as month, day, hour and minute, to the nearest minute."""
    return [text[5:16] for text in (times + 30 / 86_400).isot]


def hours(found):
    """The lengths of the sure spans of a set, in hours."""
    return ((found.sure.last - found.sure.first) / found.tick / 3_600).round().astype(int).tolist()


class Tasks(InFolder):
    """What the tasks of all roles share."""

    def setUp(self):
        super().setUp()
        self.addCleanup(os.chdir, os.getcwd())
        os.chdir(TOP)

    def assert_rows(self, rows):
        self.assertEqual(len(rows), 15)
        for task, (call, expected) in rows.items():
            with self.subTest(task):
                self.assertEqual(call(), expected)


@unittest.skipUnless(all(map(has, NEEDED)), "no astropy, erfa, pandas or skyfield")
class AlmanacMaker(Tasks):
    @of_the_whole
    def test_tasks(self):
        year = "examples/de405-2000.asc"
        moons = finder.conjunctions(year, "moon", "sun", "2000-01-01", "2000-04-01", **ECL)
        full = finder.oppositions(year, "moon", start="2000-01-01", end="2000-04-01", **ECL)
        quarters = finder.separation(year, "moon", "sun", "2000-01-01", "2000-02-01", cosine=0, **EARTH)
        apsides = finder.apsides(year, "earth", "2000", "2001", observer="sun")
        equator = finder.coordinate(year, "sun", "y", 0, "2000", "2001", **ECL)
        best = finder.separation_extremes(year, "Mercury", "Sun", "2000-01", "2000-07", dir="rise", **EARTH)
        total = finder.occultations(year, "earth", "sun", (4705, 693962.6), end="2000-02", kind="full", observer="moon")
        seasons = finder.almanac(year, "2000-01-01", "2001-01-01", groups=["seasons"])
        utc = finder.Clock()
        mercury = finder.stations(year, "mercury", "2000-01-01", "2000-08-01", **ECL)
        self.assert_rows(
            {
                "new moons, as they are seen": (
                    lambda: minutes(finder.seen(moons).utc),
                    ["01-06T18:14", "02-05T13:03", "03-06T05:17"],
                ),
                "full moons": (lambda: minutes(finder.seen(full).utc), ["01-21T04:40", "02-19T16:27", "03-20T04:44"]),
                "quarters": (
                    lambda: minutes(finder.seen(quarters, phases=True).utc),
                    ["01-14T13:34", "01-28T07:57"],
                ),
                "their names": (lambda: finder.names(quarters), ["first quarter", "last quarter"]),
                "seasons": (
                    lambda: [f"{utc.minute(entry.seconds):%m-%dT%H:%M}" for entry in seasons.of(*SEASONS)],
                    ["03-20T07:35", "06-21T01:48", "09-22T17:28", "12-21T13:37"],
                ),
                "equinoxes by the Sun's ecliptic y": (lambda: days(equator), ["03-20", "09-22"]),
                "perihelion and aphelion": (lambda: days(apsides), ["01-03", "07-03"]),
                "greatest elongations of Mercury": (lambda: days(best), ["02-15", "03-28", "06-09"]),
                "how many degrees they are": (
                    lambda: finder.values(best).elongation.round().astype(int).tolist(),
                    [18, 28, 24],
                ),
                "the opposition of Jupiter": (lambda: days(finder.oppositions(year, "jupiter", **ECL)), ["11-28"]),
                "the opposition of Saturn": (lambda: days(finder.oppositions(year, "saturn", **ECL)), ["11-19"]),
                "the great conjunction": (lambda: days(finder.conjunctions(year, "jupiter", "saturn", **ECL)), ["05-28"]),
                "totality of January 21": (
                    lambda: minutes(finder.seen(total, arrival="earth").utc),
                    ["01-21T04:05", "01-21T05:22"],
                ),
                "stations of Mercury": (lambda: days(mercury), ["02-21", "03-14", "06-23", "07-17"]),
                "superior conjunction of Venus": (
                    lambda: days(finder.conjunctions(year, "venus", "sun", dir="fall", **ECL)),
                    ["06-11"],
                ),
            }
        )


class SpicePlanner(Tasks):
    """`gfdist`, `gfsep`, `gfposc`, `gfoclt` and the routines of windows, by names, numbers and relations of SPICE. Its
    results are compared with positions at each hour, or by each other where SPICE's own definitions say so."""

    def test_tasks(self):
        de405 = "examples/de405-2000.asc"
        series = finder.Series(de405)
        at = np.arange(0.0, 366 * 86_400, 3_600)
        far = np.linalg.norm(series.seen("moon", "earth", "eq", at), axis=0)
        span = {"start": float(at[0]), "end": float(at[-1])}

        def crossings(values):
            return int((np.diff(np.sign(values)) != 0).sum())

        def lows(values):
            return int(((values[1:-1] < values[:-2]) & (values[1:-1] < values[2:])).sum())

        def inside(found):
            return [tick in found.sure for tick in at.astype(int)[::97]]

        below = finder.distance(de405, "MOON", 380_000, relation="<", observer="EARTH", **span)
        above = finder.distance(de405, 301, 380_000, relation=">", observer=399, **span)
        least = finder.distance(de405, "MOON", relation="ABSMIN", observer="EARTH", **span)
        most = finder.distance(de405, 301, relation="ABSMAX", observer=399, **span)
        together = finder.separation(de405, "VENUS", "SUN", degrees=10, relation="<", observer="EARTH", **span)
        self.assert_rows(
            {
                "gfdist =": (
                    lambda: len(finder.distance(de405, 301, 380_000, observer=399, **span)),
                    crossings(far - 380_000),
                ),
                "gfdist <": (lambda: inside(below), (far < 380_000)[::97].tolist()),
                "gfdist >": (lambda: inside(above), (far >= 380_000)[::97].tolist()),
                "gfdist LOCMIN": (
                    lambda: len(finder.distance(de405, "Moon", relation="LOCMIN", observer="Earth", **span)),
                    lows(far),
                ),
                "gfdist LOCMAX": (
                    lambda: len(finder.distance(de405, "Moon", relation="locmax", observer="Earth", **span)),
                    lows(-far),
                ),
                "gfdist ABSMIN": (lambda: abs(least.value - far.min()) < 40, True),
                "gfdist ABSMAX": (
                    lambda: abs(most.value - far.max()) < 40,
                    True,
                ),
                "gfsep <, in degrees": (
                    lambda: together,
                    finder.near(de405, "venus", "sun", degrees=10, observer="earth", **span),
                ),
                "gfsep LOCMIN": (
                    lambda: days(finder.separation(de405, "VENUS", "SUN", relation="LOCMIN", observer="EARTH")),
                    ["06-11"],
                ),
                "gfposc in ECLIPJ2000": (
                    lambda: finder.coordinate(de405, "MOON", "Z", frame="ECLIPJ2000", observer="EARTH"),
                    finder.coordinate(de405, "moon", "z", frame="ecl", observer="earth"),
                ),
                "gfoclt ANY from the Moon": (
                    lambda: days(finder.occultations(de405, 399, 10, RADII, observer=301, end="2000-08")),
                    ["01-21", "01-21", "07-16", "07-16"],
                ),
                "barycentres by name and number": (
                    lambda: finder.apsides(de405, "JUPITER BARYCENTER", observer="SOLAR SYSTEM BARYCENTER"),
                    finder.apsides(de405, 5, observer=0),
                ),
                "wnintd": (lambda: (below & together).possible, (~(~below | ~together)).possible),
                "wncomd": (lambda: ~below, above),
                "a window in ephemeris seconds": (
                    lambda: [len(finder.apsides(de405, "moon", 0.0, 2_592_000.0, observer="earth")), below.start],
                    [2, 0],
                ),
            }
        )


@unittest.skipUnless(all(map(has, NEEDED)), "no astropy, erfa, pandas or skyfield")
class Observer(Tasks):
    def test_tasks(self):
        import pandas
        from astropy.time import Time
        from skyfield.api import load

        year = "examples/de405-2000.asc"
        scale = load.timescale(builtin=True)
        berlin = datetime.timezone(datetime.timedelta(hours=1))
        january = (scale.utc(2000, 1, 1), scale.utc(2000, 2, 1))
        same = finder.apsides(year, "moon", *january, **EARTH)
        full = finder.oppositions(year, "moon", end="2000-02", **ECL)
        utc = datetime.timezone.utc
        meeting = finder.near(year, "Venus", "Jupiter", degrees=1, observer="earth")
        near_sun = finder.near(year, "moon", "sun", "2000-03", "2000-04", degrees=30, **EARTH)
        series, at = finder.Series(year), np.arange(ticks("2000-03-01T00:00:00"), ticks("2000-04-01T00:00:00"), 3_600.0)
        moon, sun = (series.seen(body, "earth", "eq", at) for body in ("moon", "sun"))
        cosine = (moon * sun).sum(axis=0) / np.linalg.norm(moon, axis=0) / np.linalg.norm(sun, axis=0)
        by_hours = int((cosine > np.cos(np.radians(30))).sum())
        year_at = np.arange(series.start, series.end, 3_600.0)
        farthest = np.linalg.norm(series.seen("moon", "earth", "eq", year_at), axis=0).max()
        sky = finder.Ephemeris.open(year).sky("51.4769 N 0 E 46 m", "2000-06-20", "2000-06-22")
        interval = finder.intervals(finder.separation(year, "venus", "jupiter", degrees=1, **EARTH))[0]
        self.assert_rows(
            {
                "a month by Skyfield's times": (lambda: days(same), ["01-04", "01-19"]),
                "by aware datetimes": (
                    lambda: finder.apsides(year, "moon", *(datetime.datetime(2000, n, 1, tzinfo=utc) for n in (1, 2)), **EARTH),
                    same,
                ),
                "by pandas Timestamps": (
                    lambda: finder.apsides(
                        year, "moon", *pandas.date_range("2000-01-01", periods=2, freq="MS", tz="UTC"), **EARTH
                    ),
                    same,
                ),
                "by astropy's": (
                    lambda: finder.apsides(year, "moon", Time("2000-01-01"), Time("2000-02-01"), **EARTH),
                    same,
                ),
                "by texts with a zone": (
                    lambda: finder.apsides(year, "moon", "2000-01-01T00:00:00Z", "2000-02-01T01:00+01:00", **EARTH),
                    same,
                ),
                "their names": (lambda: finder.names(same), ["apogee", "perigee"]),
                "in Berlin": (
                    lambda: finder.seen(full).utc[0].to_datetime(berlin).hour,
                    5,
                ),
                "when Venus and Jupiter are within a degree": (lambda: days(meeting.sure), ["05-18"]),
                "for how long": (lambda: hours(meeting), [48]),
                "whether it is so on May 17": (lambda: interval.has(ticks("2000-05-17T00:00:00")), True),
                "how long the Moon is near the Sun, by each hour": (lambda: abs(hours(near_sun)[0] - by_hours) <= 1, True),
                "when Mercury goes back": (lambda: hours(finder.retrograde(year, "mercury", **ECL)), [536, 581, 493]),
                "sunrise in Greenwich, by Skyfield 03:42:34 and 03:42:45": (
                    lambda: [str(time)[11:19] for time in sky.rises("sun").to_pandas()["time"].dt.round("s")],
                    ["03:42:34", "03:42:45"],
                ),
                "the farthest Moon of the year": (
                    lambda: abs(finder.greatest(year, "moon", **EARTH).value - farthest) < 40,
                    True,
                ),
                "what a misspelt planet says": (
                    lambda: refusal(finder.stations, year, "Jupitr", **EARTH),
                    "did you mean 'jupiter'?",
                ),
            }
        )


def rows_of(text):
    """The rows of a CSV."""
    return csv.DictReader(io.StringIO(text))


def ticks(text):
    """The seconds since J2000 of a time of TDB."""
    return finder.spans.ticks_of(text)


def refusal(call, *words, **options):
    """The hint of a refusal."""
    try:
        call(*words, **options)
    except (ValueError, TypeError) as error:
        return next(part for part in str(error).replace(": ", "\n").replace(" There", "\n").split("\n") if "did you" in part)


@unittest.skipUnless(all(map(has, NEEDED)), "no astropy, erfa, pandas or skyfield")
class DataEngineer(Tasks):
    def command(self, *words):
        """What the shell command prints."""
        variables = {**os.environ, "PYTHONPATH": str(TOP / "python"), "FINDER": str(PROGRAM)}
        words = [sys.executable, "-m", "finder", *words]
        return subprocess.run(words, env=variables, capture_output=True, text=True, check=True).stdout

    def logged(self):
        """How many commands are logged of a call."""
        with self.assertLogs("finder", logging.INFO) as said:
            finder.check(YEAR)
        return len(said.output)

    @of_the_whole
    def test_tasks(self):
        import pandas

        header, files = split_year(self.folder)
        mixed = [files[2], header, files[0], files[1]]
        moons = finder.apsides(YEAR, "moon", **EARTH)
        exact = finder.apsides(YEAR, "moon", tick=1000, **EARTH)
        frame = moons.to_pandas()
        asked = ["find", "--kind", "apsis", "--target", "moon", "--observer", "earth", str(YEAR)]
        kept = finder.certificate(YEAR, "apsis", "moon", **EARTH)
        kept.save(self.folder / "moon.cert")
        done = []
        new = finder.conjunctions(YEAR, "moon", "sun", **ECL)
        self.assert_rows(
            {
                "a table": (lambda: (len(frame), list(frame.columns)[:3]), (28, ["kind", "target", "second"])),
                "two kinds in one table": (
                    lambda: len(pandas.concat([frame, new.to_pandas()])["kind"].unique()),
                    2,
                ),
                "the same columns at a millisecond": (lambda: list(exact.to_pandas().columns), list(frame.columns)),
                "undecided rows have no turn": (
                    lambda: int(exact.to_pandas()["turn"].isna().sum()),
                    exact.text.count("\nU "),
                ),
                "rows by month": (lambda: int(frame.groupby(frame["last"].dt.month).size().sum()), 28),
                "CSV from a shell": (
                    lambda: [row["last"][:19] for row in rows_of(self.command(*asked, "--format", "csv"))],
                    [window.text() for window in moons],
                ),
                "JSON from a shell": (lambda: len(json.loads(self.command(*asked, "--format=json"))), 28),
                "the report as it is": (lambda: self.command(*asked), moons.text),
                "files in any order": (lambda: finder.apsides(mixed, "moon", **EARTH), moons),
                "a folder and a pattern": (
                    lambda: finder.apsides(self.folder / "*.405", "moon", **EARTH),
                    finder.apsides([header, *files], "moon", **EARTH),
                ),
                "file by file": (lambda: finder.over_files(finder.apsides, files, "moon", header=header, **EARTH), moons),
                "in parts, with progress": (
                    lambda: (finder.apsides(mixed, "moon", progress=done.append, **EARTH) == moons, sum(done)),
                    (True, 3),
                ),
                "through pickle": (lambda: pickle.loads(pickle.dumps(moons)), moons),
                "a certificate that is checked": (lambda: finder.verify(YEAR, self.folder / "moon.cert").windows, moons),
                "a log of what ran": (self.logged, 1),
            }
        )


if __name__ == "__main__":
    unittest.main()

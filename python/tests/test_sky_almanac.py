"""The almanac of a place, and what was mended in all almanacs: each row has its day, contacts have their date, and so
on."""

import csv
import datetime
import functools
import importlib.util
import io
import json
import os
import re
import subprocess
import sys
import unittest
from html.parser import HTMLParser
from unittest import mock

import numpy as np

import finder
from finder.almanac.days import SUN, days_of, weeks_of
from finder.almanac.shadows import moon_sizes
from finder.drawing.nights import STEP, spans_below
from tests.common import PROGRAM, TOP, YEAR, InFolder, of_the_whole, sample

NEEDED = ("erfa", "jinja2", "icalendar")
HERE = all(importlib.util.find_spec(name) for name in NEEDED)
BERLIN = finder.Clock.of("Europe/Berlin") if HERE else None
# Rows of Berlin, 52.52 N 13.40 E, in UT+1, by Skyfield 1.45 over the same coefficients and the same delta T of 63.83 s:
# almanac.dark_twilight_day and almanac.sunrise_sunset with the kernel and the timescale of tests/skyfield_kernel.py.
SUN_OF_BERLIN = {
    "2000-01-01": ("06:10", "06:52", "07:36", "08:17", "16:02", "16:43", "17:28", "18:09"),
    "2000-07-15": ("", "02:05", "03:15", "04:02", "20:22", "21:08", "22:18", ""),
    "2000-12-21": ("06:07", "06:49", "07:33", "08:15", "15:54", "16:36", "17:20", "18:02"),
}
SPAN = "2000-05-25", "2000-06-10"
CELLS = [name for name in SUN if name != "Sun transits"]


@functools.lru_cache(maxsize=None)
def berlin(start="2000-07-01", end="2000-08-01", groups=None):
    """July 2000 at Berlin."""
    groups = groups and groups.split(",")
    return finder.almanac(YEAR, start, end, place="52.52 N 13.40 E", groups=groups, program=PROGRAM, delta_t=63.83)


class Tables(HTMLParser):
    """The tables of a page: their captions, heads with scopes, and rows of cells."""

    def __init__(self):
        super().__init__()
        self.tables, self.heads, self.cell, self.faults = [], 0, None, []

    def handle_starttag(self, tag, attributes):
        given = dict(attributes)
        if tag == "table":
            self.tables.append({"class": given.get("class"), "caption": "", "rows": []})
        elif tag == "tr" and self.tables:
            self.tables[-1]["rows"].append({"class": given.get("class", ""), "cells": []})
        elif tag in ("td", "th", "caption"):
            self.cell = ""
            if tag == "th" and "scope" not in given:
                self.faults.append(attributes)
        elif tag == "h1":
            self.heads += 1

    def handle_endtag(self, tag):
        if tag == "caption":
            self.tables[-1]["caption"] = self.cell.strip()
        elif tag in ("td", "th"):
            self.tables[-1]["rows"][-1]["cells"].append(" ".join(self.cell.split()))

    def handle_data(self, data):
        if self.cell is not None:
            self.cell += data


def tables_of(text):
    made = Tables()
    made.feed(text)
    return made


@unittest.skipUnless(HERE, "one of erfa, jinja2 and icalendar is not here")
class OfAPlace(InFolder):
    def test_days(self):
        """Each day of the month has its row, with the times of Skyfield to the minute."""
        found = berlin("2000-01-01", "2000-12-31", "days")
        days = {f"{day.date}": day for day in days_of(found, finder.Clock.of("+01:00"))}
        for date, row in SUN_OF_BERLIN.items():
            self.assertEqual(tuple(days[date].texts(name) for name in CELLS), row, date)
        july = [day for day in days_of(found, BERLIN) if day.date.month == 7]
        self.assertEqual([day.date.day for day in july], list(range(1, 32)))
        self.assertTrue(all(day.texts("sunrise") and day.texts("sunset") for day in july))
        # (a moonrise and a moonset less than days, as a lunar day is longer)
        self.assertIn(sum(bool(day.texts("moonrise")) for day in july), (29, 30))
        # (new moon on the 1st and the 31st, full moon on the 16th)
        self.assertLess(july[0].lit, 0.02)
        self.assertGreater(july[15].lit, 0.99)

    def test_weeks(self):
        weeks = weeks_of(berlin(), BERLIN)
        self.assertEqual([row.date.day for row in weeks["jupiter"]], [1, 8, 15, 22, 29])
        self.assertEqual(set(weeks), {"mercury", "venus", "mars", "jupiter", "saturn", "uranus"})

    @of_the_whole
    def test_polar_summer(self):
        """At Tromsø the Sun is up all June: the table says so, and so do the notes; nothing is an error."""
        found = finder.almanac(
            YEAR, "2000-06-05", "2000-06-10", place=(69.65, 18.96), groups="days", program=PROGRAM, delta_t=63.83
        )
        self.assertEqual({day.sun_state for day in days_of(found, finder.Clock())}, {"up"})
        text = finder.page(found)
        self.assertRegex(text, r"(?m)^  07 Wed .* up .* up ")
        self.assertIn("The Sun does not set at any time", " ".join(text.split()))
        winter = finder.almanac(
            YEAR, "2000-12-10", "2000-12-15", place=(69.65, 18.96), groups="days", program=PROGRAM, delta_t=63.83
        )
        self.assertEqual({day.sun_state for day in days_of(winter, finder.Clock())}, {"down"})
        for form in finder.Format:
            finder.page(found, form)

    def test_local_circumstances(self):
        """The Moon is below the horizon of Berlin on 16 July, and the Sun on the 31st; Mercury is covered on the
        29th."""
        found = berlin()
        (lunar,) = found.of(finder.Event.LUNAR_ECLIPSE)
        self.assertIn("not seen from here", lunar.text)
        self.assertFalse(any(contact.is_up for contact in lunar.contacts))
        self.assertTrue(all("below the horizon" in line for line in self.lines("U1 partial phase begins")))
        # (the eclipse of 1 July is seen from the south of the Pacific alone)
        first, last = found.of(finder.Event.SOLAR_ECLIPSE)
        self.assertEqual([contact.name for contact in first.contacts], ["P1", "greatest", "P4"])
        self.assertEqual([contact.name for contact in last.contacts], ["C1", "greatest", "C4"])
        self.assertTrue(all("not seen from here" in entry.text for entry in (first, last)))
        covered = {entry.bodies[1]: entry for entry in found.of(finder.Event.OCCULTATION)}
        self.assertEqual([contact.is_up for contact in covered["mercury"].contacts], [True, True, False, False])
        self.assertIn("by day", covered["mercury"].text)
        self.assertIn("not seen from here", covered["mars"].text)

    def lines(self, words):
        return [line for line in finder.page(berlin()).splitlines() if words in line]

    def test_forms(self):
        found = berlin()
        reader = csv.DictReader(io.StringIO(finder.page(found, "csv", BERLIN), newline=""))
        rows = list(reader)
        names = reader.fieldnames or []
        self.assertEqual(len(names), len(set(names)), names)
        self.assertEqual({row["group"] for row in rows}, {group.value for group in finder.Group})
        for row in rows:
            # (the column of UTC is UTC, and that of the zone the zone's)
            self.assertTrue(row["seen_utc"].endswith("+00:00"), row["seen_utc"])
            self.assertTrue(row["seen_local"].endswith("+02:00"), row["seen_local"])
            moments = [datetime.datetime.fromisoformat(row[name]) for name in ("seen_utc", "seen_local")]
            self.assertEqual(*moments)
        rises = [row for row in rows if row["event"] == "sunrise"]
        self.assertEqual(len(rises), 31)
        self.assertEqual({row["status"] for row in rises}, {"certified"})
        whole = json.loads(finder.page(found, "json", BERLIN))
        self.assertEqual(whole["place"], {"latitude": 52.52, "longitude": 13.4, "metres": 0.0})
        # (the span is from 01:58:56 of 1 July to that of 1 August there, as its ends are 0 h of TDB)
        self.assertEqual((len(whole["days"]), len(whole["weeks"]["venus"])), (32, 5))

    def test_foot(self):
        """What UT1 stands on is named."""
        self.assertIn("UT1 is TT less 63.83 s, as it was given.", finder.page(berlin()))

    def test_no_place(self):
        with self.assertRaisesRegex(ValueError, "a latitude is from -90 to 90"):
            finder.almanac(YEAR, "2000-07-01", "2000-08-01", place=(139.7, 35.7), program=PROGRAM)

    @of_the_whole
    def test_pluto_and_stars(self):
        found = finder.almanac(
            YEAR, *SPAN, groups=["planets", "moon-meetings"], pluto=True, stars=True, program=PROGRAM
        )
        # (Astronomical Phenomena for 2000: Pluto at opposition on 1 June)
        (pluto,) = [entry for entry in found.of(finder.Event.OPPOSITION) if entry.bodies == ("pluto",)]
        self.assertEqual(f"{finder.Clock().at(pluto.seconds):%m-%d}", "06-01")
        # (new moon on 2 June between Aldebaran, which it passed that day, and Regulus, 5.5 hours of right ascension on)
        self.assertLessEqual({"Moon passes Aldebaran", "Moon passes Regulus"}, {entry.name for entry in found.entries})
        self.assertNotIn("Pluto is not here", finder.page(found))
        self.assertIn("Pluto is not here", finder.page(finder.almanac(YEAR, *SPAN, groups="planets", program=PROGRAM)))


@unittest.skipUnless(HERE, "one of erfa, jinja2 and icalendar is not here")
class ANight(InFolder):
    def run_command(self, *words):
        """What the command prints, or its status and what it says."""
        environment = {**os.environ, "PYTHONPATH": str(TOP / "python")}
        command = [sys.executable, "-m", "finder", "tonight", str(YEAR), "--delta-t", "63.83", *words]
        return subprocess.run(command, capture_output=True, text=True, check=False, env=environment)

    def test_a_night_with_an_eclipse(self):
        """The night of 20 January 2000 at Berlin: the Moon is eclipsed, all its contacts above the horizon but the
        last."""
        done = self.run_command("--place", "52.52,13.40", "--tz", "Europe/Berlin", "--on", "2000-01-20", "--stars")
        self.assertEqual((done.returncode, done.stderr), (0, ""))
        sky = finder.Ephemeris.open(YEAR).sky((52.52, 13.40), "2000-01-20", "2000-01-22", delta_t=63.83)
        clock = finder.Clock.of("Europe/Berlin")
        for moment in (sky.sets("sun")[0], sky.rises("sun")[1], sky.rises("moon")[0]):
            self.assertIn(f"{clock.minute(moment.seconds):%a %H:%M}  {moment.name}", done.stdout)
        # (F. Espenak, NASA: U1 at 03:01 and U4 at 06:25 of UT; the Moon sets at 08:13 in Berlin, before P4)
        self.assertRegex(done.stdout, r"Fri 04:01:4\d  U1 +\d\d° high")
        self.assertRegex(done.stdout, r"Fri 08:22:4\d  P4 +below the horizon")
        self.assertRegex(done.stdout, r"(?m)^  Aldebaran +\d\d:\d\d")

    @of_the_whole
    def test_a_night_that_is_none(self):
        done = self.run_command("--place", "69.65,18.96", "--on", "2000-06-20")
        self.assertIn("it does not get dark", done.stdout)
        self.assertIn("The Sun does not set at any time", done.stdout)

    @of_the_whole
    def test_refused(self):
        cases = (
            (("--on", "2000-01-20"), "a night is of a place"),
            (("--place", "139.7,35.7", "--on", "2000-01-20"), "a latitude is from -90 to 90"),
            (("--place", "52,13", "--on", "20 January"), "is no day: write 2031-07-01"),
            (("--place", "52,13", "--on", "2000-01-20", "--tz", "Berlin"), "no time zone is 'Berlin'"),
            (("--place", "52,13", "--on", "2010-01-20"), "and 2010-01-"),
        )
        for words, said in sample(cases, 4):
            with self.subTest(words):
                done = self.run_command(*words)
                self.assertIn(done.returncode, (1, 2))
                self.assertIn(said, done.stderr)


@unittest.skipUnless(HERE, "one of erfa, jinja2 and icalendar is not here")
class Mends(InFolder):
    """One test for each thing that was wrong."""

    def test_each_row_has_its_day(self):
        """A group that is hidden takes no other row's day away: each row of events has its own."""
        made = tables_of(finder.page(berlin(), "html", BERLIN))
        rows = [row for table in made.tables if table["class"] == "events" for row in table["rows"][1:]]
        self.assertGreater(len(rows), 30)
        for row in rows:
            self.assertRegex(row["cells"][0], r"^\d+ [A-Z][a-z]{2}$")
        # (the contacts of the eclipse of the 31st that are after midnight of the 30th in UTC have the 31st in Berlin)
        names = {row["cells"][2]: row["cells"][0] for row in rows}
        self.assertEqual(names["C1 partial phase begins, below the horizon"], "31 Mon")

    def test_contacts_after_midnight_have_their_date(self):
        found = finder.almanac(YEAR, "2000-07-15", "2000-07-17", groups="eclipses", program=PROGRAM)
        clock = finder.Clock.of("-11:30")
        made = tables_of(finder.page(found, "html", clock))
        days = [row["cells"][0] for table in made.tables for row in table["rows"][1:] if row["cells"][0]]
        # (P1 at 10:48 of UT on the 16th is at 23:18 of the 15th there, and U1 at 00:27 of the 16th)
        self.assertEqual(days, ["16 Sun", "15 Sat", *["16 Sun"] * 6])

    def test_no_float_dirt(self):
        for form in ("csv", "json"):
            self.assertNotRegex(finder.page(berlin(), form), r"\d\.\d*(0{6,}[1-9]|9{6,})\d*\b")

    def test_a_penumbral_eclipse_says_its_kind(self):
        """The rule, of a Moon that passes through the penumbra alone; JPL's year has no such eclipse."""
        moon, sun = np.array([[-3.8e5], [7.0e3], [0.0]]), np.array([[1.496e8], [0.0], [0.0]])
        sizes = moon_sizes(moon, sun)
        self.assertLess(sizes.umbral, 0)
        self.assertGreater(sizes.penumbral, 0)
        from finder.almanac.eclipses import LunarEclipses

        texts = mock.Mock(places=lambda body, at: {"moon": moon, "sun": sun}[body])
        contacts = [finder.Contact(name, None, "", second) for name, second in (("P1", 0.0), ("P4", 100.0))]
        entry = LunarEclipses()._entry(texts, contacts, finder.Contact("greatest", None, "", 50.0))
        self.assertEqual(entry.name, "Lunar eclipse, penumbral")
        self.assertTrue(entry.text.startswith("penumbral magnitude 0."), entry.text)

    def test_heads_captions_and_scopes(self):
        made = tables_of(finder.page(berlin(), "html", BERLIN))
        self.assertEqual((made.heads, made.faults), (1, []))
        self.assertTrue(all(table["caption"] for table in made.tables))

    @of_the_whole
    def test_drawings_have_a_text(self):
        text = finder.page(berlin(), "html", BERLIN)
        for svg in re.findall(r"<svg [^>]*role=\"img\".*?</svg>", text, re.S):
            names = re.search(r'aria-labelledby="(\S+) (\S+)"', svg)
            for name in names.groups():
                self.assertRegex(svg, rf'<(title|desc) id="{name}">[^<]{{20,}}')

    def test_axes_of_date_are_refused_for_old_series(self):
        """The axes of JPL's files before DE403 are not those of the ICRS."""
        old = self.folder / "old.asc"
        lines = YEAR.read_text("ascii").replace("0.405000000000000000D+03", "0.200000000000000000D+03")
        old.write_text(lines, "ascii")
        series = finder.Series(old)
        self.assertEqual(series.number, 200)
        with self.assertRaisesRegex(ValueError, "DE200 .* of_date=False"):
            finder.ApparentPlaces(series)
        finder.ApparentPlaces(series, of_date=False)
        with self.assertRaisesRegex(ValueError, "DE200"):
            finder.Ephemeris.open(old).sky(None, "2000-03-01", "2000-03-03")

    def test_without_the_packages(self):
        for form, package in (("html", "jinja2"), ("ics", "icalendar")):
            with mock.patch.dict(sys.modules, {package: None}), self.assertRaisesRegex(ImportError, f"pip: {package}"):
                finder.page(berlin(), form)


class Spans(unittest.TestCase):
    def test_spans_below(self):
        """By brute force, of a wave: where it is below a limit between two steps."""
        hours = np.arange(73) * STEP / 60
        values = np.sin(hours) * 10
        for limit in (-5.0, 0.0, 9.0, 11.0, -11.0):
            spans = spans_below(values, limit)
            for hour in np.arange(0, 24, 0.01):
                inside = any(first <= hour <= last for first, last in spans)
                value = np.interp(hour, hours, values)
                if abs(value - limit) > 1e-6:
                    self.assertEqual(inside, value < limit, (hour, limit))


if __name__ == "__main__":
    unittest.main()

"""The forms of an almanac: each is read back by rules of its own, and by a parser where one is there."""

import csv
import datetime
import html.parser
import io
import json
import re
import unittest
import xml.etree.ElementTree
import zoneinfo
from unittest import mock

import numpy as np

import finder
from finder import Event, Format, Group, Scale
from finder.drawing.drawing import Drawing
from finder.almanac.entries import Almanac, Curves, Numbers
from finder.almanac.frame import Frame, labels
from finder.almanac.html import HALF, WHOLE, periods
from finder.seen import scales
from finder.seen.scales import ReadyClock, utc_of
from tests.almanacs import CLOCK, almanac_of_2000, has, undecided_moon, wide_moon
from tests.common import InFolder, of_the_whole

# Elements that have no end, those that would load or run something, and attributes that would load something.
VOID = {"meta", "input", "br", "hr"}
LOADING = {"script", "link", "img", "iframe", "object", "embed", "base", "form", "audio", "video", "source", "image"}
ATTRIBUTES = {"src", "href", "xlink:href", "data", "action", "srcset", "poster", "background"}
SVG = "http://www.w3.org/2000/svg"
BERLIN = zoneinfo.ZoneInfo("Europe/Berlin")
# What is to be escaped, in names and texts.
SHARP = "<b>&\"'; a,b\\c\nd" + "é" * 60


class Reader(html.parser.HTMLParser):
    """Notes the elements of a page, whether each is closed in order, and what would load or run something."""

    def __init__(self):
        super().__init__()
        self.open, self.faults, self.ids, self.times, self.texts = [], [], [], [], []

    def handle_starttag(self, tag, attributes):
        if tag in LOADING or any(name in ATTRIBUTES or name.startswith("on") for name, _ in attributes):
            self.faults.append((tag, attributes))
        self.ids += [value for name, value in attributes if name == "id"]
        self.times += [value for name, value in attributes if name == "datetime"]
        if tag not in VOID:
            self.open.append(tag)

    def handle_startendtag(self, tag, attributes):
        self.handle_starttag(tag, attributes)
        self.handle_endtag(tag)

    def handle_endtag(self, tag):
        if not self.open or self.open.pop() != tag:
            self.faults.append(f"</{tag}>")

    def handle_data(self, data):
        self.texts.append(data)


def read(text):
    """What a page has; an `AssertionError` where it is not whole."""
    made = Reader()
    made.feed(text)
    made.close()
    assert not made.open and not made.faults, (made.open, made.faults)
    return made


def events_of(text):
    """The events of a calendar as mappings, by the rules of RFC 5545 that are used."""
    lines = text.split("\r\n")
    assert lines.pop() == "" and "\n" not in text.replace("\r\n", "") and "\r" not in text.replace("\r\n", "")
    assert max(len(line.encode()) for line in lines) <= 75
    whole = "\r\n".join(lines).replace("\r\n ", "").split("\r\n")
    assert (whole[0], whole[-1]) == ("BEGIN:VCALENDAR", "END:VCALENDAR")
    made = []
    for line in whole:
        name, _, value = line.partition(":")
        name = name.partition(";")[0]
        if line == "BEGIN:VEVENT":
            made.append({})
        elif made and line not in ("END:VEVENT", "END:VCALENDAR"):
            assert name not in made[-1], line
            made[-1][name] = value
    assert whole.count("END:VEVENT") == len(made)
    return made


def sharp():
    """An almanac of one entry, whose texts are to be escaped."""
    times = np.array([0.0, 86_400.0])
    curves = Curves(times, times + 4e5, {}, ())
    contact = finder.Contact("new moon", finder.Window(3_600, 3_600, "rise"), f"FIND {SHARP}", 3_599.5)
    entry = finder.Entry(Group.MOON, Event.NEW_MOON, SHARP, ("moon",), 3_600.5, (contact,), Numbers(), SHARP)
    return Almanac(SHARP, 0.0, 86_400.0, (entry,), (Group.MOON,), 1, (), 0, 86_400, curves)


@unittest.skipUnless(has("erfa"), "no erfa")
class Pages(InFolder):
    """Each form of the almanac of 2000."""

    def test_html_is_whole_and_loads_nothing(self):
        text = finder.page(almanac_of_2000(), "html")
        made = read(text)
        self.assertEqual(len(made.ids), len(set(made.ids)))
        self.assertNotRegex(text, r"url\(|@import|javascript:|https?:")
        self.assertIn("default-src 'none'", text)
        entries = almanac_of_2000().entries
        at = []
        for entry in entries:
            at.append(CLOCK.minute(entry.seconds).isoformat())
            several = entry.contacts if len(entry.contacts) > 1 else ()
            at += [CLOCK.at(each.seconds + 0.5).replace(microsecond=0).isoformat() for each in several]
        self.assertEqual(made.times[-len(at) :], at)
        said = "".join(made.texts)
        for words in ("Proved", "Computed in doubles, and not proved", "2000-01-21 02:05:29", "U2 totality begins"):
            self.assertIn(words, said)

    @unittest.skipUnless(has("html5lib"), "no html5lib")
    def test_html_by_html5lib(self):
        import html5lib

        for found in (almanac_of_2000(), sharp()):
            html5lib.HTMLParser(strict=True).parse(finder.page(found, "html"))

    def test_texts_are_escaped(self):
        made = read(finder.page(sharp(), "html"))
        self.assertNotIn("b", made.open)
        self.assertIn(SHARP.split("\n")[0], "".join(made.texts))
        (event,) = events_of(finder.page(sharp(), "ics"))
        plain = re.sub(r"\\([,;\\])", r"\1", event["SUMMARY"].replace("\\n", "\n"))
        self.assertEqual(plain, SHARP)
        (row,) = csv.DictReader(io.StringIO(finder.page(sharp(), "csv"), newline=""))
        self.assertEqual(row["name"], SHARP)
        self.assertEqual(json.loads(finder.page(sharp(), "json"))["title"], SHARP)

    def test_calendar(self):
        found = almanac_of_2000()
        text = finder.page(found, "ics")
        events = events_of(text)
        self.assertEqual(len(events), len(found.entries))
        self.assertEqual(len({event["UID"] for event in events}), len(events))
        for event, entry in zip(events, found.entries):
            start = utc_of(entry.contacts[0].seconds + 0.5)
            self.assertEqual(event["DTSTART"], f"{start:%Y%m%dT%H%M%SZ}")
            self.assertLess(event["DTSTART"], event.get("DTEND", "9"))
            self.assertLessEqual({"DTSTAMP", "SUMMARY", "DESCRIPTION", "UID"}, set(event))
        berlin = finder.Clock(Scale.UTC, BERLIN, "Europe/Berlin")
        self.assertEqual(finder.page(found, "ics", berlin), text)
        self.assertIn("Certified window (TDB): 2000-01-06T18:14:43", text)
        whole = text.replace("\r\n ", "")
        for name in ("P1", "U1", "U2", "greatest", "U3", "U4", "P4"):
            self.assertRegex(whole, rf"Certified window of {name} \(TDB\): 2000-01-21T0\d")

    @unittest.skipUnless(has("icalendar"), "no icalendar")
    @of_the_whole
    def test_calendar_by_icalendar(self):
        import icalendar

        for found in (almanac_of_2000(), sharp()):
            events = icalendar.Calendar.from_ical(finder.page(found, "ics")).walk("VEVENT")
            self.assertEqual([str(event["SUMMARY"]) for event in events], [entry.name for entry in found.entries])
            self.assertEqual([event.errors for event in events], [[]] * len(events))

    def test_tables(self):
        found = almanac_of_2000()
        rows = list(csv.DictReader(io.StringIO(finder.page(found, "csv"), newline="")))
        contacts = [(entry, contact) for entry in found.entries for contact in entry.contacts]
        self.assertEqual(len(rows), len(contacts))
        for row, (entry, contact) in zip(rows, contacts):
            self.assertAlmostEqual(float(row["seen_tdb_s"]), contact.seconds, delta=6e-4)
            status = "computed" if contact.window is None else "certified"
            self.assertEqual((row["name"], row["status"]), (entry.name, status))
            self.assertRegex(row["seen_utc"], r"^2\d{3}-\d\d-\d\dT\d\d:\d\d:\d\d\.\d{3}\+00:00$|^1999-12-31")
            window = contact.window
            self.assertEqual(row["certified_last_tdb"], "" if window is None else window.text())
        new = next(row for row in rows if row["event"] == "new moon")
        self.assertEqual(new["certified_first_tdb"], "2000-01-06T18:14:43")
        whole = json.loads(finder.page(found, "json"))
        self.assertEqual([each["name"] for each in whole["events"]], [entry.name for entry in found.entries])
        eclipse = next(each for each in whole["events"] if each["event"] == "lunar eclipse")
        self.assertEqual([each["name"] for each in eclipse["contacts"]][:3], ["P1", "U1", "U2"])
        self.assertEqual(eclipse["numbers"]["kind"], "total")
        self.assertEqual(whole["files"][0]["name"], "de405-2000.asc")

    def test_text(self):
        lines = finder.page(almanac_of_2000()).splitlines()
        line = next(line for line in lines if "New moon" in line)
        self.assertRegex(line, r"^  06 Thu 18:14  New moon +404,\d{3} km +2000-01-06T18:14:43$")
        self.assertEqual(sum(line.endswith(" 2000") for line in lines), 12)
        self.assertLess(max(map(len, lines)), 125)

    @of_the_whole
    def test_what_is_not_proved_says_so(self):
        for found, count in ((undecided_moon(self.folder), 27), (wide_moon(self.folder), 1)):
            self.assertGreaterEqual(sum(entry.status is finder.Status.UNDECIDED for entry in found.entries), count)
            for form in Format:
                text = finder.page(found, form).replace("\r\n ", "")
                mark = {Format.JSON: r'^   "status": "undecided"', Format.CSV: r"^moon,.*,undecided,"}
                mark = mark.get(form, "nothing is proved of this window")
                self.assertGreaterEqual(len(re.findall(mark, text, re.M)), count, form)
            read(finder.page(found, "html"))

    def test_several_years(self):
        found = almanac_of_2000()
        parts = periods(found, CLOCK)
        self.assertEqual([(part.name, part.start) for part in parts], [("", found.start)])
        two = Almanac(**{**vars(found), "end": CLOCK.start_of(2002)})
        self.assertEqual([(part.name, part.end) for part in periods(two, CLOCK)][1], ("2001", two.end))
        text = finder.page(two, "html")
        read(text)
        self.assertEqual(re.findall(r'<h2 class="year">(\d+)', text), ["2000", "2001"])


@unittest.skipUnless(has("erfa"), "no erfa")
class Drawings(unittest.TestCase):
    """The drawing of a year."""

    def boxes(self, root):
        """The left, right, and base line of each text."""
        for element in root.iter(f"{{{SVG}}}text"):
            length = len(element.text) * 0.56 * float(root.get("font-size"))
            shift = {"start": 0.0, "middle": 0.5, "end": 1.0}[element.get("text-anchor", "start")]
            left = float(element.get("x")) - shift * length
            yield left, left + length, float(element.get("y")), element.text

    def test_texts_fit_and_cover_no_other(self):
        found = almanac_of_2000()
        middle = (found.start + found.end) / 2
        for start, end, shape in ((found.start, found.end, WHOLE), (middle, found.end, HALF)):
            text = Drawing(found, CLOCK, Frame(start, end, *shape)).svg()
            root = xml.etree.ElementTree.fromstring(text.replace("<svg ", f'<svg xmlns="{SVG}" ', 1))
            boxes = list(self.boxes(root))
            self.assertGreater(len(boxes), 20)
            for left, right, y, name in boxes:
                self.assertTrue(0 <= left and right <= shape[0] + 1, name)
                others = [box for box in boxes if box[2] == y and box[3] != name]
                self.assertTrue(all(right <= box[0] + 1 or box[1] <= left + 1 for box in others), name)

    @of_the_whole
    def test_marks(self):
        """Each phase, station, opposition and conjunction of the year has its mark."""
        found = almanac_of_2000()
        text = Drawing(found, CLOCK, Frame(found.start, found.end, *WHOLE)).svg()
        titles = re.findall(r"<title>([^<]*?), \d+ [A-Z][a-z]{2} \d\d:\d\d", text)
        drawn = [e.name for e in found.entries if e.group in (Group.PLANETS, Group.MEETINGS, Group.SEASONS)]
        drawn += [e.name for e in found.entries if e.group is Group.MOON and "node" not in e.name]
        self.assertEqual(sorted(t for t in titles if "eclipse" not in t), sorted(drawn))
        # (shaded: Mercury thrice, Jupiter, Saturn twice, Uranus, Neptune)
        self.assertEqual(text.count('class="back"'), 8)

    def test_no_lane_no_drawing(self):
        found = almanac_of_2000()
        none = Almanac(**{**vars(found), "groups": (Group.MOON_MEETINGS,)})
        self.assertEqual(Drawing(none, CLOCK, Frame(found.start, found.end, *WHOLE)).svg(), "")
        self.assertNotIn("<figure>", finder.page(none, "html"))

    def test_labels(self):
        frame = Frame(0, 1, 100, 0, 0, 10)
        made = labels(frame, [(10, "abcde"), (12, "abcde"), (14, "abcde"), (90, "abcde")], 2)
        rows = [label and (label.row, label.at_left) for label in made]
        self.assertEqual(rows, [(0, False), (1, False), None, (0, True)])


@unittest.skipUnless(has("erfa"), "no erfa")
class Clocks(unittest.TestCase):
    """Scales of time: by what the International Earth Rotation Service and the IAU's resolutions say of them."""

    def test_scales_of_2000(self):
        # (TDB less UTC was 64.184 s in 2000, to 2 milliseconds; TT and TDB differ by no more)
        at = {scale: finder.Clock(scale).at(1e7).replace(tzinfo=None) for scale in Scale}
        self.assertAlmostEqual((at[Scale.TDB] - at[Scale.UTC]).total_seconds(), 64.184, delta=0.002)
        self.assertLess(abs((at[Scale.TDB] - at[Scale.TT]).total_seconds()), 0.002)
        self.assertEqual(at[Scale.TDB], datetime.datetime(2000, 1, 1, 12) + datetime.timedelta(seconds=1e7))

    def test_there_and_back(self):
        moments = [datetime.datetime(2026, 8, 12, 17, 45, 53), *(datetime.datetime(y, 7, 2) for y in (1972, 2000))]
        for clock in (*map(finder.Clock, Scale), finder.Clock(Scale.UTC, BERLIN, "Europe/Berlin")):
            for moment in moments:
                back = clock.at(clock.seconds_of(moment)).replace(tzinfo=None)
                self.assertLess(abs(back - moment).total_seconds(), 1e-4)

    def test_zone(self):
        clock = finder.Clock(Scale.UTC, BERLIN, "Europe/Berlin")
        noon = CLOCK.seconds_of(datetime.datetime(2000, 7, 1, 12))
        self.assertEqual(clock.iso(noon), "2000-07-01T14:00:00.000+02:00")
        self.assertAlmostEqual(clock.start_of(2000), CLOCK.start_of(2000) - 3_600, places=5)

    def test_leap_second(self):
        # (the last second of 2016 was 23:59:60)
        after = CLOCK.seconds_of(datetime.datetime(2017, 1, 1))
        shown = [f"{utc_of(after + shift):%Y %H:%M:%S}" for shift in (-1.5, -0.5, 0.5)]
        self.assertEqual(shown, ["2016 23:59:59", "2016 23:59:59", "2017 00:00:00"])

    def test_many_times_at_once(self):
        """A clock that is ready for some times, and the times of many moments, are those of one at a time."""
        seconds = [0.0, 1e7, -8.7e8, 536_500_867.184, 536_500_868.184, 536_500_869.184, 8.1e8]
        clocks = (*map(finder.Clock, Scale), finder.Clock(Scale.UTC, BERLIN, "Europe/Berlin"))
        for clock in clocks:
            with self.subTest(clock=clock):
                ready = ReadyClock.of_times(clock, seconds)
                with mock.patch.object(scales, "utc_of", side_effect=AssertionError):
                    found = [(ready.at(each), ready.plain().at(each)) for each in seconds]
                self.assertEqual(found, [(clock.at(each), finder.Clock(clock.scale).at(each)) for each in seconds])
                # (a time that is not among them is computed)
                self.assertEqual((ready.at(5.0), ready.name, ready.zone), (clock.at(5.0), clock.name, clock.zone))
                moments = [each.replace(tzinfo=None) for each, _ in found]
                alone = [clock.seconds_of(each) for each in moments]
                self.assertEqual(clock.all_seconds_of(moments).tolist(), alone)
                self.assertEqual(clock.all_seconds_of([]).tolist(), [])


if __name__ == "__main__":
    unittest.main()

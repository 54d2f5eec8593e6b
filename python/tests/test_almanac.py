"""The entries of an almanac of examples/de405-2000.asc, by values that others printed.

Phases and seasons: US Naval Observatory, Phases of the Moon and Earth's Seasons for 2000, to the minute of UT.
Eclipses: F. Espenak, NASA, eclipses of 2000, and the Five Millennium Catalogs: gamma, magnitude, contacts. Elongations
of Mercury, oppositions and stations: Astronomical Phenomena for 2000 (US Naval Observatory), to the degree and the day.
Kinds of solar eclipses: J. Meeus, Astronomical Algorithms, chapter 54.
Almanacs round to a minute, so a minute is allowed, and for an eclipse as much as their shadows differ.
"""

import sys
import unittest
from unittest import mock

import numpy as np

import finder
from finder import Event, Group, Status
from finder.almanac import eclipses
from finder.almanac.almanac import recipes, search_count
from finder.almanac.eclipses import Transits
from finder.almanac.entries import EclipseKind
from finder.almanac.shadows import kind_of
from finder.almanac.texts import Text, Texts
from finder.process.program import runs_of
from tests.almanacs import CENTRE, almanac_of, almanac_of_2000, has, moment, undecided_moon, utc, wide_moon
from tests.common import PROGRAM, YEAR, InFolder, command, split_year, stand_in

# What makes undecided windows of the certain ones at a second.
UNDECIDED_AT_A_SECOND = f"""\
{PROGRAM} "$@" | awk '/^FIND/ {{ fine = / tick 1000 / }}
    !fine && ($1 == "C" || $1 == "U") {{ print "U", $2, $3; count++; next }}
    !fine && $1 == "END" {{ print "END certain 0 undecided", count + 0; next }}
    {{ print }}'
"""
PHASES = {
    Event.NEW_MOON: "0106 1814,0205 1303,0306 0517,0404 1812,0504 0412,0602 1214,0701 1920,0731 0225,0829 1019,"
    "0927 1953,1027 0758,1125 2311,1225 1722",
    Event.FULL_MOON: "0121 0440,0219 1627,0320 0444,0418 1741,0518 0734,0616 2227,0716 1355,0815 0513,0913 1937,"
    "1013 0853,1111 2115,1211 0903",
    Event.FIRST_QUARTER: "0114 1334,0212 2321,0313 0659,0411 1330,0510 2000,0609 0329,0708 1253,0807 0102,0905 1627,"
    "1005 1059,1104 0727,1204 0355",
    Event.LAST_QUARTER: "0128 0757,0227 0353,0328 0021,0426 1930,0526 1155,0625 0100,0724 1102,0822 1851,0921 0128,"
    "1020 0759,1118 1524,1218 0041",
}
SEASONS = {
    Event.MARCH_EQUINOX: "0320 0735",
    Event.JUNE_SOLSTICE: "0621 0148",
    Event.SEPTEMBER_EQUINOX: "0922 1727",
    Event.DECEMBER_SOLSTICE: "1221 1337",
}
# The greatest of each solar eclipse, its gamma and its magnitude.
SOLAR = (
    ("0205 1249", -1.2233, 0.5795),
    ("0701 1932", -1.2821, 0.4768),
    ("0731 0213", 1.2166, 0.6034),
    ("1225 1735", 1.1367, 0.7228),
)
# The lunar eclipse of 21 January: contacts, and its umbral magnitude.
LUNAR = {"P1": "0121 0203", "U1": "0121 0301", "greatest": "0121 0443", "U4": "0121 0625", "P4": "0121 0724"}
MERCURY = ("0215 18 east", "0328 28 west", "0609 24 east", "0727 20 west", "1006 26 east", "1115 19 west")
OPPOSITIONS = {"neptune": "0727", "uranus": "0811", "saturn": "1119", "jupiter": "1128"}


@unittest.skipUnless(has("erfa"), "no erfa")
class Year(unittest.TestCase):
    """The almanac of 2000 beside printed ones."""

    def test_phases_and_seasons(self):
        found = almanac_of_2000()
        for event, texts in {**PHASES, **SEASONS}.items():
            with self.subTest(event):
                wanted = [moment(text) for text in texts.split(",")]
                times = [entry.seconds for entry in found.of(event)]
                self.assertEqual(len(times), len(wanted))
                self.assertLess(abs(np.subtract(times, wanted)).max(), 60)

    def test_solar_eclipses(self):
        found = almanac_of_2000().of(Event.SOLAR_ECLIPSE)
        self.assertEqual(len(found), len(SOLAR))
        for entry, (time, gamma, magnitude) in zip(found, SOLAR):
            self.assertLess(abs(entry.seconds - moment(time)), 90)
            self.assertEqual((entry.numbers.kind, len(entry.contacts)), (EclipseKind.PARTIAL, 3))
            self.assertAlmostEqual(entry.numbers.gamma, gamma, delta=0.002)
            self.assertAlmostEqual(entry.numbers.magnitude, magnitude, delta=0.005)

    def test_lunar_eclipses(self):
        found = almanac_of_2000().of(Event.LUNAR_ECLIPSE)
        self.assertEqual([entry.numbers.kind for entry in found], [EclipseKind.TOTAL] * 2)
        at = {contact.name: contact.seconds for contact in found[0].contacts}
        self.assertEqual(list(at), ["P1", "U1", "U2", "greatest", "U3", "U4", "P4"])
        for name, time in LUNAR.items():
            self.assertLess(abs(at[name] - moment(time)), 90, name)
        # (totality of 76.9 minutes by Espenak, whose shadow is some 4 km larger)
        self.assertAlmostEqual((at["U3"] - at["U2"]) / 60, 76.9, delta=0.4)
        self.assertAlmostEqual(found[0].numbers.magnitude, 1.325, delta=0.006)
        self.assertAlmostEqual(found[1].numbers.magnitude, 1.768, delta=0.006)

    def test_planets(self):
        found = almanac_of_2000()
        mercury = [each for each in found.of(Event.GREATEST_ELONGATION) if each.bodies == ("mercury",)]
        said = [f"{utc(e.seconds)[:4]} {e.numbers.elongation_deg:.0f} {e.numbers.side.value}" for e in mercury]
        self.assertEqual(tuple(said), MERCURY)
        days = {entry.bodies[0]: utc(entry.seconds)[:4] for entry in found.of(Event.OPPOSITION)}
        self.assertEqual(days, OPPOSITIONS)
        stations = [f"{each.bodies[0]} {utc(each.seconds)[:4]}" for each in found.of(Event.TURNS_RETROGRADE)]
        self.assertIn("jupiter 0929", stations)

    def test_all_windows_are_the_commands(self):
        """The windows of entries are those that the command prints of the text of what is seen, all of the year. The time
        of each is within its window."""
        found = almanac_of_2000()
        self.assertEqual({entry.status for entry in found.entries}, {Status.CERTIFIED})
        sky = finder.Ephemeris.open(YEAR).sky(None, "1999-12-31", "2001-01-02", axes="ecliptic")
        words = "--target mercury --observer earth --kind station".split()
        printed = [line.split()[2] for line in command("find", *words, *sky.files).splitlines() if line.startswith("C ")]
        held = [each for each in found.of(Event.TURNS_DIRECT, Event.TURNS_RETROGRADE) if each.bodies == ("mercury",)]
        self.assertEqual([entry.contacts[0].window.text() for entry in held], printed)
        for entry in found.entries:
            for contact in entry.contacts:
                if contact.window is not None:
                    first, last, _ = (contact.window.first - 1, contact.window.last, None)
                    self.assertLessEqual(first / contact.window.tick, contact.seconds)
                    self.assertLessEqual(contact.seconds, last / contact.window.tick)

    def test_times_are_those_of_the_solver(self):
        """What `seen` solves in doubles around the geometric windows is the almanac's own time, within 0.05 seconds."""
        found = almanac_of_2000()
        rows = (
            (finder.conjunctions(YEAR, "moon", "sun", observer="earth", frame="ecl"), (Event.NEW_MOON,), "moon"),
            (finder.stations(YEAR, "mars", observer="earth", frame="ecl"), (Event.TURNS_DIRECT,), "mars"),
            (finder.oppositions(YEAR, "jupiter", "sun", observer="earth", frame="ecl"), (Event.OPPOSITION,), "jupiter"),
            (finder.conjunctions(YEAR, "venus", "jupiter", observer="earth"), (Event.MEETING,), "venus"),
        )
        for windows, events, body in rows:
            seen = finder.seen(windows, YEAR).seconds
            for entry in found.of(*events):
                if entry.bodies[0] == body and entry.bodies[-1] in (body, windows.request_words["second"]):
                    self.assertLess(abs(seen - entry.seconds).min(), 0.05, entry.name)

    def test_groups_and_progress(self):
        steps = []
        groups = Group.SEASONS, Group.ECLIPSES
        found = almanac_of(2000, groups, progress=steps.append)
        whole = [entry for entry in almanac_of_2000().entries if entry.group in groups]
        self.assertEqual(list(found.entries), whole)
        self.assertEqual((sum(steps), found.searches), (search_count(groups), search_count(groups)))

    def test_the_packages_function(self):
        found = finder.almanac(YEAR, "2000-03-01", "2000-04-01", groups=[Group.SEASONS], program=PROGRAM)
        self.assertEqual([entry.name for entry in found.entries], ["March equinox"])
        with self.assertRaisesRegex(ValueError, "did you mean 'seasons'"):
            finder.almanac(YEAR, "2000-03-01", "2000-04-01", groups="season", program=PROGRAM)
        with self.assertRaisesRegex(ValueError, "did you mean 'html'"):
            finder.page(found, "htm")
        with self.assertRaisesRegex(ValueError, "ends after it starts"):
            finder.almanac(YEAR, "2000-04-01", "2000-03-01", program=PROGRAM)


@unittest.skipUnless(has("erfa"), "no erfa")
class Unproved(InFolder):
    """What is undecided or not solved has an entry that says so."""

    def test_an_undecided_window_keeps_its_entry(self):
        found = undecided_moon(self.folder)
        whole = [entry for entry in almanac_of_2000().entries if entry.group is Group.MOON]
        self.assertEqual(len(found.entries), len(whole))
        for entry, other in zip(found.entries, whole):
            is_apsis = other.event in (Event.PERIGEE, Event.APOGEE)
            self.assertIs(entry.status, Status.UNDECIDED if is_apsis else Status.CERTIFIED)
            self.assertEqual(entry.name, "Moon at perigee or Moon at apogee" if is_apsis else other.name)
            self.assertAlmostEqual(entry.seconds, other.seconds, delta=1e-6)

    def test_a_wide_window_says_what_may_be_in_it(self):
        found = wide_moon(self.folder)
        undecided = [entry for entry in found.entries if entry.status is Status.UNDECIDED]
        self.assertLessEqual({"New moon", "Full moon"}, {entry.name for entry in undecided})
        self.assertTrue(any(" or " in entry.name for entry in undecided))
        for entry in undecided:
            (contact,) = entry.contacts
            tick = contact.window.tick
            self.assertLess((contact.window.first - 1) / tick, entry.seconds)
            self.assertLess(entry.seconds, contact.window.last / tick)

    def test_what_is_undecided_at_a_second_is_asked_again(self):
        """A program whose windows at a second are all undecided: those at a millisecond stand in their place."""
        program = stand_in(self.folder, UNDECIDED_AT_A_SECOND)
        found = almanac_of(2000, (Group.SEASONS,), program=program)
        whole = [entry for entry in almanac_of_2000().entries if entry.group is Group.SEASONS]
        self.assertEqual([entry.name for entry in found.entries], [entry.name for entry in whole])
        for entry, other in zip(found.entries, whole):
            self.assertIs(entry.status, Status.CERTIFIED)
            self.assertEqual(entry.contacts[0].window.tick, 1_000)
            self.assertEqual(entry.seconds, other.seconds)

    def test_an_eclipse_at_the_end_of_the_files(self):
        """The span ends between the greatest of a solar eclipse and its end, at 12:49 and 14:43: the whole is there, as a
        day more is searched."""
        found = finder.almanac(YEAR, "2000-02-05", "2000-02-05T13:30:00", groups="eclipses", program=PROGRAM)
        self.assertEqual([contact.name for contact in found.entries[0].contacts], ["P1", "greatest", "P4"])
        self.assertLess(abs(found.entries[0].seconds - moment("0205 1249")), 90)

    def test_a_transit(self):
        """Mercury passes the Sun at 3.7 degrees on 1 March (Astronomical Phenomena): such a radius touches it."""
        recipe = Transits("mercury")
        with mock.patch.dict(eclipses.RADII, mercury=5_690_000.0):
            searches = recipe.searches
        # (the noons of 1 January and of 1 April)
        texts = Texts(finder.Ephemeris.open(YEAR), (0, 91 * 86_400), runs_of(PROGRAM, None))
        (entry,) = recipe.entries(texts, [texts.found(each) for each in searches])
        names = [contact.name for contact in entry.contacts]
        self.assertEqual((names, entry.bodies), (["I", "greatest", "IV"], ("mercury",)))
        self.assertEqual((utc(entry.seconds)[:4], round(entry.numbers.least_angle_arcsec / 3_600, 1)), ("0301", 3.7))


class Refused(InFolder):
    """What is refused before any search."""

    def watched(self):
        """A program that notes what it is asked."""
        return stand_in(self.folder, f'echo "$1" >>{self.folder}/asked\nexec {PROGRAM} "$@"')

    def asked(self):
        file = self.folder / "asked"
        return file.read_text().split() if file.exists() else []

    def test_a_year_that_the_files_do_not_hold(self):
        said = "the files hold 1999-12-24T00:00:00 to 2001-01-11T00:00:00 .TDB., and not all of 2000-06-01T00:00:00 to "
        with self.assertRaisesRegex(finder.SpanNotHeld, said):
            finder.almanac(YEAR, "2000-06-01", "2001-06-01", program=self.watched())
        self.assertEqual(self.asked(), [])

    def test_files_without_a_header(self):
        _, files = split_year(self.folder)
        with self.assertRaisesRegex(ValueError, "header"):
            finder.almanac(files, "2000-01-01", "2000-03-01", program=self.watched())
        self.assertEqual(self.asked(), [])

    def test_groups_of_a_place(self):
        for group in ("days", "weeks"):
            with self.assertRaisesRegex(ValueError, "is of a place"):
                finder.almanac(YEAR, "2000-01-01", "2000-03-01", groups=group, program=self.watched())
        self.assertEqual(self.asked(), [])

    def test_no_erfa(self):
        with mock.patch.dict(sys.modules, erfa=None), self.assertRaisesRegex(finder.NoErfa, "pyerfa"):
            finder.almanac(YEAR, "2000-01-01", "2000-03-01", program=self.watched())
        self.assertEqual(self.asked(), [])

    def test_a_search_that_fails(self):
        program = stand_in(self.folder, 'echo "finder: 9" >&2\nexit 9')
        with self.assertRaises(finder.TooManyLeaves):
            finder.almanac(YEAR, "2000-01-01", "2000-03-01", program=program)


class Kinds(unittest.TestCase):
    """Rules of eclipses."""

    def test_kinds_of_solar_eclipses(self):
        # (of Meeus's examples 54.a and 54.b, 21 May 1993 and 22 July 2009; the others by his rule)
        rows = {
            (1.1348, 0.0097): EclipseKind.PARTIAL,
            (0.0695, -0.0157): EclipseKind.TOTAL,
            (0.3, 0.0044): EclipseKind.HYBRID,
            (0.3, 0.0045): EclipseKind.ANNULAR,
            (0.3, 0.0048): EclipseKind.ANNULAR,
            (0.9971, 0.01): EclipseKind.ANNULAR,
        }
        for (off, umbra), kind in rows.items():
            self.assertIs(kind_of(off, umbra), kind, (off, umbra))

    def test_each_group_has_recipes(self):
        self.assertEqual({recipe.group for recipe in recipes(Group)}, set(CENTRE))
        self.assertEqual([search.text for search in recipes([Group.SEASONS])[0].searches], [Text.ECLIPTIC])
        # (76 searches of the Earth's centre, and those of Pluto and of four stars)
        self.assertEqual((search_count(Group), search_count(Group, pluto=True)), (76, 88))
        self.assertEqual(search_count(Group, stars=True), 84)

    def test_radii_have_no_dirt(self):
        """No radius of a search has the last digits of a sum of doubles."""
        for recipe in recipes(Group, pluto=True, stars=True):
            for search in recipe.searches:
                for radius in search.options.get("radii", ()):
                    self.assertLessEqual(len(radius), 10, radius)


if __name__ == "__main__":
    unittest.main()

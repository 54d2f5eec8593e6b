"""What is asked wrongly is refused before the command runs, with what to write instead; refusals of the command have
hints of their likely causes."""

import builtins
import importlib
import inspect
import itertools
import os
import pickle
import pkgutil
import subprocess
import sys
import types
import typing
import warnings

import numpy as np

import finder
from finder.process.hints import OF_NUMBER, OF_OPTION, OF_STATUS
from tests.common import TOP, YEAR, InFolder, stand_in

EARTH = {"observer": "earth"}
DISCS = (6051.8, 695_700)


class Asked(InFolder):
    def setUp(self):
        super().setUp()
        # (what is refused here never runs)
        self.never = {"program": stand_in(self.folder, "exit 1"), **EARTH}

    def assert_says(self, kind, says, call):
        with self.assertRaises(kind) as caught:
            call()
        for word in says:
            self.assertIn(word, str(caught.exception))

    def test_files(self):
        with open(YEAR) as file:
            self.assert_says(TypeError, ["opened file", str(YEAR)], lambda: finder.apsides(file, "moon", **self.never))
            self.assert_says(TypeError, ["opened file"], lambda: finder.check([YEAR, file]))
        for wrong in (None, 5, b"a", [None], [b"a"]):
            self.assert_says(TypeError, ["a name"], lambda wrong=wrong: finder.apsides(wrong, "moon", **self.never))
        for wrong in ([], "", [YEAR, ""]):
            self.assert_says(ValueError, ["no file is named"], lambda wrong=wrong: finder.check(wrong))

    def test_words(self):
        for call, says in (
            (lambda: finder.apsides(YEAR, "jupitr", **self.never), ["'jupitr'", "did you mean 'jupiter'?", "pluto"]),
            (lambda: finder.apsides(YEAR, "Mooon", **self.never), ["did you mean 'moon'?"]),
            (lambda: finder.conjunctions(YEAR, "moon", "son", **self.never), ["did you mean 'sun'?"]),
            (lambda: finder.apsides(YEAR, "moon", observer="erth"), ["did you mean 'earth'?", "ssb"]),
            (lambda: finder.find(YEAR, "conjunction", "moon", "sun", **self.never), ["did you mean 'conj'?"]),
            (lambda: finder.find(YEAR, "transits", "moon", "sun", **self.never), ["did you mean 'any'?"]),
            (lambda: finder.find(YEAR, "zenith", "moon", **self.never), ["there are coord, radius"]),
            (lambda: finder.times(YEAR, "conj", "moon", relation="less", **self.never), ["no kind", "sepext"]),
            (lambda: finder.coordinate(YEAR, "moon", "w", **self.never), ["no axis", "there are x, y, z"]),
            (lambda: finder.stations(YEAR, "mars", frame="eclip", **self.never), ["did you mean 'ecl'?"]),
            (lambda: finder.stations(YEAR, "mars", dir="up", **self.never), ["there are any, rise, fall"]),
        ):
            self.assert_says(ValueError, says, call)
        self.assert_says(TypeError, ["body is one of mercury"], lambda: finder.apsides(YEAR, None, **self.never))

    def test_numbers(self):
        for name in ("width", "depth", "workers", "tick"):
            for value in (60.0, "60", True, 1.5):
                says = [f"{name} is a whole number"] + ([f"write {name}=60"] if value == 60.0 else [])
                given = {name: value, **self.never}
                self.assert_says(TypeError, says, lambda given=given: finder.apsides(YEAR, "moon", **given))
        found = finder.apsides(YEAR, "moon", width=np.int64(60), end="2000-02-01", **EARTH)
        self.assertEqual(found.request_words["width"], "60")

    def test_radii(self):
        apart = ["both radii are one pair", "radii=(6051.8, 695700)"]
        self.assert_says(TypeError, apart, lambda: finder.occultations(YEAR, "venus", "sun", *DISCS, **self.never))
        for wrong in (6051.8, (1, 2, 3), "12", None, [1]):
            for call in (
                lambda wrong=wrong: finder.occultations(YEAR, "venus", "sun", wrong, **self.never),
                lambda wrong=wrong: finder.find(YEAR, "any", "venus", "sun", radii=wrong or 0, **self.never),
            ):
                self.assert_says(TypeError, ["a pair of numbers in km"], call)
        one, other = (
            finder.occultations(YEAR, "venus", "sun", radii, end="2000-07-01", **EARTH) for radii in (DISCS, [*DISCS])
        )
        self.assertEqual(one, other)

    def test_times_that_are_none(self):
        says = ["2000-05-01T12:00:00"]
        self.assert_says(ValueError, says, lambda: finder.apsides(YEAR, "moon", start="May", **self.never))


class Barycentre(InFolder):
    def warned(self, call):
        with warnings.catch_warnings(record=True) as caught:
            warnings.simplefilter("always")
            call()
        self.assertTrue(all(each.category is finder.BarycentreWarning for each in caught))
        self.assertTrue(all(each.filename == __file__ for each in caught))
        return len(caught)

    def test_what_is_asked_from_a_planet(self):
        for times, call in (
            (1, lambda: finder.conjunctions(YEAR, "jupiter", "saturn")),
            (1, lambda: finder.stations(YEAR, "mars", dir="rise")),
            (1, lambda: finder.apsides(YEAR, "moon")),
            (1, lambda: finder.retrograde(YEAR, "mars")),
            (2, lambda: finder.near(YEAR, "mars", "jupiter", degrees=1)),
            (0, lambda: finder.conjunctions(YEAR, "jupiter", "saturn", observer="ssb")),
            (0, lambda: finder.apsides(YEAR, "earth")),
            (0, lambda: finder.coordinate(YEAR, "mercury", "x")),
        ):
            self.assertEqual(self.warned(call), times)


class Hints(InFolder):
    def hint(self, call):
        with self.assertRaises(finder.FinderError) as caught:
            call()
        return caught.exception.hint

    def test_refusals_of_the_command(self):
        lines = YEAR.read_text().splitlines(keepends=True)
        head = next(place for place, line in enumerate(lines) if line.split() == ["1", "1018"])
        rest, cut = self.folder / "rest", self.folder / "cut"
        rest.write_text("".join(lines[head:]))
        cut.write_text("".join(lines[: head + 100]))
        for call, begin in (
            (lambda: finder.check(rest), f"{rest} has blocks and no header: name the header's file too, as ['header.405'"),
            (lambda: finder.check(cut), "(1) the last file is cut off"),
            (lambda: finder.check("none"), "(1) no file has this name"),
            (lambda: finder.check([YEAR] * 65), "the span is too long for one search: finder.over_files"),
            (lambda: finder.check([YEAR, YEAR]), "(1) a file has a header of its own"),
            (
                lambda: finder.apsides(YEAR, "moon", start="2010-01-01", **EARTH),
                "the span from 2010-01-01T00:00:00 to 2001-01-11T00:00:00 is not within that of the files, from 1999-12-24",
            ),
            (lambda: finder.conjunctions(YEAR, "mars", "mars", **EARTH), "target= and second= are one body, 'mars'"),
            (lambda: finder.distance(YEAR, "mars", -1, **EARTH), "(1) a cosine is from -1 to 1"),
            (lambda: finder.find(YEAR, "conj", "mars", **EARTH), "an option is missing, not of its form, or not used"),
            (lambda: finder.check(YEAR, program=stand_in(self.folder, "kill -9 $$")), "(1) the system ended the"),
            (lambda: finder.check(YEAR, program=stand_in(self.folder, "sleep 9"), timeout=0.2), "(1) the search takes"),
        ):
            self.assertTrue(self.hint(call).startswith(begin), self.hint(call))

    def test_every_refusal_of_the_manuals_has_a_hint(self):
        """Each number and status of `docs/guide/formats.md` and `docs/guide/usage.md`, and each option of a search."""
        text = (TOP / "docs/guide/formats.md").read_text()
        tables = [part.partition("\n\n")[0] for part in text.split("| Fault | Where |")[1:]]
        rows = " ".join(row.split("|")[1] for table in tables for row in table.splitlines()[2:])
        numbers = {int(word) for word in rows.replace(",", " ").split() if word.isdigit()}
        self.assertGreater(len(numbers), 25)
        self.assertLessEqual(numbers | {50, 51, 52, 60, 61, 62}, set(OF_NUMBER))
        self.assertLessEqual({4, 5, 6, 8, 9}, set(OF_STATUS))
        table = (TOP / "docs/guide/usage.md").read_text().partition("| Option | Value |")[2].partition("\n\n")[0]
        options = {word.strip("`-, ") for row in table.splitlines()[2:] for word in row.split("|")[1].split(",")}
        self.assertEqual(options - set(OF_OPTION) - {"kind", "dir"}, set())


class Surface(InFolder):
    def test_hints_of_types(self):
        """`typing.get_type_hints` answers for each function and method of the package. Where modules import one another
        for types alone, a name is that of the module that has it."""
        parts = [getattr(finder, name) for name in finder.__all__]
        found = pkgutil.walk_packages(finder.__path__, "finder.")
        loaded = [importlib.import_module(each.name) for each in found if each.name != "finder.__main__"]
        names = {name: value for module in loaded for name, value in vars(module).items() if name[0].isupper()}
        for part in parts:
            members = vars(part).values() if inspect.isclass(part) else [part]
            for member in itertools.chain([part], members):
                plain = getattr(member, "fget", None) or getattr(member, "__func__", member)
                if inspect.isfunction(plain) or inspect.isclass(plain):
                    typing.get_type_hints(plain, localns={**vars(builtins), **names})
        self.assertIn("target", typing.get_type_hints(finder.conjunctions))

    def test_options_are_written_out(self):
        """Each search shows its options with their defaults, and their units in its text; one that it has not is
        refused by its name."""
        searches = (
            finder.find,
            finder.conjunctions,
            finder.distance,
            finder.separation,
            finder.occultations,
            finder.times,
            finder.near,
            finder.retrograde,
            finder.least,
            finder.certificate,
        )
        for search in searches:
            options = inspect.signature(search).parameters
            self.assertFalse(any(each.kind is each.VAR_KEYWORD for each in options.values()), search.__name__)
            for name, default in (("observer", None), ("tick", 1), ("depth", 40), ("parts", "auto"), ("timeout", None)):
                self.assertEqual(options[name].default, default)
                self.assertIn(f"- {name}: ", inspect.getdoc(search))
            self.assertEqual(list(options)[list(options).index("start") + 1], "end")
            says = rf"{search.__name__}\(\) takes no option 'observr': did you mean 'observer'"
            with self.assertRaisesRegex(TypeError, says):
                search(YEAR, "moon", observr="earth")
        self.assertNotIn("dir", inspect.signature(finder.near).parameters)
        self.assertNotIn("axis", inspect.signature(finder.apsides).parameters)

    def test_words_of_other_packages(self):
        whole = finder.oppositions(YEAR, "jupiter", "sun", observer="earth", frame="ecl")
        for target, second, observer, frame in (
            ("Jupiter", "SUN", "EARTH", "ECLIPJ2000"),
            (5, 10, 399, "ecliptic"),
            ("JUPITER BARYCENTER", "10", "399", "EclipJ2000"),
            ("jupiter_barycenter", "Sun", np.int64(399), "ECL"),
            # (a body of Skyfield has its number of NAIF as `target`)
            (types.SimpleNamespace(target=5), types.SimpleNamespace(target=10), "earth", "ecl"),
        ):
            self.assertEqual(finder.oppositions(YEAR, target, second, observer=observer, frame=frame), whole)
        for body, said in ((599, "write 5 or 'jupiter'"), (42, "body is one of"), ("PHOBOS", "no body is 'PHOBOS'")):
            self.assert_refused(said, lambda body=body: finder.apsides(YEAR, body, **EARTH))
        for kind, says in (("none", "there are any, full, annular"), ("total", "did you mean 'full'")):
            self.assert_refused(says, lambda kind=kind: finder.occultations(YEAR, "moon", "sun", DISCS, kind=kind))
        self.assert_refused(
            "start=2000-06-01T00:00:00 is not before end=2000-05-01T00:00:00",
            lambda: finder.apsides(YEAR, "moon", "2000-06-01", "2000-05-01", **EARTH),
        )
        self.assert_refused(
            "finder.distance.*answers it", lambda: finder.times(YEAR, "radius", "moon", relation="=", ref=1, **EARTH)
        )
        self.assert_refused("has no relation 'near'", lambda: finder.distance(YEAR, "moon", 1, relation="near", **EARTH))
        self.assert_refused("no kind finds", lambda: finder.coordinate(YEAR, "moon", "x", relation="LOCMIN", **EARTH))
        self.assert_refused("takes a value in km", lambda: finder.distance(YEAR, "moon", **EARTH))

    def assert_refused(self, said, call):
        self.assertRaisesRegex((ValueError, TypeError), said, call)

    def test_version_and_names(self):
        self.assertTrue((TOP / "packaging/changelog").read_text().startswith(f"finder ({finder.__version__})"))
        self.assertEqual(sorted(finder.__all__), list(finder.__all__))
        self.assertEqual(sorted(finder._HOMES), list(finder.__all__))
        for name in finder.__all__:
            self.assertTrue(inspect.getdoc(getattr(finder, name)), name)
            self.assertEqual(getattr(finder, name).__module__, "finder", name)
        self.assertLessEqual({*finder.__all__, "plot", "spans"}, set(dir(finder)))

    def test_what_is_imported(self):
        """A name is imported when it is first used: reports are read without numpy."""
        tried = "import sys; sys.modules['numpy'] = None; from finder import spans; print(spans.time_text(0))"
        variables = {**os.environ, "PYTHONPATH": str(TOP / "python")}
        done = subprocess.run([sys.executable, "-c", tried], env=variables, capture_output=True, text=True, check=False)
        self.assertEqual((done.stdout, done.stderr), ("2000-01-01T12:00:00\n", ""))

    def test_windows_have_their_times(self):
        for tick, text in ((1, "2000-01-04T12:23:24"), (1000, "2000-01-04T12:23:23.735")):
            found = finder.apsides(YEAR, "moon", tick=tick, end="2000-02-01", **EARTH)
            for window in (found[0], next(iter(found)), pickle.loads(pickle.dumps(found[0]))):
                self.assertEqual((window.text(), str(window.datetime64()), window.tick), (text, text, tick))
                self.assertEqual(window.text("first"), text)
                self.assertEqual(tuple(window), (window.first, window.last, "fall"))
        wide = finder.apsides(YEAR, "moon", width=3600, end="2000-02-01", **EARTH)[0]
        self.assertLess(wide.datetime64("first"), wide.datetime64("last"))
        self.assertRaises(ValueError, wide.text, "middle")

    def test_pickled_windows_stay_as_they_are(self):
        found = finder.apsides(YEAR, "moon", tick=1000, **EARTH)
        again = pickle.loads(pickle.dumps(found))
        self.assertEqual((again, again.text), (found, found.text))
        for array in (again.first, again.last, again.turn):
            self.assertFalse(array.flags.writeable)

    def test_old_names(self):
        """What had another name in the release before has it still, with a warning that says the new one."""
        found = finder.apsides(YEAR, "moon", end="2000-02-01", **EARTH)
        lasting = finder.times(YEAR, "radius", "moon", end="2000-02-01", relation="<", ref=360_000, **EARTH)
        proof = finder.certificate(YEAR, "apsis", "moon", end="2000-02-01", **EARTH)
        for kept, name, new in (
            (found, "Windows", "request_words"),
            (found.report, "Report", "request_words"),
            (lasting, "TimeSet", "request_words"),
            (proof, "Certificate", "request_words"),
            (finder.Ephemeris.open(YEAR, "2000-02-01"), "Ephemeris", "requested_span"),
        ):
            with self.assertWarnsRegex(DeprecationWarning, f"^{name}.asked is now {name}.{new}, and goes with"):
                old = kept.asked
            self.assertEqual(old, getattr(kept, new))
            self.assertTrue(old)

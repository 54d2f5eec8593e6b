"""Sets are the command's, letter for letter, and what is made of them holds the times that it is to hold."""

import importlib.util
import pickle
import random
import re
import shlex
import unittest

import numpy as np

import finder
from finder import Span, Spans, TimeSet
from tests.common import TOP, YEAR, InFolder, cases, of_the_whole, sample, split_year, stand_in

SEEN = {"observer": "earth", "frame": "ecl"}
# What the options of words are here.
TIMES = {"from": "start", "to": "end"}
NUMBERS = ("tick", "width", "depth", "workers")
# The decimals of 18 places around the root of 1/2, which is the cosine of 45 degrees.
ROOT = ("0.707106781186547524", "0.707106781186547525")
# A command whose times of the lesser angle are fewer by two seconds on each side, and not all sure.
ANGLES = """\
for word; do
    case $word in --ref=*) ref=${word#--ref=} ;; --relation=*) relation=${word#--relation=} ;; esac
done
day=2000-01-05T00:00:
case $relation$ref in
    atleast0.707106781186547524 | less0.707106781186547525) sure="${day}11 ${day}19" possible="${day}10 ${day}20" ;;
    atleast0.707106781186547525 | less0.707106781186547524) sure="${day}13 ${day}17" possible="${day}12 ${day}18" ;;
    *0.5) sure="${day}13 ${day}17" possible="${day}12 ${day}18" ;;
    *) exit 1 ;;
esac
echo "$ref" >>"$0.asked"
echo "SET sep target moon second sun observer earth frame eq axis - values $ref relation $relation width 1 depth 40" \
    "cut half span 2000-01-01T00:00:00 2000-02-01T00:00:00"
echo "S $sure"
echo "P $possible"
echo "END sure 1 possible 1"
"""
# A report of a set whose sure times are fewer than its possible ones.
HEAD = (
    "SET coord target mercury second - observer ssb frame eq axis x values 0 relation less width 60 depth 40 cut half"
    " span 2000-01-01T00:00:00 2000-02-02T00:00:00"
)
REPORT = f"""\
{HEAD}
S 2000-01-01T00:00:00 2000-01-16T23:59:10
S 2000-01-20T00:00:01 2000-02-02T00:00:00
P 2000-01-01T00:00:00 2000-01-16T23:59:59
P 2000-01-20T00:00:00 2000-02-02T00:00:00
END sure 2 possible 2
"""
# A change of the report, by which it is none.
WRONG = {
    "a count that is wrong": ("sure 2", "sure 1"),
    "a count of possible ones": ("possible 2", "possible 3"),
    "a count with a zero before it": ("sure 2", "sure 02"),
    "a span that is missing": ("P 2000-01-20T00:00:00 2000-02-02T00:00:00\n", ""),
    "a line that is cut off": ("possible 2\n", "possi"),
    "a last line that is cut off": ("possible 2\n", "possible 2"),
    "no last line": ("END sure 2 possible 2\n", ""),
    "a line after the last": ("possible 2\n", "possible 2\n\n"),
    "a line of no form": ("S 2000-01-20", "s 2000-01-20"),
    "a line with a turn": ("23:59:59", "23:59:59 rise"),
    "a carriage return": ("23:59:59\n", "23:59:59\r\n"),
    "no day": ("P 2000-01-20", "P 2000-01-32"),
    "a sure span after a possible one": (
        "S 2000-01-20T00:00:01 2000-02-02T00:00:00\nP 2000-01-01T00:00:00 2000-01-16T23:59:59\n",
        "P 2000-01-01T00:00:00 2000-01-16T23:59:59\nS 2000-01-20T00:00:01 2000-02-02T00:00:00\n",
    ),
    "a span that ends before it begins": ("S 2000-01-20T00:00:01 2000-02-02", "S 2000-01-20T00:00:01 2000-01-19"),
    "a span before that of the report": ("S 2000-01-01", "S 1999-12-31"),
    "a span after that of the report": ("P 2000-01-20T00:00:00 2000-02-02", "P 2000-01-20T00:00:00 2000-02-03"),
    "a span that overlaps the one before": ("S 2000-01-20T00:00:01", "S 2000-01-16T23:59:10"),
    "a span that touches the one before": ("P 2000-01-20T00:00:00", "P 2000-01-17T00:00:00"),
    "a sure span that touches the one before": ("S 2000-01-20T00:00:01", "S 2000-01-16T23:59:11"),
    "spans in another order": ("S 2000-01-20T00:00:01 2000-02-02", "S 2000-01-01T00:00:00 2000-01-02"),
    "a sure time that is not possible": ("23:59:10", "23:59:59\nS 2000-01-18T00:00:00 2000-01-18T00:00:00"),
    "a sure time before all that are possible": ("P 2000-01-01", "P 2000-01-02"),
    "a sure span that begins before its possible one": ("S 2000-01-20T00:00:01", "S 2000-01-19T23:59:59"),
    "milliseconds in a report of seconds": ("23:59:10", "23:59:10.000"),
    "a kind that has no sets": ("SET coord", "SET conj"),
    "a relation of no name": ("less", "more"),
    "a direction": ("relation less", "dir any"),
    "a report of windows": ("SET", "FIND"),
    "no span": (" span", ""),
    "a span without times": ("2000-02-02T00:00:00\nS 2000-01-01", "2000-01-01T00:00:00\nS 2000-01-01"),
    "two reports": ("END sure 2 possible 2\n", "END sure 2 possible 2\n" + REPORT),
    "nothing": (REPORT, ""),
}


def has(name):
    return importlib.util.find_spec(name) is not None


def asked_by(words):
    """The options of a set by its words, and its files."""
    options, files = {}, []
    rest = iter(words)
    for word in rest:
        if word == "--":
            files += rest
        elif word.startswith("--"):
            name, equal, value = word[2:].partition("=")
            value = value if equal else next(rest)
            whole = name in NUMBERS or (name in TIMES and re.fullmatch("-?[0-9]+", value))
            options[TIMES.get(name, name)] = int(value) if whole else value
        else:
            files.append(word)
    return options, files


def ticks_of(spans):
    """The ticks of spans."""
    return {tick for first, last in spans for tick in range(first, last + 1)}


def spans_of(ticks):
    """The spans of ticks, no two of which touch."""
    firsts = sorted(tick for tick in ticks if tick - 1 not in ticks)
    return Spans(1, firsts, sorted(tick for tick in ticks if tick + 1 not in ticks))


class Sets(InFolder):
    @classmethod
    def setUpClass(cls):
        super().setUpClass()
        every = [case for name in ("sets.cases", "real.cases") for case in cases(name) if case.words[:1] == ["set"]]
        # (what is refused of the words cannot be asked for by a function, or is refused in Python)
        cls.cases = [case for case in every if case.status not in (2, 4)]

    def found(self, case, **change):
        """The set of a case."""
        options, files = asked_by(case.words[1:])
        for name, text in case.files.items():
            (self.folder / name).write_text(text)
        return finder.times([self.folder / name for name in files], **{**options, **change})

    def test_each_set_of_the_reference(self):
        answers = [case for case in self.cases if case.status == 0]
        self.assertGreater(len(answers), 80)
        for case in sample(answers, 3):
            with self.subTest(case.name):
                found = self.found(case)
                self.assertEqual(found.text, case.out)
                self.assertEqual(TimeSet.of_text(case.out), found)

    def test_refusals_of_the_reference(self):
        refusals = [case for case in self.cases if case.status]
        self.assertGreater(len(refusals), 20)
        for case in refusals:
            with self.subTest(case.name):
                with self.assertRaises(finder.FinderError) as caught:
                    self.found(case)
                self.assertEqual((caught.exception.status, f"{caught.exception.line}\n"), (case.status, case.err))

    @of_the_whole
    def test_two_references_are_two_sets(self):
        count = {"within": 0, "outside": 0}
        for case in self.cases:
            options, _ = asked_by(case.words[1:])
            relation = options["relation"]
            if case.status or relation not in count:
                continue
            with self.subTest(case.name):
                inside = self.found(case, relation="atleast", ref2=None)
                below = self.found(case, relation="less", ref=options["ref2"], ref2=None)
                made = inside & below if relation == "within" else ~inside | ~below
                self.assertEqual(made, TimeSet.of_text(case.out))
                self.assertEqual(made.text, case.out.partition("\n")[2])
                self.assertEqual(made, ~(~inside | ~below) if relation == "within" else ~(inside & below))
            count[relation] += 1
        self.assertGreater(min(count.values()), 5, count)

    def test_each_set_of_the_manual_gives_what_it_shows(self):
        shown = re.findall(
            r"^    \$ \./finder set ([^|\n]*)\n((?:    (?:SET|S|P|END) .*\n)+)", (TOP / "docs/guide/usage.md").read_text(), re.M
        )
        self.assertGreater(len(shown), 1)
        for words, report in shown:
            with self.subTest(words):
                options, files = asked_by(shlex.split(words))
                found = finder.times([TOP / file for file in files], **options)
                self.assertEqual(found.text, report.replace("    ", ""))

    def test_names_of_sets(self):
        span = {"start": "2000-05-01", "end": "2000-07-01"}
        asked = {"observer": "earth", "cosine": "0.8660254037844387", **span}
        far = finder.far(YEAR, "moon", "jupiter", **asked)
        case = next(case for case in self.cases if case.name == "jpl-set-moon-far")
        self.assertEqual(far.text, case.out)
        self.assertEqual(finder.near(YEAR, "moon", "jupiter", **asked), ~far)
        of_degrees = finder.far(YEAR, "moon", "jupiter", degrees=30, observer="earth", **span)
        self.assertEqual(of_degrees.text, case.out.partition("\n")[2])
        self.assertEqual(finder.near(YEAR, "moon", "jupiter", degrees=30, observer="earth", **span), ~of_degrees)
        back = finder.retrograde(YEAR, "mercury", **SEEN)
        self.assertEqual(back.text, next(case for case in self.cases if case.name == "jpl-set-station").out)

    def test_times_are_rounded_outward(self):
        found = finder.retrograde(YEAR, "mercury", start="2000-06-01T00:00:00.5", end="2000-06-02T00:00:00.5", **SEEN)
        self.assertEqual(found.span, "2000-06-01T00:00:00 2000-06-02T00:00:01")
        self.assertEqual(found.text.splitlines()[1:], ["END sure 0 possible 0"])

    def test_over_files_a_set_that_two_searches_make(self):
        header, files = split_year(self.folder)
        words = {"observer": "earth", "degrees": 30}
        found = finder.over_files(finder.near, files, "moon", "jupiter", header=header, jobs=2, **words)
        whole = finder.near(YEAR, "moon", "jupiter", **words)
        self.assertEqual((found, found.made_of, found.text), (whole, whole.made_of, whole.text))
        self.assertGreater(len(found.sure), 10)


class Angles(InFolder):
    def setUp(self):
        super().setUp()
        self.program = stand_in(self.folder, ANGLES)
        self.asked = {"observer": "earth", "program": self.program}

    def test_of_degrees_no_promise_is_lost(self):
        day = "2000-01-05T00:00:"
        for call in (finder.near, finder.far):
            (self.folder / "finder.asked").unlink(missing_ok=True)
            found = call(YEAR, "moon", "sun", degrees=45, **self.asked)
            self.assertEqual(found.text, f"S {day}13 {day}17\nP {day}10 {day}20\nEND sure 1 possible 1\n")
            self.assertEqual(sorted((self.folder / "finder.asked").read_text().split()), list(ROOT))
            self.assertIsNone(found.request)
            self.assertEqual([request.split()[13] for request in sorted(found.made_of)], list(ROOT))

    def test_of_a_cosine_that_is_a_decimal_there_is_one_search(self):
        for call in (finder.near, finder.far):
            for angle in ({"degrees": 60}, {"cosine": 0.5}):
                found = call(YEAR, "moon", "sun", **angle, **self.asked)
                self.assertEqual(found.request_words["values"], "0.5")
                self.assertEqual(found.text.count("\n"), 4)

    def test_what_is_no_angle(self):
        for angle in ({}, {"degrees": 60, "cosine": 0.5}, {"degrees": 60, "dir": "any"}):
            self.assertRaises(TypeError, finder.near, YEAR, "moon", "sun", **angle, **self.asked)
        self.assertRaises(ValueError, finder.far, YEAR, "moon", "sun", degrees=181, **self.asked)

    def test_a_time_is_of_both_searches(self):
        slow = stand_in(self.folder, f"sleep 0.6\n{ANGLES}")
        with self.assertRaises(finder.TimedOut):
            finder.near(YEAR, "moon", "sun", degrees=45, observer="earth", program=slow, timeout=1)


class Algebra(unittest.TestCase):
    def some(self, draw, start=-20, end=20):
        """A set of a short span."""
        possible = {tick for tick in range(start, end + 1) if draw.random() < 0.6}
        sure = {tick for tick in possible if draw.random() < 0.8}
        return TimeSet(start, end, spans_of(sure), spans_of(possible), [f"SET {draw.random()}"])

    def test_what_is_made_has_the_times_that_it_is_to_have(self):
        draw = random.Random(2000)
        whole = set(range(-20, 21))
        for _ in range(100):
            one, other = self.some(draw), self.some(draw)
            rows = [(ticks_of(found.sure), ticks_of(found.possible)) for found in (one, other)]
            for made, sure, possible in (
                (one & other, rows[0][0] & rows[1][0], rows[0][1] & rows[1][1]),
                (one | other, rows[0][0] | rows[1][0], rows[0][1] | rows[1][1]),
                (~one, whole - rows[0][1], whole - rows[0][0]),
            ):
                self.assertEqual(made, TimeSet(-20, 20, spans_of(sure), spans_of(possible), []))
                self.assertEqual((len(made.sure), len(made.possible)), (len(spans_of(sure)), len(spans_of(possible))))
                self.assertTrue(ticks_of(made.sure) <= ticks_of(made.possible))
                self.assertIsNone(made.request)
            self.assertEqual((one & other).made_of, one.made_of + other.made_of)
            self.assertEqual((one | one).made_of, one.made_of)

    def test_whatever_is_not_known_no_promise_is_lost(self):
        draw = random.Random(405)
        for _ in range(100):
            one, other = self.some(draw), self.some(draw)
            true = [
                ticks_of(found.sure)
                | {tick for tick in ticks_of(found.possible) - ticks_of(found.sure) if draw.random() < 0.5}
                for found in (one, other)
            ]
            for made, holds in (
                (one & other, true[0] & true[1]),
                (one | other, true[0] | true[1]),
                (~one, set(range(-20, 21)) - true[0]),
                (~(one | ~other), true[1] - true[0]),
            ):
                self.assertTrue(ticks_of(made.sure) <= holds <= ticks_of(made.possible))

    def test_laws(self):
        draw = random.Random(441)
        none = TimeSet(-20, 20, spans_of(set()), spans_of(set()), [])
        for _ in range(50):
            one, other, third = (self.some(draw) for _ in range(3))
            self.assertEqual(~~one, one)
            self.assertEqual(~(one & other), ~one | ~other)
            self.assertEqual((one | other) & third, (one & third) | (other & third))
            self.assertEqual((one | none, one & ~none, one & none, one | ~none), (one, one, none, ~none))
            self.assertEqual(hash(one & other), hash(other & one))
        self.assertEqual(ticks_of((~none).sure), set(range(-20, 21)))

    def test_a_set_between_two(self):
        one, wider = (TimeSet.of_text(REPORT.replace("16T23:59:10", time)) for time in ("15T00:00:00", "16T23:59:10"))
        made = one.up_to(wider)
        self.assertEqual((made.sure, made.possible, made.request), (one.sure, wider.possible, None))
        with self.assertRaises(finder.WrongSets):
            one.up_to(~wider)

    def test_sets_of_different_spans_or_ticks(self):
        one = TimeSet.of_text(REPORT)
        later = TimeSet.of_text(REPORT.replace("2000-02-02", "2000-02-03"))
        other = TimeSet.of_text(re.sub(r"(:\d\d)( |\n)", r"\1.000\2", REPORT.replace("cut half", "cut half tick 1000")))
        for wrong, why in ((later, "of different spans: 2000-01-01T00"), (other, "of different ticks: 1 and 1000")):
            for call in (lambda: one & wrong, lambda: wrong | one, lambda: one.up_to(wrong)):
                with self.assertRaises(finder.WrongSets) as caught:
                    call()
                self.assertIsInstance(caught.exception, ValueError)
            with self.assertRaisesRegex(finder.WrongSets, why):
                one | wrong
            self.assertNotEqual(one, wrong)

    def test_what_is_no_set(self):
        one = TimeSet.of_text(REPORT)
        for other in (True, 7, None, REPORT, {1}, one.sure):
            for call in (lambda: one & other, lambda: one | other, lambda: other & one, lambda: other | one):
                self.assertRaises(TypeError, call)
            self.assertNotEqual(one, other)
        for call in (lambda: bool(one), lambda: one and one, lambda: one or one, lambda: not one):
            self.assertRaises(TypeError, call)


class Reports(InFolder):
    def test_a_report_is_read_and_printed_again(self):
        found = TimeSet.of_text(REPORT)
        self.assertEqual(found.text, REPORT)
        self.assertEqual((f"{found.request} span {found.span}", found.made_of), (HEAD, (found.request,)))
        self.assertEqual((found.request_words["relation"], found.request_words["values"]), ("less", "0"))

    def test_what_is_no_report(self):
        for name, (old, new) in WRONG.items():
            with self.subTest(name):
                self.assertEqual(REPORT.count(old), 1)
                self.assertRaises(finder.WrongReport, TimeSet.of_text, REPORT.replace(old, new))

    def test_a_report_of_another_request(self):
        (self.folder / "report").write_text(REPORT)
        asked = {
            "kind": "coord",
            "target": "mercury",
            "axis": "x",
            "relation": "less",
            "width": 60,
            "program": stand_in(self.folder, f"cat {self.folder}/report"),
        }
        for same in ({}, {"ref": 0}, {"frame": "eq"}, {"start": "2000-01-01"}, {"workers": 3}):
            self.assertEqual(finder.times(YEAR, **asked, **same).text, REPORT)
        for change in (
            {"relation": "atleast"},
            {"ref": "0.0"},
            {"ref2": 5},
            {"kind": "radius"},
            {"target": "venus"},
            {"second": "venus"},
            {"observer": "sun"},
            {"frame": "ecl"},
            {"axis": "y"},
            {"width": 1},
            {"depth": 39},
            {"cut": "third"},
            {"tick": 1000},
            {"start": "1999-12-31"},
            {"end": "2000-02-01"},
        ):
            with self.subTest(change), self.assertRaises(finder.WrongReport):
                finder.times(YEAR, **{**asked, **change})
        for old, new in (
            ("second -", "second venus"),
            ("frame eq", "frame ecl"),
            ("values 0", "values 0,5"),
            ("axis x", "axis -"),
        ):
            (self.folder / "report").write_text(REPORT.replace(old, new))
            with self.subTest(new), self.assertRaises(finder.WrongReport):
                finder.times(YEAR, **asked)


class Views(InFolder):
    def setUp(self):
        super().setUp()
        self.found = TimeSet.of_text(REPORT)

    def test_spans_are_sequences_and_arrays(self):
        sure = self.found.sure
        self.assertEqual(len(sure), 2)
        self.assertEqual(list(sure), [Span(-43_200, 1_339_150), Span(1_598_401, 2_721_600)])
        self.assertEqual((sure[-1], sure[1:]), (Span(1_598_401, 2_721_600), sure[sure.first > 0]))
        self.assertRaises(IndexError, lambda: sure[2])
        self.assertEqual(sure.first.dtype, np.int64)
        with self.assertRaises(ValueError):
            sure.first[0] = 0
        self.assertNotEqual(sure, self.found.possible)
        self.assertNotEqual(sure, Spans(1000, sure.first, sure.last))
        self.assertEqual((self.found.start, self.found.end, self.found.tick), (-43_200, 2_721_600, 1))

    def test_ticks_in_spans(self):
        sure = self.found.sure
        for tick, inside in ((-43_201, False), (-43_200, True), (np.int64(1_339_150), True), (1_339_151, False)):
            self.assertIs(tick in sure, inside)
        self.assertEqual([tick in sure for tick in (1_598_400, 2_721_600, 2_721_601)], [False, True, False])
        self.assertTrue(sure[0] in sure and sure[0] not in self.found.possible)
        for other in (True, None, "2000-01-01T12:00:00", sure.datetime64()[0], 0.0):
            self.assertRaises(TypeError, lambda: other in sure)
        self.assertRaises(TypeError, lambda: 0 in self.found)

    def test_times_of_the_calendar(self):
        lasts = [str(time) for time in self.found.sure.datetime64()]
        self.assertEqual(lasts, ["2000-01-16T23:59:10", "2000-02-02T00:00:00"])
        self.assertEqual(str(self.found.possible.datetime64("first")[1]), "2000-01-20T00:00:00")

    def test_copies(self):
        again = pickle.loads(pickle.dumps(self.found))
        self.assertEqual((again, again.text, hash(again)), (self.found, REPORT, hash(self.found)))

    def test_what_is_shown(self):
        self.assertEqual(
            repr(self.found), f"<TimeSet of '{HEAD.partition(' span')[0]}': 2 sure, 2 possible spans>"
        )
        self.assertEqual(repr(~self.found), "<TimeSet made of 1 searches: 1 sure, 1 possible spans>")
        self.assertEqual(repr((~self.found).sure), "<Spans: 2000-01-17T00:00:00 2000-01-19T23:59:59>")

    @unittest.skipUnless(has("astropy"), "astropy is not here")
    def test_times_and_tables_of_astropy(self):
        first = self.found.sure.time("first")
        self.assertEqual((first.scale, first.isot[1]), ("tdb", "2000-01-20T00:00:01.000"))
        self.assertEqual(self.found.possible.to_table()["last"].isot[0], "2000-01-16T23:59:59.000")

    @unittest.skipUnless(has("pandas"), "pandas is not here")
    def test_tables_of_pandas(self):
        rows = self.found.possible.to_pandas()
        lines = [f"P {row.first.isoformat()} {row.last.isoformat()}" for row in rows.itertuples()]
        self.assertEqual(lines, REPORT.splitlines()[3:5])
        self.assertEqual(rows["last_ms"].tolist(), (self.found.possible.last * 1000).tolist())
        both = self.found.to_pandas()
        self.assertEqual(both["certain"].tolist(), [True] * len(self.found.sure) + [False] * len(self.found))
        self.assertEqual(list(self.found), list(self.found.possible))

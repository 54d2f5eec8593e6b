"""Command lines, by the rules of the pages of commands and of trouble."""

from __future__ import annotations

import unittest
from pathlib import Path

from tests.reference import answer
from tests.reference.decimals import Decimal
from tests.reference.kinds import KINDS, SHADOWS, WITH_SECOND
from tests.reference.requests import SET_KINDS, CheckRequest, SearchRequest, read_request

EXAMPLE = Path(__file__).resolve().parents[3] / "examples" / "mercury-crossing.asc"
COORD = "find --kind coord --target mercury --axis x"


def said(words: str) -> str:
    """What a command line says on standard error; a word is between blanks, and `''` is an empty one."""
    split = [b"" if word == "''" else word.encode() for word in words.split()]
    outcome = answer(split, {b"a": EXAMPLE.read_bytes()})
    return outcome.error.decode()[len("finder: ") : -1]


def search(words: str) -> SearchRequest:
    """The request of a search."""
    request = read_request(words.encode().split())
    assert isinstance(request, SearchRequest)
    return request


class Refused(unittest.TestCase):
    """Words that make no request, each with the first fault that applies."""

    def test_commands(self) -> None:
        rows = {"": "60 NoCommand", **dict.fromkeys(("look a", "--help", "''"), "61 UnknownCommand")}
        for words, fault in rows.items():
            self.assertEqual(said(words), f"words: {fault}", words)

    def test_words(self) -> None:
        rows = ["check", "check --", "check --kind=coord a", "check -x a", "gen 405 3", "gen 405 3 7 9"]
        rows += [f"{COORD} --ref -0.5 a", f"{COORD} --frequency 2 a", f"{COORD} --ref", f"{COORD} --ref a --", COORD]
        rows += [f"{COORD} --ref=1 --ref=1 a", f"{COORD} --ref=1 --ref 2 a", f"{COORD} --ki=coord a", "scalar a"]
        rows += [f"{COORD} --relation less a", "set --dir any a", f"{COORD} --=x a", f"{COORD} -h a"]
        for words in rows:
            self.assertEqual(said(words), "words: 62 Words", words)

    def test_a_word_that_is_no_utf8_is_refused_whatever_stands_before_it(self) -> None:
        for words in ([b"check", b"\xff"], [b"\xff"], [b"look", b"a\x80"], [b"find", b"--kind=\xc3"]):
            self.assertEqual(answer(words, {b"\xff": b""}).error, b"finder: words: 62 Words\n")

    def test_the_first_bad_option_of_the_table(self) -> None:
        rows = {
            "find --target mercury a": "kind",
            "find --kind conj --target jupiter a": "second",
            "find --kind conj --target jupiter --second saturn --axis x a": "axis",
            "find --kind apsis --target moon --frame ecl a": "frame",
            "find --kind sep --target moon --second sun a": "ref",
            "find --kind any --target moon --second sun --radius1 1 a": "radius2",
            f"{COORD} --width 0 --tick 10 a": "tick",
            f"{COORD} --width 0 --depth 41 a": "width",
            f"{COORD} --depth 41 --workers 65 a": "depth",
            f"{COORD} --workers 65 --cut x a": "workers",
            f"{COORD} --from 2000-05-28T15:55:48.503 a": "from",
            "verify" + COORD[4:] + " a": "cert",
            "set" + COORD[4:] + " a": "relation",
            "set" + COORD[4:] + " --relation within a": "ref2",
            "set" + COORD[4:] + " --relation less --ref2 1 a": "ref2",
            "set --kind conj --target mercury --second venus --relation less a": "kind",
            "set --kind apsis --target mercury --relation within --ref2 1 a": "relation",
            "scalar --quad 1,0 --from 0 --to x": "quad",
            "scalar --quad 1048577,0,0 --from 0 --to 1": "quad",
            "scalar --quad 1,2,3 --to 1": "from",
            "gen 406 41 x": "layout",
            "gen 405 41 x": "blocks",
            "gen 405 3 18446744073709551616 --workers 0": "seed",
            "gen 405 3 7 --workers 0": "workers",
        }
        for words, option in rows.items():
            self.assertEqual(said(words), f"words: 63 BadValue {option}", words)

    def test_spans_and_events(self) -> None:
        rows = {
            f"{COORD} --from 5 --to 5 a": "span: 5 5 not within -43200 2721600",
            f"{COORD} --to 2721601 a": "span: -43200 2721601 not within -43200 2721600",
            "scalar --quad 1,0,0 --from 1 --to 0": "span: 1 0 not within -999999999999 999999999999",
            "find --kind coord --target venus --axis x a": "event: 50 BodyAbsent",
            "find --kind radius --target mercury --observer mercury --ref 1 a": "event: 51 SameBody",
            "find --kind sep --target mercury --second sun --ref 1.5 a": "event: 52 ReferenceRange",
            "find --kind radius --target mercury --ref=-1 a": "event: 52 ReferenceRange",
            f"{COORD} --ref 68719476736 a": "event: 52 ReferenceRange",
        }
        for words, line in rows.items():
            self.assertEqual(said(words), line, words)


class Read(unittest.TestCase):
    """Words that make a request."""

    def test_defaults(self) -> None:
        request = search(f"{COORD} a b")
        self.assertEqual((request.query.observer, request.query.frame, request.query.direction), ("ssb", "eq", "any"))
        self.assertEqual((request.width, request.depth, request.cut, request.tick), (1, 40, "half", 1))
        self.assertEqual((request.values, request.first, request.last, request.files), (b"0", None, None, (b"a", b"b")))

    def test_spellings(self) -> None:
        words = "find a --axis=x --kind coord --ref=-0.50 b --target mercury -- --workers -x"
        request = search(words)
        self.assertEqual(request.files, (b"a", b"b", b"--workers", b"-x"))
        self.assertEqual((request.values, request.query.value1), (b"-0.50", Decimal(-50, -2)))

    def test_a_lone_dash_is_a_file(self) -> None:
        self.assertEqual(read_request([b"check", b"-", b""]), CheckRequest((b"-", b"")))

    def test_each_kind_with_what_it_needs(self) -> None:
        for kind in KINDS:
            more = " --second venus" if kind in WITH_SECOND else ""
            more += " --axis z" if kind == "coord" else " --ref 0.5" if kind in ("radius", "sep") else ""
            more += " --radius1 1 --radius2 2" if kind in SHADOWS else ""
            request = search(f"find --kind {kind} --target mercury{more} a")
            self.assertEqual(request.query.targets, ("mercury", "venus" if kind in WITH_SECOND else "mercury"))
            fault = "" if kind in SET_KINDS else "words: 63 BadValue kind"
            words = f"set --kind {kind} --target mercury{more} --relation less b"
            self.assertEqual(said(words), fault or "read fault b")


if __name__ == "__main__":
    unittest.main()

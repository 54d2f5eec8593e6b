"""Searches, sets, certificates and polynomials, against events found by evaluating each tick exactly."""

from __future__ import annotations

import unittest
from fractions import Fraction
from pathlib import Path
from random import Random
from typing import NamedTuple, Sequence

from tests.reference import answer
from tests.reference.blocks import read_ephemeris
from tests.reference.brute_force import ExactEvents, Turn, leaf_faults, window_faults
from tests.reference.command import Refusal, Search, prepare_search, search_leaves
from tests.reference.enclosures import Span
from tests.reference.ephemeris import Ephemeris
from tests.reference.random_changes import change_certificate
from tests.reference.random_files import Files, made_draft
from tests.reference.random_searches import Options, as_words, scalar_options, search_options, set_options
from tests.reference.requests import ScalarRequest, SearchRequest, read_request
from tests.reference.searches import Leaf, Window, windows_of
from tests.reference.times import TimeFault, read_time
from tests.reference.verdicts import Node, Verdict
from tests.support.settings import REFERENCE_ROUNDS

EXAMPLE = Path(__file__).resolve().parents[3] / "examples" / "mercury-crossing.asc"
VERDICTS = {b"rise": Verdict.RISE, b"fall": Verdict.FALL}


class Made(NamedTuple):
    """Files made at random, and their ephemeris."""

    files: Files
    ephemeris: Ephemeris


def made(rng: Random) -> Made:
    """A small ephemeris; half of them have borders nearly everywhere."""
    files = made_draft(rng, 0.5).files(rng)
    return Made(files, read_ephemeris(files.items()))


def search_request(words: Sequence[bytes]) -> SearchRequest:
    """The request of words that search files."""
    request = read_request(words)
    assert isinstance(request, SearchRequest)
    return request


def exact_numbers(exact: ExactEvents, time: int) -> list[Fraction]:
    """The function and its conditions at a tick."""
    values = exact.values(time)
    return [values.function, *(number for number, _ in values.conditions)]


def time_of(word: bytes, tick: int = 1) -> int:
    """The tick of a word that is printed."""
    time = read_time(word, tick)
    assert not isinstance(time, TimeFault)
    return time


def printed_windows(output: bytes, tick: int) -> list[Window]:
    """The windows of a report."""
    windows = []
    for line in output.splitlines():
        letter, *words = line.split()
        if letter in (b"C", b"U"):
            verdict = VERDICTS[words[2]] if letter == b"C" else Verdict.UNDECIDED
            windows.append(Window(time_of(words[0], tick), time_of(words[1], tick), verdict))
    return windows


class Searches(unittest.TestCase):
    """Leaves and windows keep what they promise, and enclosures hold the exact values."""

    def test_random_searches(self) -> None:
        rng = Random(11)
        found = 0
        for number in range(20 * REFERENCE_ROUNDS):
            files, ephemeris = made(rng)
            words = as_words("find", search_options(rng, ephemeris, 150), list(files))
            with self.subTest(number=number, words=words):
                found += self.check(rng, ephemeris, search_request(words))
        self.assertGreater(found, 10 * REFERENCE_ROUNDS, "the searches find events, so that they are tried")

    def check(self, rng: Random, ephemeris: Ephemeris, request: SearchRequest) -> int:
        """Compares a search with brute force, and returns how many events there are."""
        try:
            search = prepare_search(ephemeris, request)
        except Refusal:
            return 0
        exact = ExactEvents(search.ephemeris, request.query)
        self.check_enclosures(rng, search, exact)
        span = search.root.first, search.root.last
        leaves, events = search_leaves(search.judge, search.root), exact.events(*span)
        self.assertEqual(leaf_faults(*span, leaves, events, request.width, request.depth), [])
        self.assertEqual(window_faults(*span, windows_of(leaves), events), [])
        return len(events)

    def check_enclosures(self, rng: Random, search: Search, exact: ExactEvents) -> None:
        """The enclosures of the function and of the conditions over some span hold what they are of."""
        view, ephemeris = search.judge.view, search.ephemeris
        first = rng.randrange(ephemeris.start, ephemeris.end + 1)
        last = min(ephemeris.end, first + rng.choice([0, 1, 2, 5, 30, 1000]))
        border = ephemeris.nearest_border(view.columns, first, last)
        while border is not None:
            last = border - 1
            border = ephemeris.nearest_border(view.columns, first, last)
        span = Span(first, last)
        functions = [search.judge.event.function, *(condition.function for condition in search.judge.event.conditions)]
        found = [view.over(span).enclosure(function) for function in functions]
        for time in {first, last, rng.randrange(first, last + 1)}:
            now = exact_numbers(exact, time)
            self.assertTrue(all(enclosure.range.holds(number) for enclosure, number in zip(found, now)))
            if time < last:
                changes = [after - before for before, after in zip(now, exact_numbers(exact, time + 1))]
                self.assertTrue(all(enclosure.step.holds(change) for enclosure, change in zip(found, changes)))
        middle = exact_numbers(exact, span.middle)
        self.assertTrue(all(enclosure.mid.holds(number) for enclosure, number in zip(found, middle)))


class Certificates(unittest.TestCase):
    """Certificates are verified, and what is verified is true."""

    WORDS = b"--kind coord --target mercury --axis x --from 1339000 --to 1339400 --width 60".split()
    LEAVES = ["L 1339000 1339100 2 N", "L 1339100 1339150 3 N", "L 1339150 1339200 3 R", "L 1339200 1339400 1 N"]

    def certificate(self, leaves: Sequence[str], end: str = "") -> bytes:
        """The certificate of the documents, with other leaves."""
        request = "FIND coord target mercury second - observer ssb frame eq axis x values 0 dir any width 60 depth 40"
        span = "cut half span 2000-01-16T23:56:40 2000-01-17T00:03:20"
        lines = ["CERT 1", f"{request} {span}", *leaves, end or f"END leaves {len(leaves)}"]
        return "".join(line + "\n" for line in lines).encode()

    def verified(self, certificate: bytes) -> tuple[int, bytes]:
        """The status and the last line of a verification."""
        files = {b"a": EXAMPLE.read_bytes(), b"c": certificate}
        outcome = answer([b"verify", *self.WORDS, b"--cert", b"c", b"a"], files)
        return outcome.status, (outcome.output + outcome.error).splitlines()[-1]

    def test_the_documents_certificate(self) -> None:
        outcome = answer([b"cert", *self.WORDS, b"a"], {b"a": EXAMPLE.read_bytes()})
        self.assertEqual(outcome.output, self.certificate(self.LEAVES))
        self.assertEqual(self.verified(outcome.output), (0, b"VERIFIED leaves 4"))

    def test_changes_of_it(self) -> None:
        one, two, three, four = self.LEAVES
        finer = [one, two, three, "L 1339200 1339300 2 N", "L 1339300 1339400 2 N"]
        self.assertEqual(self.verified(self.certificate(finer)), (0, b"VERIFIED leaves 5"))
        rows = [
            ("5: 73 CertMark", self.certificate([one, two, three.replace("R", "N"), four])),
            ("4: 72 CertPlace", self.certificate([one, three, four])),
            ("6: 74 CertEnd", self.certificate([one, two, three])),
            ("7: 74 CertEnd", self.certificate([*self.LEAVES, four])),
            ("7: 74 CertEnd", self.certificate(self.LEAVES, "END leaves 5")),
            ("7: 74 CertEnd", self.certificate(self.LEAVES).replace(b"END leaves 4\n", b"")),
            ("8: 74 CertEnd", self.certificate(self.LEAVES, "END leaves 4\nEND leaves 4")),
            ("3: 70 CertLine", self.certificate(["L 1339000 1339100 2 X", two, three, four])),
            ("2: 71 CertRequest", self.certificate(self.LEAVES).replace(b"width 60", b"width 50")),
            ("1: 70 CertLine", b"CERT 2\n"),
        ]
        for line, certificate in rows:
            said = f"finder: certificate line {line}".encode()
            self.assertEqual(self.verified(certificate), (10, said))

    def test_random_certificates(self) -> None:
        rng = Random(12)
        accepted = 0
        for number in range(14 * REFERENCE_ROUNDS):
            files, ephemeris = made(rng)
            options = search_options(rng, ephemeris, 100)
            certificate = answer(as_words("cert", options, list(files)), files)
            if certificate.status:
                continue
            with self.subTest(number=number, options=options):
                self.check_own(options, files, certificate.output)
                accepted += self.check_changed(options, files, change_certificate(rng, certificate.output))
        self.assertGreater(accepted, REFERENCE_ROUNDS // 5, "some changed certificates are accepted, so that they are tried")

    def check_own(self, options: Options, files: Files, certificate: bytes) -> None:
        """A search's own certificate is verified, with the search's report."""
        report = answer(as_words("find", options, list(files)), files).output
        words = as_words("verify", {**options, "cert": "c"}, list(files))
        count = certificate.count(b"\nL ")
        verified = (0, report + b"VERIFIED leaves %d\n" % count, b"")
        self.assertEqual(answer(words, {**files, b"c": certificate}), verified)

    def check_changed(self, options: Options, files: Files, certificate: bytes) -> int:
        """If a changed certificate is verified, its windows are true. Returns 1 if it is."""
        words = as_words("verify", {**options, "cert": "c"}, list(files))
        outcome = answer(words, {**files, b"c": certificate})
        if outcome.status:
            return 0
        request = search_request(words)
        search = prepare_search(read_ephemeris(files.items()), request)
        span = search.root.first, search.root.last
        events = ExactEvents(search.ephemeris, request.query).events(*span)
        self.assertEqual(window_faults(*span, printed_windows(outcome.output, request.tick), events), [])
        return 1


class Sets(unittest.TestCase):
    """Each sure tick has the relation, and each tick that has it is possible."""

    def test_random_sets(self) -> None:
        rng = Random(13)
        for number in range(14 * REFERENCE_ROUNDS):
            files, ephemeris = made(rng)
            words = as_words("set", set_options(rng, ephemeris, 100), list(files))
            with self.subTest(number=number, words=words):
                self.check(words, files, ephemeris)

    def check(self, words: list[bytes], files: Files, ephemeris: Ephemeris) -> None:
        """Compares a set with the exact relation at each tick."""
        outcome, request = answer(words, files), search_request(words)
        if outcome.status:
            return
        search = prepare_search(ephemeris, request)
        sets: dict[bytes, set[int]] = {b"S": set(), b"P": set()}
        for line in outcome.output.splitlines():
            letter, *ends = line.split()
            if letter in sets:
                sets[letter].update(range(time_of(ends[0], request.tick), time_of(ends[1], request.tick) + 1))
        ticks = range(search.root.first, search.root.last + 1)
        truth = {time for time in ticks if has_relation(search.ephemeris, request, time)}
        self.assertLessEqual(sets[b"S"], truth)
        self.assertLessEqual(truth, sets[b"P"])


def has_relation(ephemeris: Ephemeris, request: SearchRequest, time: int) -> bool:
    """Whether a relation holds at a tick."""
    first = ExactEvents(ephemeris, request.query).is_at_least_zero(time)
    if request.second_reference is None:
        return first == (request.relation == "atleast")
    query = request.query._replace(value1=request.second_reference)
    second = ExactEvents(ephemeris, query).is_at_least_zero(time)
    return (first and not second) if request.relation == "within" else (not first or second)


class Polynomials(unittest.TestCase):
    """Windows of a polynomial are those of its turns about 0."""

    def test_the_documents_example(self) -> None:
        outcome = answer(b"scalar --quad 1,0,-100 --from=-50 --to 50".split(), {})
        lines = [b"C -9 -9 fall", b"C 10 10 rise", b"END certain 2 undecided 0"]
        self.assertEqual(outcome.output.splitlines()[1:], lines)

    def test_random_polynomials(self) -> None:
        rng = Random(14)
        compared = 0
        for number in range(400):
            words = as_words("scalar", scalar_options(rng), (), rng)
            outcome = answer(words, {})
            if not outcome.status:
                request = read_request(words)
                assert isinstance(request, ScalarRequest)
                with self.subTest(number=number, words=words):
                    self.check(request, outcome.output)
                    compared += 1
        self.assertGreater(compared, 200)

    def check(self, request: ScalarRequest, output: bytes) -> None:
        """Compares the windows with the values at all times."""
        p, q, r = request.scalar
        signs = [p * time * time + q * time + r >= 0 for time in range(request.first, request.last + 1)]
        events = []
        for time, (before, now) in enumerate(zip(signs, signs[1:]), request.first + 1):
            verdict = Verdict.RISE if now else Verdict.FALL
            if before != now and request.direction in ("any", verdict.name.lower()):
                events.append(Turn(time, verdict))
        windows: list[Window] = []
        for line in output.splitlines()[1:-1]:
            letter, first, last, *turn = line.split()
            windows.append(Window(int(first), int(last), VERDICTS[turn[0]] if turn else Verdict.UNDECIDED))
        self.assertEqual(window_faults(request.first, request.last, windows, events), [])


class BruteForce(unittest.TestCase):
    """What compares the searches with brute force finds what is wrong."""

    def test_faults_of_windows(self) -> None:
        events = [Turn(5, Verdict.RISE)]
        self.assertEqual(window_faults(0, 9, [Window(5, 5, Verdict.RISE)], events), [])
        self.assertEqual(window_faults(0, 9, [Window(1, 9, Verdict.UNDECIDED)], events), [])
        wrong: list[list[Window]] = [
            [],
            [Window(4, 4, Verdict.RISE)],
            [Window(5, 5, Verdict.FALL)],
            [Window(0, 5, Verdict.UNDECIDED)],
            [Window(5, 10, Verdict.UNDECIDED)],
            [Window(5, 5, Verdict.RISE), Window(5, 9, Verdict.UNDECIDED)],
        ]
        for windows in wrong:
            self.assertNotEqual(window_faults(0, 9, windows, events), [], windows)

    def test_faults_of_leaves(self) -> None:
        events = [Turn(5, Verdict.RISE)]
        good = [Leaf(Node(0, 4, 1), Verdict.CLEAR), Leaf(Node(4, 9, 1), Verdict.RISE)]
        self.assertEqual(leaf_faults(0, 9, good, events, 1, 40), [])
        wrong = [good[:1], good[1:], [Leaf(Node(0, 9, 0), Verdict.CLEAR)], [Leaf(Node(0, 9, 0), Verdict.UNDECIDED)]]
        for leaves in wrong:
            self.assertNotEqual(leaf_faults(0, 9, leaves, events, 1, 40), [], leaves)


if __name__ == "__main__":
    unittest.main()

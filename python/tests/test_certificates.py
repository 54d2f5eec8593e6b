"""Certificates from Python, and those of parts, joined to that of the whole: its bytes are the command's own."""

import subprocess
import sys
import unittest

import finder
from finder import spans
from tests.common import PROGRAM, TOOL, YEAR, InFolder, command, of_the_whole, sample, split_year

EARTH = {"observer": "earth"}
# A search of each kind, some with limits that leave times undecided.
SEARCHES = (
    ("coord", "mercury", None, {"axis": "x"}),
    ("radius", "moon", None, {**EARTH, "ref": 384_400, "width": 60}),
    ("apsis", "moon", None, {**EARTH, "tick": 1000, "depth": 14}),
    ("conj", "moon", "sun", {**EARTH, "frame": "ecl", "dir": "fall"}),
    ("oppo", "jupiter", "sun", {**EARTH, "cut": "third"}),
    ("station", "mercury", None, {**EARTH, "frame": "ecl", "depth": 9}),
    ("sep", "venus", "jupiter", {**EARTH, "ref": "0.9998476951563913"}),
    ("sepext", "venus", "sun", EARTH),
    ("any", "moon", "sun", {**EARTH, "radii": ("1737.4", "696000")}),
    ("full", "sun", "venus", {**EARTH, "radii": ("696000", "6051.8"), "cut": "third", "width": 100}),
    ("annular", "mercury", "sun", {"observer": "jupiter", "radii": ("2439.7", "696000"), "depth": 10}),
)
# Ends of five parts of JPL's year, in seconds: borders of blocks.
BORDERS = [-734_400 + 2_764_800 * number for number in (0, 2, 5, 6, 9, 12)]


def cuts_of(tick):
    """Ends of five parts: at borders of blocks, and one tick before these."""
    inside = [spans.time_text(border * tick - 1, tick) for border in BORDERS[1:-1]]
    return BORDERS, [BORDERS[0], *inside, BORDERS[-1]]


def words_of(made):
    """The words of the command for a certificate's request."""
    from finder.reports.certificates import request_options

    return [f"--{name}={word}" for name, word in request_options(made.report).items()]


class OfParts(InFolder):
    def setUp(self):
        super().setUp()
        self.header, self.files = split_year(self.folder)
        self.summary = finder.check(YEAR)

    def test_certificates_of_parts_are_those_of_the_whole(self):
        for kind, target, second, options in sample(SEARCHES, 3):
            with self.subTest(kind=kind):
                whole = finder.certificate(YEAR, kind, target, second, **options)
                by_file = finder.over_files(
                    finder.certificate, self.files, kind, target, second, header=self.header, **options
                )
                self.assertEqual(by_file.text, whole.text)
                for ends in cuts_of(options.get("tick", 1)):
                    parts = [
                        finder.certificate(YEAR, kind, target, second, start=start, end=end, **options)
                        for start, end in zip(ends, ends[1:])
                    ]
                    self.assertEqual(finder.join(parts, self.summary).text, whole.text)
                self.assertEqual(whole.text, command("cert", *words_of(whole), YEAR))
                checked = finder.verify(YEAR, whole)
                self.assertEqual(checked.leaves, whole.text.count("\nL "))
                self.assertEqual(checked.windows.text, command("find", *words_of(whole), YEAR))

    @of_the_whole
    def test_the_tool_joins_certificates_and_sets(self):
        plan = subprocess.run([TOOL, "files", "--header", self.header, *self.files], capture_output=True, check=True)
        (self.folder / "plan").write_bytes(plan.stdout)
        moon = ["--kind=apsis", "--target=moon", "--observer=earth"]
        for name, words in (("cert", moon), ("set", [*moon, "--relation=less"])):
            parts = b""
            for line in plan.stdout.decode().splitlines():
                start, end, file = line.split(" ")
                parts += command(name, *words, f"--from={start}", f"--to={end}", self.header, file).encode()
            done = subprocess.run(
                [TOOL, "join", "--header", self.header, self.folder / "plan"],
                input=parts,
                capture_output=True,
                check=True,
                env={"FINDER": str(PROGRAM), "PATH": "/usr/bin:/bin"},
            )
            self.assertEqual(done.stdout.decode(), command(name, *words, YEAR))

    def test_a_plan_without_files(self):
        (self.folder / "plan").write_text("2000-01-01T00:00:00 2000-01-09T00:00:00\n")
        text = finder.certificate(YEAR, "apsis", "moon", **EARTH, start="2000-01-01", end="2000-01-09").text
        for words, wanted in (([], b"name one by --file"), (["--file", YEAR], b"")):
            done = subprocess.run(
                [sys.executable, TOOL, "join", *words, self.folder / "plan"],
                input=text.encode(),
                capture_output=True,
                env={"FINDER": str(PROGRAM), "PATH": "/usr/bin:/bin"},
            )
            self.assertEqual(done.returncode, 1 if wanted else 0)
            self.assertIn(wanted, done.stderr)
            self.assertEqual(done.stdout.decode(), "" if wanted else text)

    @of_the_whole
    def test_sets_of_parts_are_those_of_the_whole(self):
        for kind, target, second, options in (
            ("station", "mercury", None, {**EARTH, "frame": "ecl", "relation": "less"}),
            ("apsis", "moon", None, {**EARTH, "relation": "atleast", "width": 3_600}),
            ("radius", "moon", None, {**EARTH, "relation": "within", "ref": 370_000, "ref2": 400_000}),
            ("sep", "moon", "sun", {**EARTH, "relation": "outside", "ref": "-0.5", "ref2": "0.5", "depth": 6}),
            ("coord", "earth", None, {"axis": "z", "relation": "less", "ref": 0, "tick": 1000}),
        ):
            with self.subTest(kind=kind):
                whole = finder.times(YEAR, kind, target, second, **options)
                found = finder.over_files(
                    finder.times, self.files, kind, target, second, header=self.header, **options
                )
                self.assertEqual(found.text, whole.text)
                for ends in cuts_of(options.get("tick", 1)):
                    pairs = list(zip(ends, ends[1:]))
                    parts = [
                        finder.times(YEAR, kind, target, second, start=start, end=end, **options)
                        for start, end in pairs
                    ]
                    self.assertEqual(finder.join(parts).text, whole.text)

    def test_parts_that_are_cut_elsewhere(self):
        # (the Moon has granules of four days, and Jupiter of 32)
        border, inside = -734_400 + 345_600 * 3, -734_400 + 345_600 * 3 + 2
        for kind, target, second, end, is_refused in (
            ("apsis", "moon", None, border, False),
            ("apsis", "moon", None, inside, True),
            ("coord", "jupiter", None, border, True),
            ("sep", "jupiter", "moon", border, False),
        ):
            words = {**EARTH, **({"axis": "x"} if kind == "coord" else {}), **({"ref": 0} if kind == "sep" else {})}
            if kind == "coord":
                words["observer"] = "ssb"
            parts = [
                finder.certificate(YEAR, kind, target, second, start=start, end=stop, **words)
                for start, stop in ((-734_400, end), (end, 2_000_000))
            ]
            if is_refused:
                with self.assertRaisesRegex(finder.WrongParts, "1999-12-24T00:00:00 .* meet at no border of"):
                    finder.join(parts, self.summary)
                continue
            whole = finder.certificate(YEAR, kind, target, second, end=2_000_000, **words)
            self.assertEqual(finder.join(parts, self.summary).text, whole.text)

    def test_what_is_not_joined(self):
        made = finder.certificate(YEAR, "apsis", "moon", **EARTH, end=2_030_400)
        later = finder.certificate(YEAR, "apsis", "moon", **EARTH, start=4_795_200)
        other = finder.certificate(YEAR, "apsis", "moon", **EARTH, dir="rise", start=2_030_400)
        for parts, why in (
            ([made, later], "do not meet"),
            ([later, made], "overlap|do not meet"),
            ([made, made], "overlap"),
            ([made, other], "different requests"),
            ([], "no report"),
        ):
            with self.assertRaisesRegex(finder.WrongParts, why):
                spans.join_certificates([part.report for part in parts], self.summary)
        with self.assertRaisesRegex(finder.WrongParts, "what `check` says"):
            finder.join([made])


class FromPython(InFolder):
    def test_a_certificate_is_saved_and_read(self):
        made = finder.certificate(YEAR, "apsis", "earth", observer="sun", end="2000-02-01")
        made.save(self.folder / "cert")
        self.assertEqual((self.folder / "cert").read_text(), made.text)
        self.assertEqual(finder.Certificate.load(self.folder / "cert"), made)
        found = finder.verify(YEAR, self.folder / "cert", request=made.request)
        self.assertEqual((len(found.windows), found.leaves), (1, len(made)))
        self.assertEqual(found.windows[0], finder.Window(148_724, 148_724, "rise"))
        self.assertEqual((made.start, made.end, made.tick, made.request_words["target"]), (-734_400, 2_635_200, 1, "earth"))

    def test_a_line_that_is_not_so(self):
        made = finder.certificate(YEAR, "apsis", "earth", observer="sun", end="2000-02-01")
        lines = made.text.split("\n")
        lines[4] = lines[4].replace("N", "R")
        with self.assertRaises(finder.CertificateRefused) as raised:
            finder.verify(YEAR, finder.Certificate.of_text("\n".join(lines)))
        error = raised.exception
        self.assertEqual((error.status, error.line_number, error.number, error.name), (10, 5, 73, "CertMark"))

    def test_texts_that_are_no_certificates(self):
        text = finder.certificate(YEAR, "apsis", "earth", observer="sun", end="2000-02-01").text
        lines = text.split("\n")
        for changed in (
            "",
            text[:-1],
            "\n".join(lines[:-2] + [""]),
            "\n".join(lines[:5] + lines[6:]),
            text.replace("CERT 1", "CERT 2"),
            text.replace(" N", " X", 1),
            text.replace(f"leaves {len(lines) - 4}", f"leaves {len(lines) - 5}"),
            text + text,
            command("find", "--kind", "apsis", "--target", "earth", YEAR),
        ):
            with self.assertRaises(finder.WrongReport):
                finder.Certificate.of_text(changed)
        (self.folder / "cert").write_bytes(text.encode() + b"\xff")
        with self.assertRaisesRegex(finder.WrongReport, "cert has bytes that no certificate has"):
            finder.verify(YEAR, self.folder / "cert")
        for given in (text, None):
            with self.assertRaisesRegex(TypeError, "Certificate.of_text"):
                finder.verify(YEAR, given)

    def test_an_option_that_is_none(self):
        # (it would be a certificate of another search than the one that is meant)
        with self.assertRaisesRegex(TypeError, "did you mean 'start'"):
            finder.certificate(YEAR, "apsis", "earth", observer="sun", strat="2000-02-01")
        with self.assertRaisesRegex(TypeError, r"certificate\(\) takes no option 'relation'"):
            finder.certificate(YEAR, "apsis", "earth", observer="sun", relation="less")

    def test_another_request(self):
        made = finder.certificate(YEAR, "apsis", "earth", observer="sun", end="2000-02-01")
        with self.assertRaisesRegex(finder.WrongReport, "another request"):
            finder.verify(YEAR, made, request=made.request.replace("sun", "emb"))
        with self.assertRaisesRegex(ValueError, "did you mean"):
            finder.certificate(YEAR, "apsis", "moooon", observer="earth")

    def test_a_window_wider_than_the_width(self):
        text = command("find", "--kind", "apsis", "--target", "earth", "--observer", "sun", "--width", "60", YEAR)
        finder.Windows.of_text(text)
        with self.assertRaisesRegex(finder.WrongReport, "wider than the width"):
            finder.Windows.of_text(text.replace("width 60", "width 2"))


if __name__ == "__main__":
    unittest.main()

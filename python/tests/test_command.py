"""The command `python -m finder`: its words, its refusals, its output and its progress."""

import contextlib
import io
import json
import os
import pty
import re
import subprocess
import sys
import unittest

import finder
from finder import Group
from finder.commands.dispatch import OF_PROGRAM, WORDS, main
from tests.almanacs import has
from tests.common import PROGRAM, TOP, YEAR, InFolder, of_the_whole, sample, split_year, stand_in

SEASONS = ("almanac", "2000", str(YEAR), "--only", "seasons")


def run(*words):
    """The status of a command that ends itself, and what it wrote to both outputs."""
    out, err = io.TextIOWrapper(io.BytesIO(), "utf-8"), io.StringIO()
    with contextlib.redirect_stdout(out), contextlib.redirect_stderr(err):
        try:
            status = main(words)
        except SystemExit as error:
            status = error.code
        out.flush()
    return status, out.buffer.getvalue().decode(), err.getvalue()


def started(*words, **options):
    """A command as it is started from outside."""
    environment = {**os.environ, "PYTHONPATH": str(TOP / "python"), "FINDER": str(PROGRAM)}
    return subprocess.run([sys.executable, "-m", "finder", *words], env=environment, check=False, **options)


class Words(InFolder):
    """Words, and what is wrong with them."""

    def test_help(self):
        status, out, _ = run("--help")
        self.assertEqual(status, 0)
        self.assertIn("almanac", out)
        status, out, _ = run("almanac", "--help")
        self.assertEqual(status, 0)
        for word in ("--format", "--scale", "--tz", "--jobs", "--only", *(group.value for group in Group)):
            self.assertIn(word, out.replace("moon-\n", "moon-").replace("  ", ""))

    def test_wrong_words(self):
        rows = {
            ("2000", "--only", "eclipse"): "no group is 'eclipse': did you mean 'eclipses'? There are moon, ",
            ("2000", "--only", "moon,seson"): "no group is 'seson': did you mean 'seasons'?",
            ("2000", "--jobs", "0"): "'0' is no number of searches",
            ("2000", "--tz", "Europe/Berln"): "no time zone is 'Europe/Berln': did you mean 'Europe/Berlin'?",
            ("2000", "--tz", "Europe/Berlin", "--scale", "tt"): "leave --tz out",
            ("2000-1999",): "'2000-1999' are no years from 1 to 9998 in order",
            ("MM",): "'MM' is no year: write 2026",
            ("1969", "--scale", "utc"): "write --scale tt",
            ("1969", "--format", "ics"): "choose another --format",
            ("2000", "--format", "htm"): "'html'",
        }
        for words, said in rows.items():
            with self.subTest(words):
                status, out, err = run("almanac", *words[:1], "no-file", *words[1:])
                self.assertEqual((status, out), (2, ""))
                self.assertIn(said, err)

    @unittest.skipUnless(has("erfa"), "no erfa")
    def test_refusals(self):
        header, files = split_year(self.folder)
        turned = self.folder / "turned.405"
        turned.write_bytes(files[1].read_bytes() + files[0].read_bytes())
        rows = {
            ("2001", str(YEAR)): "finder: the files hold 1999-12-24T00:00:00 to 2001-01-11T00:00:00 (TDB), and not ",
            ("2000", "no-file"): "finder: [Errno 2] No such file or directory: 'no-file'",
            ("2000", str(files[0])): f"finder: {files[0]} has blocks and no header: name the header of its series too",
            ("2000", str(header), str(turned)): "finder: the files hold 1999-12-24T00:00:00 to 2000-10-07T00:00:00 (TDB)",
            ("2000", str(YEAR), "--only", "days"): "finder: the group days is of a place: name one",
            ("2000", str(YEAR), "--program", "/no/finder"): "finder: ",
        }
        for words, said in rows.items():
            with self.subTest(words):
                status, out, err = run("almanac", *words)
                self.assertEqual((status, out), (1, ""))
                self.assertTrue(err.startswith(said), err)


@unittest.skipUnless(has("erfa"), "no erfa")
class Output(InFolder):
    """What is printed."""

    def test_forms_scales_and_zones(self):
        status, out, err = run(*SEASONS)
        self.assertEqual((status, err), (0, ""))
        self.assertEqual(re.findall("  (March|September) equinox  ", out), ["March", "September"])
        _, out, _ = run(*SEASONS, "--format", "json", "--scale", "tt")
        self.assertEqual(json.loads(out)["events"][1]["seen"][:16], "2000-03-20T07:36")  # 07:35 of UT
        _, out, _ = run(*SEASONS, "--format", "csv", "--tz", "Asia/Tokyo", "--jobs", "2")
        self.assertIn("2000-03-20T16:35", out)
        # (the same words make the same bytes)
        self.assertEqual(run(*SEASONS, "--format", "ics"), run(*SEASONS, "--format", "ics"))

    @of_the_whole
    def test_no_room_for_it(self):
        for words in sample((SEASONS, ("--help",), ("almanac", "--help")), 2):
            with open("/dev/full", "wb") as full:
                done = started(*words, stdout=full, stderr=subprocess.PIPE)
            self.assertEqual((done.returncode, done.stderr), (3, b"finder: standard output: No space left on device\n"))

    def test_no_output_at_all(self):
        words = ["sh", "-c", 'exec "$0" -m finder "$@" >&-', sys.executable, *SEASONS]
        environment = {**os.environ, "PYTHONPATH": str(TOP / "python"), "FINDER": str(PROGRAM)}
        done = subprocess.run(words, env=environment, check=False, stderr=subprocess.PIPE)
        self.assertEqual((done.returncode, done.stderr), (3, b"finder: standard output: Bad file descriptor\n"))

    def test_progress_on_a_terminal(self):
        slow = stand_in(self.folder, f'[ "$1" = check ] || sleep 0.3\nexec {PROGRAM} "$@"')
        mine, theirs = pty.openpty()
        done = started(*SEASONS, "--program", str(slow), stdout=subprocess.PIPE, stderr=theirs)
        os.close(theirs)
        shown = b""
        with contextlib.suppress(OSError):
            while piece := os.read(mine, 4_096):
                shown += piece
        os.close(mine)
        lines = shown.decode().split("\r")
        self.assertEqual(done.returncode, 0)
        self.assertRegex(lines[1], r"^finder: [12] of 3 searches\x1b\[K$")
        self.assertEqual(lines[-1], "\x1b[K")

    def test_no_erfa(self):
        (self.folder / "erfa.py").write_text("raise ImportError('none here')\n")
        environment = {**os.environ, "PYTHONPATH": f"{self.folder}:{TOP / 'python'}"}
        words = [sys.executable, "-m", "finder", *SEASONS]
        done = subprocess.run(words, env=environment, check=False, capture_output=True, text=True)
        self.assertEqual((done.returncode, done.stdout), (1, ""))
        self.assertIn("python3-erfa", done.stderr)
        self.assertEqual(finder.NoErfa.__bases__, (ImportError,))


class OfTheProgram(InFolder):
    """The words of the program go to it; what Python makes of its reports."""

    ASKED = ("find", "--kind", "apsis", "--target", "earth", "--observer", "sun")

    @of_the_whole
    def test_words_go_to_the_program(self):
        for words in ((*self.ASKED, str(YEAR)), ("check", str(YEAR)), ("gen", "405", "2", "7"), ("find", "--kind", "x")):
            done = started(*words, capture_output=True)
            own = subprocess.run([PROGRAM, *words], capture_output=True, check=False)
            self.assertEqual((done.returncode, done.stdout, done.stderr), (own.returncode, own.stdout, own.stderr))

    @of_the_whole
    def test_help_of_each_word(self):
        for word in OF_PROGRAM:
            status, out, err = run(word, "--help")
            self.assertEqual((status, err), (0, ""))
            self.assertTrue(out.startswith(f"usage: python -m finder {word} "), out)
        _, out, _ = run("set", "-h")
        self.assertIn("--relation", out)
        self.assertNotIn("--dir", out)
        self.assertNotIn("  oppo ", out)
        for word in WORDS:
            status, out, err = run(word, "--help")
            self.assertEqual((status, err, bool(out)), (0, "", True))

    def test_words_that_are_none(self):
        for words, said in (
            (("fnd",), "finder: no word is 'fnd': did you mean 'find'?"),
            ((), "finder: a word is missing: `python -m finder --help` lists them"),
        ):
            self.assertEqual(run(*words), (2, "", f"{said}\n"))
        self.assertEqual(run("--version"), (0, f"finder {finder.__version__}\n", ""))

    def test_files_in_a_wrong_order(self):
        header, files = split_year(self.folder)
        words = [*self.ASKED, str(header), str(files[1]), str(files[0])]
        for more in ([], ["--format", "csv"]):
            done = started(*words, *more, capture_output=True)
            self.assertEqual((done.returncode, done.stdout), (1, b""))
            self.assertIn(b"ascp0.405 begins before", done.stderr)

    @unittest.skipUnless(has("pandas"), "no pandas")
    def test_forms(self):
        status, out, err = run(*self.ASKED, str(YEAR), "--format=csv")
        self.assertEqual((status, err), (0, ""))
        self.assertEqual(
            out.splitlines()[:2],
            [
                "kind,target,second,name,turn,certain,first,last,first_ms,last_ms",
                "apsis,earth,,perihelion,rise,True,2000-01-03T05:18:44.000,2000-01-03T05:18:44.000,148724000,148724000",
            ],
        )
        _, out, _ = run(*self.ASKED, "--format", "json", str(YEAR))
        self.assertEqual([row["name"] for row in json.loads(out)], ["perihelion", "aphelion", "perihelion"])
        report = self.folder / "report"
        report.write_bytes(started(*self.ASKED, str(YEAR), capture_output=True).stdout)
        _, out, _ = run("report", str(report), str(report))
        self.assertEqual(out.count("perihelion"), 4)
        status, out, err = run("report", str(report), "--format", "xml")
        self.assertEqual((status, out), (2, ""))
        report.write_text("no report\n")
        self.assertEqual(run("report", str(report))[0], 1)
        status, out, err = run(*self.ASKED, "--format", "csv", "no-file")
        self.assertEqual((status, out), (1, ""))
        self.assertIn("finder: read fault no-file\nfinder: likely: ", err)


if __name__ == "__main__":
    unittest.main()

"""Reports that are not whole are refused, each status is an exception, and a search can be stopped."""

import os
import pickle
import shutil
import signal
import subprocess
import sys
import threading
from fractions import Fraction

import finder
from tests.common import PROGRAM, REPORT, TOP, YEAR, InFolder, is_running, of_the_whole, stand_in, wait_for

LINE = "C 2000-05-28T15:55:49 2000-05-28T15:55:49 fall\n"
# A change of the report, by which it is none.
WRONG = {
    "a count that is wrong": ("certain 1", "certain 2"),
    "a count of undecided ones": ("undecided 0", "undecided 1"),
    "a count with a zero before it": ("certain 1", "certain 01"),
    "a window that is missing": (LINE, ""),
    "a window twice": (LINE, LINE + LINE),
    "a line that is cut off": ("undecided 0\n", "undecid"),
    "a last line that is cut off": ("undecided 0\n", "undecided 0"),
    "no last line": ("END certain 1 undecided 0\n", ""),
    "a line of no form": (LINE, LINE + "\n"),
    "a carriage return": ("fall\n", "fall\r\n"),
    "a turn of no name": ("fall", "down"),
    "a certain window without a turn": (" fall", ""),
    "an undecided window with a turn": ("C ", "U "),
    "no day": ("C 2000-05-28", "C 2000-02-30"),
    "a window that ends before it begins": ("C 2000-05-28T15:55:49", "C 2000-05-28T15:55:50"),
    "a window before the span": ("C 2000-05-28T15:55:49", "C 1999-12-24T00:00:00"),
    "a window after the span": ("2000-05-28T15:55:49 fall", "2001-01-11T00:00:01 fall"),
    "milliseconds in a report of seconds": ("49 fall", "49.000 fall"),
    "a direction that was not asked for": ("dir any", "dir rise"),
    "a kind in capitals": ("FIND conj", "FIND CONJ"),
    "another frame": ("frame ecl", "frame gal"),
    "no span": (" span", ""),
    "a span without times": ("2001-01-11T00:00:00\n", "1999-12-24T00:00:00\n"),
    "two reports": ("END certain 1 undecided 0\n", "END certain 1 undecided 0\n" + REPORT),
    "nothing": (REPORT, ""),
}
# A process that has begun before its caller knows of it, and the words of a search of two files.
SLOW = """
import subprocess, time
class Popen(subprocess.Popen):
    def __init__(self, *words, **options):
        super().__init__(*words, **options)
        time.sleep(0.5)
subprocess.Popen = Popen
"""
MOONS = "finder.apsides, ['a', 'b'], 'moon'"


class Reports(InFolder):
    def test_a_report_is_read_and_printed_again(self):
        self.assertEqual(finder.Windows.of_text(REPORT).text, REPORT)

    def test_what_is_no_report(self):
        for name, (old, new) in WRONG.items():
            with self.subTest(name):
                self.assertEqual(REPORT.count(old), 1)
                self.assertRaises(finder.WrongReport, finder.Windows.of_text, REPORT.replace(old, new))

    def test_a_report_of_another_request(self):
        (self.folder / "report").write_text(REPORT)
        program = stand_in(self.folder, f"cat {self.folder}/report")
        asked = {"observer": "earth", "frame": "ecl", "program": program}
        self.assertEqual(finder.conjunctions(YEAR, "jupiter", "saturn", **asked).text, REPORT)
        for change in ({"width": 2}, {"dir": "fall"}, {"tick": 1000}, {"frame": "eq"}, {"end": "2000-12-01"}):
            with self.assertRaises(finder.WrongReport):
                finder.conjunctions(YEAR, "jupiter", "saturn", **{**asked, **change})
        with self.assertRaises(finder.WrongReport):
            finder.occultations(YEAR, "jupiter", "saturn", (1, 2), **asked)


class Statuses(InFolder):
    def assert_refused(self, kind, status, line, call):
        with self.assertRaises(kind) as caught:
            call()
        self.assertEqual((caught.exception.status, caught.exception.line), (status, line))
        self.assertEqual(str(caught.exception), f"{line}\nlikely: {caught.exception.hint}")
        again = pickle.loads(pickle.dumps(caught.exception))
        self.assertEqual((type(again), again.status, again.line), (kind, status, line))
        self.assertIsNone(getattr(again, "errno", None))
        return caught.exception

    def test_refusals_of_the_command(self):
        bad = self.assert_refused(
            finder.WordsRefused, 2, "finder: words: 63 BadValue second", lambda: finder.find(YEAR, "conj", "jupiter")
        )
        self.assertEqual((bad.number, bad.name, bad.detail), (63, "BadValue", "second"))
        half = self.folder / "half of a year"
        half.write_text("".join(YEAR.read_text().splitlines(keepends=True)[:100]))
        fault = self.assert_refused(
            finder.FileFault, 3, f"finder: file {half} line 101: 36 Truncated", lambda: finder.check(half)
        )
        self.assertEqual((fault.file, fault.line_number, fault.number, fault.name), (str(half), 101, 36, "Truncated"))
        self.assert_refused(finder.ReadFailed, 4, "finder: read fault none", lambda: finder.check("none"))
        self.assert_refused(
            finder.SpanRefused,
            6,
            "finder: span: -734400 32443201 not within -734400 32443200",
            lambda: finder.apsides(YEAR, "earth", observer="sun", start=-734_400, end=32_443_201),
        )
        same = self.assert_refused(
            finder.EventRefused,
            7,
            "finder: event: 51 SameBody",
            lambda: finder.conjunctions(YEAR, "mars", "mars", observer="earth"),
        )
        self.assertIsInstance(same, ValueError)

    def test_statuses_that_are_rare(self):
        for status, kind, base, line in (
            (5, finder.WriteFailed, OSError, "finder: write fault"),
            (8, finder.OutOfMemory, MemoryError, "finder: out of memory"),
            (9, finder.TooManyLeaves, ValueError, "finder: more than 33554432 leaves"),
            (13, finder.FinderError, finder.FinderError, "another"),
        ):
            program = stand_in(self.folder, f"echo '{line}' >&2\nexit {status}")
            error = self.assert_refused(kind, status, line, lambda: finder.check(YEAR, program=program))
            self.assertIsInstance(error, base)

    def test_no_program(self):
        for program in (self.folder / "none", self.folder, stand_in(self.folder, "echo 'finder: none' >&2; exit 70")):
            self.assertRaises(finder.NoProgram, finder.check, YEAR, program=program)
        os.environ["FINDER"] = str(self.folder / "none")
        self.assertRaises(finder.NoProgram, finder.check, YEAR)
        self.assertEqual(finder.check(YEAR, program=PROGRAM).blocks, 12)

    def test_where_the_program_is_found(self):
        from finder.spans import find_program

        del os.environ["FINDER"]
        self.addCleanup(os.environ.__setitem__, "FINDER", str(PROGRAM))
        self.assertEqual(find_program(), str(TOP / "finder"))
        self.assertEqual(find_program("a"), "a")
        shutil.copytree(TOP / "python/finder", self.folder / "finder", ignore=shutil.ignore_patterns("__pycache__"))
        shutil.copy(TOP / "VERSION", self.folder / "finder")
        tried = f"import sys; sys.path.insert(0, {str(self.folder)!r}); from finder import spans as s; print(s.find_program())"
        (self.folder / "path").mkdir()
        found = stand_in(self.folder / "path", "exit 1")
        for path, said in ((str(found.parent), f"{found}\n"), ("/nonexistent", "")):
            done = subprocess.run(
                [sys.executable, "-c", tried], env={"PATH": path}, capture_output=True, text=True, check=False
            )
            self.assertEqual(done.stdout, said)


class Stops(InFolder):
    def setUp(self):
        super().setUp()
        self.number = self.folder / "number"
        self.slow = stand_in(
            self.folder, f"echo $$ >{self.number}.new; mv {self.number}.new {self.number}; exec sleep 600"
        )

    def process(self):
        self.assertTrue(wait_for(self.number.exists))
        return int(self.number.read_text())

    def test_a_time_that_is_over(self):
        with self.assertRaises(finder.TimedOut) as caught:
            finder.check(YEAR, program=self.slow, timeout=3)
        self.assertIsInstance(caught.exception, TimeoutError)
        self.assertTrue(wait_for(lambda: not is_running(self.process())))

    def test_what_is_no_number_of_seconds(self):
        for timeout in ("5", float("nan"), True):
            with self.assertRaisesRegex(TypeError, "timeout is a number of seconds"):
                finder.check(YEAR, program=self.slow, timeout=timeout)

    def test_more_seconds_than_the_clock_holds(self):
        for timeout in (10**400, Fraction(10**400), 2 * int(sys.float_info.max)):
            with self.assertRaises(ValueError) as caught:
                finder.check(YEAR, timeout=timeout)
            self.assertEqual(
                str(caught.exception),
                "timeout has more seconds than the clock holds: leave it out, to wait without end",
            )
        for timeout in (10**300, 1e300, float("inf")):
            self.assertEqual(finder.check(YEAR, timeout=timeout).blocks, 12)

    def test_the_command_itself_is_ended(self):
        pipe = self.folder / "pipe"
        os.mkfifo(pipe)
        self.assertRaises(finder.TimedOut, finder.check, pipe, timeout=0.2)

    @of_the_whole
    def test_an_interrupted_caller(self):
        for call in ("finder.check('a')", f"{SLOW}finder.check('a')", f"finder.over_files({MOONS}, jobs=2)"):
            self.number.unlink(missing_ok=True)
            caller = subprocess.Popen(
                [sys.executable, "-c", f"import finder\n{call}"],
                stderr=subprocess.PIPE,
                env={**os.environ, "FINDER": str(self.slow), "PYTHONPATH": str(TOP / "python")},
                # (what runs in the background of a shell ignores the signal, and so would its children)
                preexec_fn=lambda: signal.signal(signal.SIGINT, signal.SIG_DFL),
            )
            process = self.process()
            self.assertTrue(is_running(process))
            caller.send_signal(signal.SIGINT)
            _, said = caller.communicate(timeout=120)
            self.assertIn(b"KeyboardInterrupt", said)
            self.assertTrue(wait_for(lambda: not is_running(process)))

    def test_a_process_that_is_killed(self):
        def kill():
            os.kill(self.process(), signal.SIGTERM)

        killer = threading.Thread(target=kill)
        killer.start()
        with self.assertRaises(finder.Interrupted) as caught:
            finder.check(YEAR, program=self.slow)
        killer.join()
        self.assertEqual(caught.exception.status, -signal.SIGTERM)

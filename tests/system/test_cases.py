"""How stored cases are read and written, and what is seen of a run that does not agree with its case."""

import os
import tempfile
import unittest
from pathlib import Path

from tests.support.case_runs import Answer, CaseRunner, command_lines, differences
from tests.support.records import CASES, Case, CasesError, cases_of, listed_counts, text_of_cases
from tests.support.settings import SHIPPED

TEXT = b"""text one 3
a
b
case first
word 5
check
file one 1
n
shelf 100 7 9
out-sink 4096 16
status 3
out 0

err 5
no
no
end
case second
status 0
end
"""
# Changes of that text, each of which leaves no form of cases: what is replaced, and by what.
CHANGES = (
    (b"text one 3", b"text one 4"),
    (b"text one 3", b"text one -1"),
    (b"text one 3", b"text one"),
    (b"text one 3", b"texts one 3"),
    (b"file one 1", b"file two 1"),
    (b"word 5", b"word five"),
    (b"word 5", b"sword 5"),
    (b"shelf 100 7 9", b"shelf 100 x"),
    (b"file one 1\nn\n", b"file one 1\nn\nfile one 1\nn\n"),
    (b"case first\n", b""),
    (b"status 3\n", b""),
    (b"status 0\nend\n", b"status 0\n"),
    (b"status 0\nend\n", b"status 0\nend"),
)


class Reading(unittest.TestCase):
    """The form of cases."""

    def test_a_text(self):
        first, second = cases_of(TEXT)
        self.assertEqual((first.name, first.words, first.files), ("first", [b"check"], {b"n": b"a\nb"}))
        self.assertEqual(first.devices, {"shelf": "100 7 9", "out-sink": "4096 16"})
        self.assertEqual((first.status, first.out, first.err), (3, b"", b"no\nno"))
        self.assertEqual(second, Case("second", status=0))

    def test_what_is_no_text(self):
        for old, new in CHANGES:
            with self.subTest(old=old, new=new):
                self.assertEqual(TEXT.count(old), 1)
                with self.assertRaises(CasesError):
                    list(cases_of(TEXT.replace(old, new)))


class Writing(unittest.TestCase):
    """The form of cases, as it is written."""

    def test_each_file_is_written_as_it_stands(self):
        for name in listed_counts():
            with self.subTest(name=name):
                text = (CASES / name).read_bytes()
                self.assertEqual(text_of_cases(cases_of(text)), text)

    def test_what_is_written_is_read_again(self):
        words, files = ["ä".encode(), b"", b"--x=\n"], {b"": b"\0\n", b"two words": b""}
        case = Case("one", words, files, {"shelf": "7 1"}, 5, b"", b"end\n")
        self.assertEqual(list(cases_of(text_of_cases([case, Case("other", status=0)]))), [case, Case("other", status=0)])


class Runs(unittest.TestCase):
    """Runs of the shipped program."""

    def setUp(self):
        place = tempfile.TemporaryDirectory()
        self.addCleanup(place.cleanup)
        self.folder = Path(place.name)
        self.runner = CaseRunner(SHIPPED, None)

    def faults(self, case):
        """What differs in each run of a case."""
        return list(self.runner.run(case, self.folder))

    def test_a_run_agrees(self):
        case = Case("", [b"check", b"n"], {}, {}, 4, b"", b"finder: read fault n\n")
        self.assertEqual(self.faults(case), [[]])

    def test_each_difference_is_seen(self):
        right = Answer(4, b"one\ntwo\n", b"three\n")
        case = Case("", [], {}, {}, right.status, right.out, right.err)
        self.assertEqual(differences(case, right), [])
        for answer, said in (
            (Answer(0, right.out, right.err), "status 0, where 4 is right"),
            (Answer(4, b"one\nTwo\n", right.err), r"output, line 2: 'Two\n', where 'two\n' is right"),
            (Answer(4, b"one\ntwo\nx", right.err), r"output, line 3: 'x', where '' is right"),
            (Answer(4, b"one\ntwo", right.err), r"output, line 2: 'two', where 'two\n' is right"),
            (Answer(4, right.out, b""), r"error output, line 1: '', where 'three\n' is right"),
        ):
            self.assertEqual(differences(case, answer), [said])

    def test_a_program_that_does_nothing_differs(self):
        self.runner = CaseRunner(Path("/bin/true"), None)
        case = Case("", [b"find", b"n"], {b"n": b""}, {}, 2, b"", b"no\n")
        faults = self.faults(case)
        self.assertEqual(len(faults), 5)
        self.assertEqual(faults[1][:2], ["finder find --workers=1 n", "status 0, where 2 is right"])

    def test_what_is_no_program_differs(self):
        self.runner = CaseRunner(self.folder, None)
        case = Case("", [b"check"], status=2)
        self.assertEqual(self.faults(case), [["finder check", "it cannot be started: Permission denied"]])

    def test_workers(self):
        words = [[word.decode() for word in line] for line in command_lines(Case("", [b"gen", b"x"]))]
        self.assertEqual(words, [["gen", "x"], *(["gen", f"--workers={count}", "x"] for count in (1, 2, 7, 64))])
        few = [words[1] for words in command_lines(Case("", [b"gen", b"x"]), (7,))]
        self.assertEqual(few, [b"x", b"--workers=7"])
        for single in ([b"check", b"x"], [b"find", b"--workers", b"2"], [b"find", b"--workers=2"], []):
            self.assertEqual(list(command_lines(Case("", single))), [single])

    def test_a_program_that_does_not_end_is_ended(self):
        sleeper = self.folder / "sleeper"
        sleeper.write_text("#!/bin/sh\nexec sleep 60\n", "ascii")
        os.chmod(sleeper, 0o755)
        self.runner = CaseRunner(sleeper, None, seconds=1)
        self.assertEqual(self.faults(Case("", [b"check"], status=0)), [["finder check", "no end after 1 seconds"]])

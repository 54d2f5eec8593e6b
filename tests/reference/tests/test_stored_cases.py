"""A sample of the stored cases, or all of them, is answered as it is stored, and what is not is named."""

from __future__ import annotations

import contextlib
import io
import unittest
from dataclasses import replace
from unittest import mock

from tests.reference import stored_cases
from tests.reference.stored_cases import exact_answer, main, sample_of
from tests.support.case_runs import differences
from tests.support.records import Case, listed_counts, read_cases
from tests.support.settings import IS_WHOLE

WORDS = [b"scalar", b"--quad=1,0,-100", b"--from=0", b"--to=50"]
OUTPUT = b"SCALAR quad 1,0,-100 dir any width 1 depth 40 cut half span 0 50\nC 10 10 rise\nEND certain 1 undecided 0\n"


class Cases(unittest.TestCase):
    """The sample, by a fixed rule, or all cases if the whole is run."""

    def test_the_cases(self) -> None:
        said = io.StringIO()
        words = [] if IS_WHOLE else ["--sample"]
        with contextlib.redirect_stdout(said):
            status = main(words)
        self.assertEqual(status, 0, said.getvalue())
        self.assertEqual(said.getvalue().count("cases are answered as they are stored"), len(listed_counts()))

    def test_each_file_and_devices_that_fail_are_in_the_sample(self) -> None:
        chosen = {name: sample_of(read_cases(name)) for name in listed_counts()}
        self.assertTrue(all(chosen.values()))
        self.assertTrue(any(case.devices for case in chosen["failing.cases"]))
        self.assertGreater(sum(map(len, chosen.values())), 100)


class Differences(unittest.TestCase):
    """A case that is answered otherwise is named."""

    case = Case("turn", WORDS, {}, {}, 0, OUTPUT, b"")

    def test_a_case_that_is_answered_as_it_is_stored(self) -> None:
        self.assertEqual(differences(self.case, exact_answer(self.case)), [])

    def test_each_change_of_a_case_is_a_difference(self) -> None:
        rows = [
            (replace(self.case, status=3), "status 0, where 3 is right"),
            (replace(self.case, out=OUTPUT.replace(b"10 10", b"10 11")), "output, line 2: 'C 10 10 rise"),
            (replace(self.case, out=OUTPUT + b"x"), "output, line 4: '', where 'x' is right"),
            (replace(self.case, err=b"finder: write fault\n"), "error output, line 1: '', where"),
            (replace(self.case, devices={"out-sink": "10 10"}), "status 5, where 0 is right"),
        ]
        for case, difference in rows:
            found = differences(case, exact_answer(case))
            self.assertTrue(found[0].startswith(difference), found)

    def test_it_is_printed_by_its_name(self) -> None:
        said = io.StringIO()
        wrong = [self.case, replace(self.case, name="other", status=7)]
        with mock.patch.object(stored_cases, "read_cases", return_value=wrong), contextlib.redirect_stdout(said):
            status = main(["some.cases", "--processes", "1"])
        self.assertEqual(status, 1)
        self.assertIn("some.cases: other: status 0, where 7 is right\n", said.getvalue())
        self.assertIn("some.cases: 1 of 2 cases are answered as they are stored\n", said.getvalue())

    def test_files_that_are_no_cases(self) -> None:
        with contextlib.redirect_stderr(io.StringIO()) as said:
            self.assertEqual(main(["missing.cases"]), 1)
        self.assertRegex(said.getvalue(), "^stored_cases: .*not in the table")


if __name__ == "__main__":
    unittest.main()

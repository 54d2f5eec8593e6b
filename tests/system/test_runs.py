"""What a run says of a planted bug that no contract refuses."""

import unittest

from dev.sources import planting
from tests.edits import runs

TEST = planting.Edit("x.edit", "gf_find", (), (), ("finder_tests", "calls::one"))
TABLE = planting.Edit("x.edit", "eph_model", (), (), ("value_cases", "granules.rows"))


class Runs(unittest.TestCase):
    """Only a run that ends, and fails, refuses an edit."""

    def test_a_test_that_fails(self) -> None:
        said = "tests: 2\ntest calls::other ... ok\ntest calls::one ... FAILED\n    checked: exit=101\n"
        self.assertEqual(runs.why_not_failed(TEST, said), "")

    def test_a_test_that_passes(self) -> None:
        said = "tests: 2\ntest calls::other ... FAILED\n    checked: exit=101\ntest calls::one ... ok\n"
        self.assertEqual(runs.why_not_failed(TEST, said), "the test ends with ok")

    def test_a_test_that_does_not_end(self) -> None:
        said = "test calls::one ... FAILED\n    checked: no-answer: the program did not end within the time limit\n"
        self.assertEqual(runs.why_not_failed(TEST, said), "it did not end in time")

    def test_a_crate_that_is_not_built(self) -> None:
        why = runs.why_not_failed(TEST, "src/searched.rt:5:1: error[mismatched-types]: no\n")
        self.assertTrue(why.startswith("the test does not run: "))

    def test_a_program_that_ends_well(self) -> None:
        said = "granules.rows: 85 rows, 0 differ\nrun=ended status=0 runners=1 proved=no\n"
        self.assertEqual(runs.why_not_failed(TABLE, said), "the program ends with status 0")

    def test_a_program_whose_rows_differ(self) -> None:
        said = "differs: built a 1 0 0\ngranules.rows: 2 rows, 1 differ\nrun=ended status=1 runners=1 proved=no\n"
        self.assertEqual(runs.why_not_failed(TABLE, said), "")

    def test_a_program_that_is_not_built(self) -> None:
        why = runs.why_not_failed(TABLE, "src/main.rt:5:1: error[mismatched-types]: no\nrun=none proved=no\n")
        self.assertTrue(why.startswith("the program does not run: "))


if __name__ == "__main__":
    unittest.main()

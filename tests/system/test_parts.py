"""What ./test makes of how a part ended, and of names."""

import unittest

from tests.support.parts import Needs, Outcome, Part, chosen, outcome_of, outcome_of_lint, total

# What a part printed, its exit status, and what came of it: how many checks passed, failed and were skipped.
ENDS = (
    ("ok 1 - a\nok 2 - b\n1..2\n", 0, (2, 0, 0)),
    ("1..2\nok\nok\n", 0, (2, 0, 0)),
    ("told\nok 1 - a\n# told\n1..1\n", 0, (1, 0, 0)),
    ("ok 1 - a # SKIP there is no c here\nok 2\n1..2\n", 0, (1, 0, 1)),
    ("1..0 # SKIP there is no c here\n", 0, (0, 0, 1)),
    ("ok 1 - a\nnot ok 2 - b\n# why\n1..2\n", 1, (1, 1, 0)),
    ("not ok 1 - a\nok 2 - b # SKIP c\n1..2\n", 1, (0, 1, 1)),
    ("ok 1 - number \\# 1\n1..1\n", 0, (1, 0, 0)),
    # What may not pass: an end without the number of checks or with another one, a status that says otherwise, and no check.
    ("", 0, (0, 1, 0)),
    ("all is well\n", 0, (0, 1, 0)),
    ("ok 1 - a\n", 0, (1, 1, 0)),
    ("ok 1 - a\n1..2\n", 0, (1, 1, 0)),
    ("ok 1 - a\nok 2 - b\n1..1\n", 0, (2, 1, 0)),
    ("ok 1 - a\n1..1\n", 1, (1, 1, 0)),
    ("ok 1 - a\n1..1\n", -11, (1, 1, 0)),
    ("not ok 1 - a\n1..1\n", 0, (0, 1, 0)),
    ("1..0\n", 0, (0, 1, 0)),
)
PARTS = (
    Part("first", "", "one"),
    Part("cases/one", "", "two", Needs.PROGRAM),
    Part("cases/other", "", "dev/rooms dev/cov*", Needs.PROGRAM),
)


class Parts(unittest.TestCase):
    """The counts of parts, and their names."""

    def test_ends(self) -> None:
        for text, status, counts in ENDS:
            with self.subTest(text=text, status=status):
                outcome = outcome_of("a", status, text, 1.5)
                self.assertEqual((outcome.passed, outcome.failed, outcome.skipped), counts)

    def test_what_failed_is_shown(self) -> None:
        text = "ok 1 - a\nnot ok 2 - b\n# why\n1..2\n"
        self.assertEqual(outcome_of("a", 1, text, 0).lines, ("not ok 2 - b", "# why"))
        for text, status, why in (
            ("not ok 1 - a\n1..1", 0, "it ended with status 0, and 1 of its checks failed"),
            ("ok 1 - a\n1..1", 1, "it ended with status 1, and none of its checks failed"),
            ("ok 1 - a\n1..3", 0, "it planned 3 checks, and made 1"),
            ("1..0", 0, "it checked nothing"),
            ("well", 7, "it ended with status 7, and not with the number of its checks"),
        ):
            self.assertEqual(outcome_of("a", status, text, 0).lines[-1], why)

    def test_what_is_skipped_is_shown(self) -> None:
        said = "other\nok 1 - a # SKIP c\nok 2 - b # SKIP c\nok 3 - d # SKIP e\n1..3\n"
        self.assertEqual(outcome_of("a", 0, said, 0).lines, ("2 skipped, as c: a b", "d skipped, as e"))
        said = "ok 1 - a # SKIP this is a sample\nok 2 - b # SKIP this is a sample\n1..2\n"
        self.assertEqual(outcome_of("a", 0, said, 0).lines, ("2 skipped, as this is a sample",))

    def test_of_many_lines_the_first_and_the_last_are_shown(self) -> None:
        said = "".join(f"line {number}\n" for number in range(100)) + "not ok 1 - a\n1..1\n"
        lines = outcome_of("a", 1, said, 0).lines
        self.assertEqual((lines[0], lines[30], lines[-1], len(lines)), ("line 0", "(41 more lines)", "not ok 1 - a", 61))

    def test_a_lint_is_one_check(self) -> None:
        right, wrong = outcome_of_lint("a", 0, "1000 names\n", 0), outcome_of_lint("a", 1, "two\nwrong\n", 0)
        self.assertEqual((right.counts(), right.lines), ("1 passed, 0 failed", ()))
        self.assertEqual((wrong.counts(), wrong.lines), ("0 passed, 1 failed", ("two", "wrong", "it ended with status 1")))

    def test_sums(self) -> None:
        sums = total([Outcome("a", 1, 2, 3), Outcome("b", 10, 20, 30)])
        self.assertEqual(sums.counts(), "11 passed, 22 failed, 33 skipped")
        self.assertEqual(total([Outcome("a", 1)]).counts(), "1 passed, 0 failed")

    def test_names(self) -> None:
        def names(*given: str) -> "list[str]":
            return [part.name for part in chosen(PARTS, list(given))]

        self.assertEqual(names(), ["first", "cases/one", "cases/other"])
        self.assertEqual(names("cases"), ["cases/one", "cases/other"])
        self.assertEqual(names("cases/other", "first"), ["first", "cases/other"])
        with self.assertRaisesRegex(LookupError, "no part cases/others"):
            names("first", "cases/others")

    def test_a_star_in_a_command_names_files(self) -> None:
        self.assertEqual(PARTS[2].words(), ["dev/rooms", "dev/covers"])


if __name__ == "__main__":
    unittest.main()

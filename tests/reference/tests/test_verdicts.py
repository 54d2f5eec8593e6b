"""The verdict of a node from what is found there, by the four cases of the definitions; cuts and windows."""

from __future__ import annotations

import unittest
from typing import Any, NamedTuple

from tests.reference.intervals import Sign
from tests.reference.searches import Leaf, TooManyLeaves, Window, cut_by_rule, leaves_of, windows_of
from tests.reference.verdicts import Criteria, Evidence, Node, Verdict, verdict_of

YES, NO, OPEN = Sign.YES, Sign.NO, Sign.OPEN
RISING = Evidence(
    crosses=False,
    at_first=NO,
    at_last=YES,
    over=OPEN,
    may_grow=True,
    may_shrink=False,
    conditions_hold=True,
    a_condition_fails=False,
)
"""A node over which the function rises from below 0 to above it."""
WIDE, SINGLE = Node(0, 100, 3), Node(0, 1, 3)
ANY = Criteria("any", 100, 40)


class Row(NamedTuple):
    """What is otherwise than in a node that rises, and the verdict."""

    node: Node
    changes: dict[str, Any]
    criteria: Criteria
    verdict: Verdict


ROWS = [
    Row(WIDE, {}, ANY, Verdict.RISE),
    Row(WIDE, {"at_first": YES, "at_last": NO, "may_grow": False, "may_shrink": True}, ANY, Verdict.FALL),
    # Clear: one sign over it; no turn; a turn or steps against the wanted direction; a condition that fails.
    Row(WIDE, {"over": YES, "at_last": OPEN}, ANY, Verdict.CLEAR),
    Row(WIDE, {"at_first": YES}, ANY, Verdict.CLEAR),
    Row(WIDE, {}, Criteria("fall", 100, 40), Verdict.CLEAR),
    Row(WIDE, {"at_first": OPEN}, Criteria("fall", 100, 40), Verdict.CLEAR),
    Row(WIDE, {"conditions_hold": False, "a_condition_fails": True}, ANY, Verdict.CLEAR),
    Row(SINGLE, {"at_last": NO, "may_shrink": True}, ANY, Verdict.CLEAR),
    # Neither clear nor one event: it may turn twice, an end is not known, a condition is open, or it is too wide.
    Row(WIDE, {"may_shrink": True}, ANY, Verdict.UNDECIDED),
    Row(WIDE, {"at_first": YES, "may_shrink": True}, ANY, Verdict.UNDECIDED),
    Row(WIDE, {"at_first": OPEN}, ANY, Verdict.UNDECIDED),
    Row(WIDE, {"conditions_hold": False}, ANY, Verdict.UNDECIDED),
    Row(WIDE, {"may_shrink": True}, Criteria("any", 99, 40), Verdict.SPLIT),
    Row(WIDE, {}, Criteria("any", 99, 40), Verdict.SPLIT),
    Row(WIDE, {}, Criteria("any", 99, 3), Verdict.UNDECIDED),
    # A border: a wider node is split whatever is asked, and one of a tick is judged by its ends and conditions.
    Row(WIDE, {"crosses": True}, Criteria("any", 1000, 0), Verdict.SPLIT),
    Row(SINGLE, {"crosses": True, "may_shrink": True}, ANY, Verdict.RISE),
    Row(SINGLE, {"crosses": True, "may_shrink": True, "at_last": OPEN}, ANY, Verdict.UNDECIDED),
    Row(SINGLE, {"crosses": True, "may_shrink": True, "a_condition_fails": True}, ANY, Verdict.CLEAR),
]


class Verdicts(unittest.TestCase):
    """The first case that applies."""

    def test_rows(self) -> None:
        for row in ROWS:
            with self.subTest(row=row):
                self.assertIs(verdict_of(row.node, RISING._replace(**row.changes), row.criteria), row.verdict)


class Cuts(unittest.TestCase):
    """Cuts by a rule, by the worked values of the definitions."""

    def test_cuts(self) -> None:
        rows = {("half", 0, 8): 4, ("third", 0, 8): 2, ("third", 4, 6): 5, ("half", -5, 0): -3, ("third", -5, 0): -4}
        for (rule, first, last), at in rows.items():
            self.assertEqual(cut_by_rule(rule, Node(first, last, 1)), (Node(first, at, 2), Node(at, last, 2)))


class Halving:
    """A judge that splits all nodes that are wider than a tick."""

    def verdict(self, node: Node) -> Verdict:
        """Whether it is wider."""
        return Verdict.SPLIT if node.width > 1 else Verdict.CLEAR

    def may_be_cut(self, node: Node) -> bool:
        """Whether it is wider."""
        return node.width > 1

    def cut(self, node: Node) -> tuple[Node, Node]:
        """In the middle."""
        return cut_by_rule("half", node)


class LeavesAndWindows(unittest.TestCase):
    """Leaves from left to right, and the windows of leaves."""

    def test_the_limit_of_leaves(self) -> None:
        leaves = leaves_of(Halving(), Node(0, 5, 0), 5)
        self.assertEqual([leaf.node.first for leaf in leaves], [0, 1, 2, 3, 4])
        with self.assertRaises(TooManyLeaves):
            leaves_of(Halving(), Node(0, 5, 0), 4)

    def test_windows(self) -> None:
        marks = "UUNURFUU"
        leaves = [Leaf(Node(at, at + 1, 0), Verdict(mark)) for at, mark in enumerate(marks)]
        undecided = [Window(first, last, Verdict.UNDECIDED) for first, last in ((1, 2), (4, 4), (7, 8))]
        turns = [Window(5, 5, Verdict.RISE), Window(6, 6, Verdict.FALL)]
        self.assertEqual(windows_of(leaves), [*undecided[:2], *turns, undecided[2]])


if __name__ == "__main__":
    unittest.main()

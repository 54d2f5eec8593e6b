"""The verdict of a node, from what is found there."""

from __future__ import annotations

from enum import Enum
from typing import NamedTuple

from .intervals import Sign


class Verdict(Enum):
    """What is known of a node, by the letter that marks a leaf in a certificate. A node that is split has no mark."""

    CLEAR = "N"
    RISE = "R"
    FALL = "F"
    UNDECIDED = "U"
    SPLIT = ""


class Node(NamedTuple):
    """The ticks after `first` and up to `last`, and how many cuts by the rule lead to them."""

    first: int
    last: int
    depth: int

    @property
    def width(self) -> int:
        """How many ticks it has."""
        return self.last - self.first


class Evidence(NamedTuple):
    """What is found at a node.

    Whether it crosses: a border lies in it. The signs of the function at its ends and over it. Whether the function may
    grow or shrink from a tick to the next. Nothing is known of the function over a node that crosses.
    """

    crosses: bool
    at_first: Sign
    at_last: Sign
    over: Sign
    may_grow: bool
    may_shrink: bool
    conditions_hold: bool
    a_condition_fails: bool

    @property
    def turn(self) -> Verdict:
        """The turn between both ends: from no to yes a rise, from yes to no a fall, else none."""
        turns = {(Sign.NO, Sign.YES): Verdict.RISE, (Sign.YES, Sign.NO): Verdict.FALL}
        return turns.get((self.at_first, self.at_last), Verdict.CLEAR)

    @property
    def ends_are_known(self) -> bool:
        """Whether the signs at both ends are."""
        return Sign.OPEN not in (self.at_first, self.at_last)


class Criteria(NamedTuple):
    """Which turns are wanted (`any`, `rise` or `fall`), and the width and the depth down to which nodes are split."""

    direction: str
    width: int
    depth: int

    def wants(self, turn: Verdict) -> bool:
        """Whether a turn is in the wanted direction."""
        return self.direction in ("any", turn.name.lower())


def _is_clear(evidence: Evidence, criteria: Criteria, turns_at_most_once: bool) -> bool:
    """Whether no event can be in a node: one of these holds.

    The function has one sign over it. It turns at most once, and its ends have one sign or differ against the wanted
    direction. It leads against the wanted direction all along. Or a condition fails.
    """
    one_sign = evidence.over is not Sign.OPEN
    no_turn = evidence.ends_are_known and turns_at_most_once and not _turns_as_wanted(evidence, criteria)
    leads_away = (criteria.direction == "rise" and not evidence.may_grow) or (
        criteria.direction == "fall" and not evidence.may_shrink
    )
    return one_sign or no_turn or leads_away or evidence.a_condition_fails


def _turns_as_wanted(evidence: Evidence, criteria: Criteria) -> bool:
    return evidence.turn is not Verdict.CLEAR and criteria.wants(evidence.turn)


def verdict_of(node: Node, evidence: Evidence, criteria: Criteria) -> Verdict:
    """The first that applies of: clear, one event, split, undecided.

    Clear and one event come only if no border lies in the node or it is one tick wide. One event: the node is no
    wider than asked, turns exactly once and as wanted, and every condition holds. Split: it is wider than a tick, and
    crosses or is wider than asked and not at the greatest depth.
    """
    if not evidence.crosses or node.width == 1:
        turns_at_most_once = node.width == 1 or not (evidence.may_grow and evidence.may_shrink)
        if _is_clear(evidence, criteria, turns_at_most_once):
            return Verdict.CLEAR
        has_one = turns_at_most_once and _turns_as_wanted(evidence, criteria) and evidence.conditions_hold
        if has_one and node.width <= criteria.width:
            return evidence.turn
    is_above_limits = node.width > criteria.width and node.depth < criteria.depth
    return Verdict.SPLIT if node.width > 1 and (evidence.crosses or is_above_limits) else Verdict.UNDECIDED

"""Searches of a quadratic polynomial of whole numbers, by bounds of its values and of its changes."""

from __future__ import annotations

from typing import NamedTuple, Optional

from .intervals import Sign
from .searches import cut_by_rule
from .verdicts import Criteria, Evidence, Node, Verdict, verdict_of

MAX_FACTOR = 2**20
"""The greatest magnitude of p and q."""
MAX_CONSTANT = 2**62
"""The greatest magnitude of r."""
LAST_TIME = 999_999_999_999
"""Times of polynomials are at most this in magnitude."""


class Reach(NamedTuple):
    """Bounds of the values at all times of a span, and of the changes from each but the last to the next."""

    least: int
    greatest: int
    least_step: int
    greatest_step: int


class Quadratic(NamedTuple):
    """p t^2 + q t + r."""

    p: int
    q: int
    r: int

    def at(self, time: int) -> int:
        """The value at a time."""
        return self.p * time * time + self.q * time + self.r

    def reach(self, first: int, last: int) -> Reach:
        """The sum of the bounds of p t^2, of q t and of r. From t to t + 1 it changes by p (2 t + 1) + q."""
        least_square = 0 if first <= 0 <= last else min(first * first, last * last)
        squares = (self.p * least_square, self.p * max(first * first, last * last))
        lines = (self.q * first, self.q * last)
        steps = [self.p * (2 * time + 1) + self.q for time in (first, last - 1)] if first < last else [0]
        least, greatest = min(squares) + min(lines) + self.r, max(squares) + max(lines) + self.r
        return Reach(least, greatest, min(steps), max(steps))


def quadratic(p: int, q: int, r: int) -> Optional[Quadratic]:
    """The polynomial of three numbers, or None if one is past its limit."""
    is_small = abs(p) <= MAX_FACTOR and abs(q) <= MAX_FACTOR and abs(r) <= MAX_CONSTANT
    return Quadratic(p, q, r) if is_small else None


def _sign(least: int, greatest: int) -> Sign:
    if least >= 0:
        return Sign.YES
    return Sign.NO if greatest < 0 else Sign.OPEN


class ScalarJudge:
    """Judges nodes of a search for the turns of a polynomial about 0. There are no borders and no conditions."""

    def __init__(self, scalar: Quadratic, criteria: Criteria, rule: str) -> None:
        self.scalar, self.criteria, self.rule = scalar, criteria, rule

    def _sign_at(self, time: int) -> Sign:
        reach = self.scalar.reach(time, time)
        return _sign(reach.least, reach.greatest)

    def verdict(self, node: Node) -> Verdict:
        """What is known of a node."""
        reach = self.scalar.reach(node.first, node.last)
        over = _sign(reach.least, reach.greatest)
        may_grow, may_shrink = reach.greatest_step > 0, reach.least_step < 0
        ends = self._sign_at(node.first), self._sign_at(node.last)
        evidence = Evidence(False, *ends, over, may_grow, may_shrink, True, False)
        return verdict_of(node, evidence, self.criteria)

    def may_be_cut(self, node: Node) -> bool:
        """Whether a node is wider than a tick and not at the greatest depth."""
        return node.width > 1 and node.depth < self.criteria.depth

    def cut(self, node: Node) -> tuple[Node, Node]:
        """The parts of a node by the rule."""
        return cut_by_rule(self.rule, node)

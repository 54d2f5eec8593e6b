"""A search: nodes that are judged and cut, the leaves that are left, and the windows of the leaves."""

from __future__ import annotations

from typing import Iterable, NamedTuple, Optional, Protocol

from .bodies import Sight, View
from .enclosures import Enclosure, Span
from .ephemeris import Ephemeris
from .intervals import Sign
from .kinds import Event, Query, event_of
from .verdicts import Criteria, Evidence, Node, Verdict, verdict_of

MAX_LEAVES = 33_554_432
"""The most leaves of a search."""


class TooManyLeaves(Exception):
    """The search has more leaves than the limit."""


class Leaf(NamedTuple):
    """A node that is not split, with its verdict."""

    node: Node
    verdict: Verdict


class Window(NamedTuple):
    """The ticks from `first` to `last`, with exactly one rise or fall among them, or undecided."""

    first: int
    last: int
    verdict: Verdict


class Judge(Protocol):
    """What a search needs to know of nodes."""

    def verdict(self, node: Node) -> Verdict:
        """What is known of a node."""

    def may_be_cut(self, node: Node) -> bool:
        """Whether a node may be cut, whatever its verdict is."""

    def cut(self, node: Node) -> tuple[Node, Node]:
        """The two parts of a node that may be cut."""


def cut_by_rule(rule: str, node: Node) -> tuple[Node, Node]:
    """The parts of a node, which are one deeper: `half` cuts in the middle, `third` after a third or a tick."""
    at = node.first + (node.width // 2 if rule == "half" else max(1, node.width // 3))
    return Node(node.first, at, node.depth + 1), Node(at, node.last, node.depth + 1)


class EventJudge:
    """Judges nodes of a search for the events of a query. Raises `EventError` if the files do not have the event."""

    def __init__(self, ephemeris: Ephemeris, query: Query, width: int, depth: int, rule: str) -> None:
        self.event: Event = event_of(ephemeris, query)
        self.view = View(ephemeris, query.targets, query.observer, query.frame)
        self.criteria = Criteria(query.direction, width, depth)
        self.rule = rule
        self._signs: dict[int, Sign] = {}

    def border(self, node: Node) -> Optional[int]:
        """The border in a node that is nearest to its middle, or None."""
        return self.view.border(Span(node.first, node.last))

    def sign_at(self, time: int) -> Sign:
        """The sign of the function's enclosure over a single tick."""
        if time not in self._signs:
            self._signs[time] = self.view.over(Span(time, time)).enclosure(self.event.function).range.sign
        return self._signs[time]

    def _conditions(self, sight: Sight) -> tuple[bool, bool]:
        """Whether every condition surely holds over a span, and whether one surely fails."""
        holds, fails = True, False
        for condition in self.event.conditions:
            sign = sight.enclosure(condition.function).range.sign
            holds = holds and sign is (Sign.YES if condition.is_at_least else Sign.NO)
            fails = fails or sign is (Sign.NO if condition.is_at_least else Sign.YES)
        return holds, fails

    def _whole(self, node: Node) -> Enclosure:
        """The enclosure of the function over a node without a border."""
        return self.view.over(Span(node.first, node.last)).enclosure(self.event.function)

    def _evidence(self, node: Node, crosses: bool) -> Evidence:
        """What is found at a node. If it is one tick wide, the conditions are looked at in that tick alone."""
        over, may_grow, may_shrink = Sign.OPEN, True, True
        sight = self.view.over(Span(node.last if node.width == 1 else node.first, node.last))
        if not crosses:
            whole = self._whole(node)
            over, may_grow, may_shrink = whole.range.sign, whole.step.high > 0, whole.step.low < 0
        conditions = self._conditions(sight)
        at_ends = self.sign_at(node.first), self.sign_at(node.last)
        return Evidence(crosses, *at_ends, over, may_grow, may_shrink, *conditions)

    def verdict(self, node: Node) -> Verdict:
        """What is known of a node. If its function has one sign over it, it is clear, and no more is looked at."""
        crosses = self.border(node) is not None
        if crosses and node.width > 1:
            return Verdict.SPLIT
        if not crosses and self._whole(node).range.sign is not Sign.OPEN:
            return Verdict.CLEAR
        return verdict_of(node, self._evidence(node, crosses), self.criteria)

    def may_be_cut(self, node: Node) -> bool:
        """Whether a node may be cut: it is wider than a tick, and crosses or is not at the greatest depth."""
        return node.width > 1 and (self.border(node) is not None or node.depth < self.criteria.depth)

    def cut(self, node: Node) -> tuple[Node, Node]:
        """The parts of a node.

        One that crosses is cut one tick before the nearest border, or at it if that tick is its first, and its parts
        keep the depth. Any other is cut by the rule.
        """
        border = self.border(node)
        if border is None:
            return cut_by_rule(self.rule, node)
        at = border - 1 if border - 1 > node.first else border
        return Node(node.first, at, node.depth), Node(at, node.last, node.depth)


def leaves_of(judge: Judge, root: Node, limit: int = MAX_LEAVES) -> list[Leaf]:
    """The leaves of a node from left to right. Raises `TooManyLeaves` if there are more than the limit."""
    leaves: list[Leaf] = []
    waiting = [root]
    while waiting:
        node = waiting.pop()
        verdict = judge.verdict(node)
        if verdict is Verdict.SPLIT:
            waiting += reversed(judge.cut(node))
        elif len(leaves) == limit:
            raise TooManyLeaves
        else:
            leaves.append(Leaf(node, verdict))
    return leaves


def windows_of(leaves: Iterable[Leaf]) -> list[Window]:
    """The windows of leaves from left to right.

    Each leaf with one event is a window, and so is each longest run of undecided leaves. A clear leaf gives none.
    """
    windows: list[Window] = []
    for node, verdict in leaves:
        if verdict is Verdict.CLEAR:
            continue
        first = node.first + 1
        before = windows[-1] if windows else None
        if verdict is Verdict.UNDECIDED and before and before.verdict is verdict and before.last == node.first:
            first = windows.pop().first
        windows.append(Window(first, node.last, verdict))
    return windows

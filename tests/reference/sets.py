"""Sets of ticks: those at which a relation surely holds, and those at which it possibly does."""

from __future__ import annotations

from typing import Callable, Iterable, NamedTuple

from .intervals import Sign
from .searches import Leaf
from .verdicts import Verdict

Run = tuple[int, int]
"""A first and a last tick, both of the set."""


def joined(runs: Iterable[Run]) -> list[Run]:
    """The same ticks as runs in order of which no two touch."""
    out: list[Run] = []
    for first, last in sorted(runs):
        if out and first <= out[-1][1] + 1:
            out[-1] = (out[-1][0], max(out[-1][1], last))
        else:
            out.append((first, last))
    return out


def complement(runs: Iterable[Run], within: Run) -> list[Run]:
    """The ticks of a span that are in no run, as runs in order of which no two touch."""
    out, at = [], within[0]
    for first, last in joined(runs):
        if at < first:
            out.append((at, first - 1))
        at = last + 1
    return out + [(at, within[1])] if at <= within[1] else out


class TickSet(NamedTuple):
    """Where a relation surely holds, and where it possibly does, within the span of a search."""

    span: Run
    sure: list[Run]
    possible: list[Run]

    def opposite(self) -> TickSet:
        """Where the relation does not hold: surely where it does not possibly hold, and the other way round."""
        return TickSet(self.span, complement(self.possible, self.span), complement(self.sure, self.span))

    def either(self, other: TickSet) -> TickSet:
        """Where this relation or the other one holds."""
        return TickSet(self.span, joined(self.sure + other.sure), joined(self.possible + other.possible))

    def both(self, other: TickSet) -> TickSet:
        """Where this relation and the other one hold: not where either does not."""
        return self.opposite().either(other.opposite()).opposite()


def runs_of_leaves(sign_at: Callable[[int], Sign], leaves: list[Leaf]) -> list[tuple[int, int, Sign]]:
    """The span of leaves as runs of ticks with the sign that is known of the function there.

    At the first tick it is the function's. Over a clear leaf it is that of its end. Of a leaf with one turn it is the
    turn's at the end, and open before. Over an undecided leaf it is open.
    """
    start = leaves[0].node.first
    runs = [(start, start, sign_at(start))]
    for node, verdict in leaves:
        if verdict is Verdict.CLEAR:
            runs.append((node.first + 1, node.last, sign_at(node.last)))
        elif verdict is Verdict.UNDECIDED:
            runs.append((node.first + 1, node.last, Sign.OPEN))
        else:
            runs.append((node.first + 1, node.last - 1, Sign.OPEN))
            runs.append((node.last, node.last, Sign.YES if verdict is Verdict.RISE else Sign.NO))
    return [run for run in runs if run[0] <= run[1]]


def at_least_zero(sign_at: Callable[[int], Sign], leaves: list[Leaf]) -> TickSet:
    """Where the function of a search is at least 0, by the leaves of a search for its turns in both directions."""
    runs = runs_of_leaves(sign_at, leaves)
    sure = joined((first, last) for first, last, sign in runs if sign is Sign.YES)
    possible = joined((first, last) for first, last, sign in runs if sign is not Sign.NO)
    return TickSet((leaves[0].node.first, leaves[-1].node.last), sure, possible)


def of_relation(relation: str, first: TickSet, second: TickSet) -> TickSet:
    """Where a value has a relation to one or two references, by where it is at least the first and at least the second.

    `within` is at least the first and below the second, `outside` below the first or at least the second.
    """
    if relation == "atleast":
        return first
    if relation == "less":
        return first.opposite()
    return first.both(second.opposite()) if relation == "within" else first.opposite().either(second)

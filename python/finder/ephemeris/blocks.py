"""How the granules of columns are laid into blocks of one length."""

from __future__ import annotations

import math
from collections.abc import Iterator
from dataclasses import dataclass

from ..reports.calendar import DAY
from .text import DATE_STEP, MAX_BLOCKS, MAX_DAYS

# The lengths of blocks that are tried are about 32 days over powers of two, and multiples of so many seconds, so that
# days can be cut into them; or of a smaller number, where the span does not end with one of these.
FINEST = 675
FINER = 8 * DATE_STEP
POWERS = 13


def granules_in(block: int, length: float) -> int:
    """The fewest granules of whole seconds in a block, none of which is longer than a length in seconds.

    >>> granules_in(86400, 3600.0), granules_in(86400, 5000.0), granules_in(675, 1000.0)
    (24, 18, 1)
    """
    least = max(1, -int(-block // length))
    return next(count for count in range(least, block + 1) if block % count == 0)


@dataclass(frozen=True)
class Layout:
    """So many blocks of a length in seconds, from a whole second since J2000 (TDB) on."""

    start: int
    block: int
    blocks: int

    def granules(self, length: float) -> int:
        """The fewest granules of a block none of which is longer than a length in seconds."""
        return granules_in(self.block, length)


def layouts(start: float, end: float) -> Iterator[Layout]:
    """Blocks over a span in seconds since J2000 (TDB), the longest first. They begin with the span, and end with it
    where it is a multiple of 675 seconds as days are; else at most some hundred seconds a block later.

    >>> next(layouts(0, 365 * 86400))
    Layout(start=0, block=1971000, blocks=16)
    """
    begin = math.floor(start / DATE_STEP) * DATE_STEP
    span = math.ceil((end - begin) / DATE_STEP) * DATE_STEP
    for power in range(POWERS):
        least = max(1, -(-span // (MAX_DAYS * DAY >> power)))
        exact = next((count for count in range(least, 2 * least + 1) if span % (count * FINEST) == 0), None)
        count = least if exact is None else exact
        block = span // count if exact else -(-span // (count * FINER)) * FINER
        if count <= MAX_BLOCKS and 0 < block <= MAX_DAYS * DAY:
            yield Layout(begin, block, count)

"""Files in the order of their blocks, as the program wants them: it passes over blocks that it meets too late.

The program reads files in the order of their names, and passes over a block that ends no later than the last one that
it accepted (`docs/guide/formats.md`, "Blocks"). So files in a wrong order would lose their early blocks, and the events in
them, without a word. Here the dates of all blocks are read first. It needs no numpy.
"""

from __future__ import annotations

import functools
import os
import re
import stat
from collections.abc import Sequence
from dataclasses import dataclass
from typing import NamedTuple, Optional

from ..public import public
from ..reports.calendar import DAY, time_text

J2000_DATE = 2_451_545.0
HEADER_LINE = re.compile(rb"\s*KSIZE=[ \t]*[0-9]+[ \t]+NCOEFF=[ \t]*([0-9]{1,9})[ \t]*\r?\n")
FIRST_BLOCK = re.compile(rb"\s*[0-9]{1,9}[ \t]+([0-9]{1,9})[ \t]*\r?\n")
# As many bytes after the first line of a block have its two dates.
DATES = 120
# The bytes of the longest file that the program reads.
LONGEST = 268_435_456


@public
class WrongFiles(ValueError):
    """Files that are not one series in order of time, with the header first, or that do not reach into a span.

    >>> import finder
    >>> try:
    ...     finder.check("examples")
    ... except finder.WrongFiles as error:
    ...     print(str(error).partition(",")[0])
    the folder examples has 8 headers
    """


class Days(NamedTuple):
    """The Julian dates at which a block begins and ends."""

    first: float
    last: float


@dataclass(frozen=True)
class Content:
    """What a file has: whether it begins with a header, and the days of its blocks in the order of the text."""

    has_header: bool
    blocks: tuple[Days, ...]


class Lost(NamedTuple):
    """A block that the program would pass over: its file, and the file whose block it does not come after."""

    name: str
    days: Days
    after: str


def in_order(names: Sequence[str]) -> list[str]:
    """The names of files in the order of their blocks, the header's first: `WrongFiles` where no order of them keeps
    every block. Files that cannot be read, or hold no blocks, stay where they are, for the program to refuse."""
    contents = [content_of(name) for name in names]
    if _goes_on(contents):
        return list(names)
    _refuse_streams(names, contents)
    places = sorted(range(len(names)), key=lambda place: _begin(contents[place]))
    made = [names[place] for place in places]
    if None in contents:
        made = list(names)
    refuse_lost(made)
    _refuse_late_header(made)
    return made


def refuse_lost(names: Sequence[str]) -> None:
    """Refuses files in an order in which the program would pass over blocks that no other file has."""
    lost = lost_block(names)
    if lost is None:
        return
    days = f"the days from {_day(lost.days.first)} to {_day(lost.days.last)}"
    if lost.name == lost.after:
        raise WrongFiles(f"{lost.name} has blocks that are not in order of time: {days} stand after later ones")
    raise WrongFiles(
        f"{lost.name} begins before {lost.after}, which is named before it, so that {days} would be passed over: name "
        "files in order of time"
    )


def lost_block(names: Sequence[str]) -> Optional[Lost]:
    """The first block that the program passes over, in this order of files, though it has accepted none of its days."""
    accepted: set[Days] = set()
    end, after = float("-inf"), ""
    for name in names:
        content = content_of(name)
        for days in content.blocks if content else ():
            if days.last > end:
                accepted.add(days)
                end, after = days.last, name
            elif days not in accepted:
                return Lost(name, days, after)
    return None


def content_of(name: str) -> Optional[Content]:
    """What a file has, read again where it has changed: None where it cannot be read, as a pipe cannot twice."""
    try:
        status = os.stat(name)
        if not stat.S_ISREG(status.st_mode) or status.st_size > LONGEST:
            return None
        return _content(os.path.abspath(name), status.st_dev, status.st_ino, status.st_size, status.st_mtime_ns)
    except (OSError, ValueError):
        return None


@functools.lru_cache(maxsize=256)
def _content(name: str, *of_file: int) -> Content:
    """The content of a file that has these numbers: its device, its inode, its size and its time."""
    with open(name, "rb") as file:
        text = file.read()
    header = HEADER_LINE.match(text)
    head = header or FIRST_BLOCK.match(text)
    if head is None:
        raise ValueError(f"{name} is no text of a DE series")
    # (a block begins with a line of its number and of how many numbers it has, and each of these takes two bytes)
    count = int(head[1])
    line = re.compile(rb"\n[ \t]*[0-9]{1,9}[ \t]+0*%d[ \t]*\r?(?=\n)" % count)
    blocks = [] if header else [_days(text[head.end() : head.end() + DATES])]
    found = line.search(text, head.end() + (0 if header else 2 * count))
    while found:
        blocks.append(_days(text[found.end() : found.end() + DATES]))
        found = line.search(text, found.end() + 2 * count)
    return Content(header is not None, tuple(blocks))


def _days(text: bytes) -> Days:
    """The dates of a block, by the text after its first line: a ValueError if there are none."""
    first, last = (float(word.translate(bytes.maketrans(b"Dd", b"EE"))) for word in text.split()[:2])
    return Days(first, last)


def _goes_on(contents: Sequence[Optional[Content]]) -> bool:
    """Whether each block goes on where the one before it ended, or is one that was there, and the header is first."""
    known: set[Days] = set()
    end: Optional[float] = None
    for place, content in enumerate(contents):
        if content is None or (content.has_header and place > 0):
            return False
        for days in content.blocks:
            if days not in known and end is not None and days.first != end:
                return False
            known.add(days)
            end = days.last if end is None else max(end, days.last)
    return True


def _begin(content: Optional[Content]) -> float:
    """What files are ordered by: a header alone comes first."""
    return content.blocks[0].first if content and content.blocks else float("-inf")


def _refuse_streams(names: Sequence[str], contents: Sequence[Optional[Content]]) -> None:
    """Refuses pipes and devices among several files: what they hold is not known before the program reads them."""
    if sum(content is None or bool(content.blocks) for content in contents) < 2:
        return
    for name in names:
        if os.path.exists(name) and not os.path.isfile(name) and not os.path.isdir(name):
            raise WrongFiles(f"{name} is no file that can be read twice, so that the order of the files is not known")


def _refuse_late_header(names: Sequence[str]) -> None:
    """Refuses a header that stands before late blocks in one file, where another file has earlier ones."""
    contents = [content_of(name) for name in names]
    heads = [place for place, content in enumerate(contents) if content and content.has_header]
    if len(heads) == 1 and heads[0] > 0 and all(content and content.blocks for content in contents):
        raise WrongFiles(
            f"{names[heads[0]]} has the header and later blocks than {names[0]}: write its header, up to the line "
            "GROUP 1070 and the blank one after it, into a file of its own"
        )


def seconds_of_date(date: float) -> int:
    """The whole seconds since J2000 (TDB) that are nearest to a Julian date."""
    return round((date - J2000_DATE) * DAY)


def _day(date: float) -> str:
    """A Julian date as a day, or a day and a time."""
    return time_text(seconds_of_date(date)).removesuffix("T00:00:00")

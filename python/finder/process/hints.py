"""What the likely causes of a refusal are, and what to write instead."""

from __future__ import annotations

import re
from collections.abc import Sequence
from typing import Optional

from ..ephemeris.order import content_of
from ..reports.calendar import time_text
from ..searches.kinds import COVERS, kinds_with, listed

Causes = tuple[str, ...]
SPAN = re.compile(r"finder: span: (-?[0-9]+) (-?[0-9]+) not within (-?[0-9]+) (-?[0-9]+)")
FIRST_LINE = re.compile(r"finder: file (.*) line [0-9]+: 10 FirstLine", re.DOTALL)
AGAIN = "the file was changed, or cut off while it was fetched: fetch it again"
NOT_JPL = "it is no ASCII file of JPL's: a binary or a compressed one, or a page that was saved in its place"
HEADER: Causes = (AGAIN, "it is of a layout that is not read: docs/guide/formats.md has those that are")
CERTIFICATE: Causes = ("the certificate was changed, or is of another request: have it made again",)
MANY = "the span is too long for one search: finder.over_files searches file by file"
# By the number of a refusal (docs/guide/formats.md).
OF_NUMBER: dict[int, Causes] = {
    4: (NOT_JPL, AGAIN),
    5: (MANY,),
    6: ("the file is longer than a search takes: tools/cut.py cuts it into parts", NOT_JPL),
    10: (
        "the first file has no header: name the header's file before the others, as ['header.405', 'ascp2000.405']",
        NOT_JPL,
    ),
    **{number: HEADER for number in range(11, 22)},
    22: ("the header is cut off: fetch its file again", NOT_JPL),
    30: ("a file has a header of its own: name one header, and first", AGAIN, NOT_JPL),
    31: ("the header and the file are of two series: name files of one", AGAIN),
    32: (AGAIN,),
    33: ("the files are not in order of time", "a file between two of them is missing", "they are of two series"),
    34: (AGAIN,),
    35: (AGAIN, "it is of a layout that is not read: docs/guide/formats.md has those that are"),
    36: ("the last file is cut off: fetch it again", "the file in which its last block goes on is not named"),
    37: ("the header's file alone is named: name files with blocks after it",),
    38: (MANY,),
    39: (AGAIN,),
    50: (
        "the files have no column of a body that is asked for: finder.check(files).columns names those that they have",
        "earth and moon want the columns of both emb and moon",
    ),
    51: (
        "two of target, second body and observer are one body: name three",
        "for what is seen from a body it is the observer, and neither target nor second body",
    ),
    52: (
        "a cosine is from -1 to 1: an angle in degrees is given as degrees=",
        "radii and distances are in km, and not below 0",
        "a length is 2^36 km or more",
    ),
    60: ("the package and the command are of two versions",),
    61: ("the package and the command are of two versions",),
    62: ("the package and the command are of two versions",),
    70: CERTIFICATE,
    71: CERTIFICATE,
    72: CERTIFICATE,
    73: ("the files are not those of which the certificate is", *CERTIFICATE),
    74: ("the certificate is cut off: fetch it again", *CERTIFICATE),
}
# By the option of a value that is refused: what Python has for it, and its form.
OF_OPTION = {
    "target": "target= is a body, as 'moon'",
    "second": f"second= is a body, and the kinds {listed(kinds_with('second'))} alone need one",
    "observer": "observer= is a body or 'ssb'",
    "frame": f"frame= is 'eq' or 'ecl', and the kinds {listed(kinds_with('frame'))} alone have one",
    "axis": f"axis= is 'x', 'y' or 'z', and the kind {listed(kinds_with('axis'))} alone needs one",
    "ref": "ref= is a decimal of at most 18 digits (km; of sep a cosine), for the kinds "
    f"{listed(kinds_with('ref'))} alone",
    "ref2": "ref2= is a decimal of at most 18 digits above ref=, for the relations within and outside alone",
    "relation": "relation= is 'less', 'atleast', 'within' or 'outside'",
    "radius1": f"radii= is a pair of decimals in km, and the kinds {listed(COVERS)} alone need one",
    "radius2": f"radii= is a pair of decimals in km, and the kinds {listed(COVERS)} alone need one",
    "from": "start= is a time: 2000-05-01T00:00:00 with a year of four digits, or at most 12 digits of seconds",
    "to": "end= is a time: 2000-05-01T00:00:00 with a year of four digits, or at most 12 digits of seconds",
    "tick": "tick= is 1 (seconds) or 1000 (milliseconds)",
    "width": "width= is from 1 to 1000000 ticks",
    "depth": "depth= is from 0 to 40",
    "workers": "workers= is from 1 to 64",
    "cut": "cut= is 'half' or 'third'",
}
# By the status of the command.
OF_STATUS: dict[int, Causes] = {
    4: (
        "no file has this name, seen from the folder in which Python runs",
        "it is a folder, or may not be read",
        "the disk or the network failed: try again",
    ),
    5: ("the pipe to this process failed: try again",),
    6: (
        "the span is not within the files: finder.check(files) says what they have",
        "the file with these years is not named",
        "start= is not before end=",
    ),
    8: ("other programs hold the memory", "the files are many: finder.over_files reads them one by one"),
    9: (
        "the function stays near 0 for long: a greater width=, or a smaller depth=, ends the search",
        "with tick=1000 there are a thousand times as many ticks: tick=1",
        "the span is long: search parts of it, as finder.over_files does",
    ),
    70: ("the command is not there, or does not run here",),
}
ENDED: Causes = ("the system ended the process for want of memory", "someone ended it")
TOO_LONG: Causes = (
    "the search takes longer than its timeout=: give it more seconds, workers= or a shorter span",
    "the function stays near 0 for long: a greater width= ends the search",
    "the machine is busy",
)


def causes_seen(status: int, number: Optional[int], line: str, words: Sequence[str]) -> Causes:
    """What the package sees itself of a refusal, by its line and by the words of the command; nothing for others."""
    options = dict(word[2:].split("=", 1) for word in words if word.startswith("--") and "=" in word)
    span, fault = SPAN.fullmatch(line), FIRST_LINE.fullmatch(line)
    if status == 6 and span:
        tick = 1_000 if options.get("tick") == "1000" else 1
        return (_of_span([int(ticks) for ticks in span.groups()], tick, {"from", "to"} <= set(options)),)
    if number == 51:
        bodies = {role: options[role] for role in ("target", "second", "observer") if role in options}
        same = [role for role, body in bodies.items() if list(bodies.values()).count(body) > 1]
        return (f"{listed(tuple(f'{role}=' for role in same))} are one body, {bodies[same[0]]!r}",) if same else ()
    if fault:
        content = content_of(fault[1])
        if content is not None and not content.has_header:
            told_name = "name the header's file too, as ['header.405', 'ascp2000.405']"
            return (f"{fault[1]} has blocks and no header: {told_name}",)
    return ()


def _of_span(ticks: Sequence[int], tick: int, has_both: bool) -> str:
    """What is wrong with a span, in dates; both of its ends are named, or one of them."""
    start, end, low, high = (time_text(each, tick) for each in ticks)
    if ticks[0] >= ticks[1] and has_both:
        return f"start={start} is not before end={end} (TDB)"
    return (
        f"the span from {start} to {end} is not within that of the files, from {low} to {high} (TDB): name the file "
        "with these years, or a span within"
    )


def causes_of(status: int, number: Optional[int], detail: Optional[str]) -> Causes:
    """The likely causes of a refusal of the command, the likeliest first."""
    if number == 63 and detail in OF_OPTION:
        return (f"an option is missing, not of its form, or not used by this kind: {OF_OPTION[detail]}",)
    if number is not None and number in OF_NUMBER:
        return OF_NUMBER[number]
    if status < 0:
        return ENDED
    return OF_STATUS.get(status, ("docs/guide/formats.md says what each status and each number means",))


def told(causes: Causes) -> str:
    """Causes as a text, with their numbers where there are several."""
    if len(causes) == 1:
        return causes[0]
    return "; ".join(f"({number}) {cause}" for number, cause in enumerate(causes, 1))

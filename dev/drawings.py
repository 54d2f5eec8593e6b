#!/usr/bin/env python3
"""Makes the drawings of docs/develop/: those of the tour, of the search in examples/mercury-crossing.asc, and of the map.

    dev/drawings.py           writes docs/pictures/node.svg, docs/pictures/data.svg and docs/pictures/stills.svg
    dev/drawings.py --check   whether they stand there as they would be written

The nodes that are drawn are those of the certificate that the shipped program writes of this search, each crate that is
named is one of crates.txt, and each file one of a crate. It needs no package.
"""

from __future__ import annotations

import subprocess
import sys
from collections.abc import Iterable, Sequence
from dataclasses import dataclass
from pathlib import Path

sys.dont_write_bytecode = True
sys.path.insert(0, str(Path(__file__).resolve().parents[1]))
from dev.sources import command  # noqa: E402
from dev.sources.repository import Repository  # noqa: E402

EXAMPLE = "examples/mercury-crossing.asc"
SEARCH = ["--kind", "coord", "--target", "mercury", "--axis", "x", EXAMPLE]
EVENT = 1339200
DRAWN_DEPTH = 6
INK, PALE, PAPER = "#1d2433", "#68718a", "#ffffff"
COLOURS = {"N": "#dfe4ee", "S": "#ffffff", "R": "#f5b041", "still": "#cfe8d5"}
FONT = 'font-family="DejaVu Sans, Helvetica, Arial, sans-serif"'


@dataclass(frozen=True)
class Leaf:
    """A line of a certificate: a node that is not split, and its mark."""

    first: int
    last: int
    depth: int
    mark: str


@dataclass(frozen=True)
class Box:
    """A step of a way: where it stands, the crates or the file that do it, and what it does."""

    column: int
    row: int
    places: str
    says: tuple[str, ...]


BOXES = (
    Box(0, 0, "finder_main", ("words, files, streams",)),
    Box(0, 1, "gf_words", ("words: a request", "coord, mercury, axis x")),
    Box(1, 1, "gf_edges gf_files", ("files: whole texts, or why not",)),
    Box(1, 2, "de_text", ("bytes: 26 lines of words",)),
    Box(1, 3, "de_header", ("lines 1 to 16: a header", "4 columns that are present")),
    Box(1, 4, "de_blocks", ("lines 17 to 26: one block", "of 26 numbers")),
    Box(1, 5, "eph_model", ("the checked ephemeris:", "x = 1382400 T1, -43200 to 2721600")),
    Box(0, 2, "event_kinds event_expr", ("request: a function f and conditions", "f = x of Mercury, no condition")),
    Box(
        0, 5, "cheby_laws cheby_enclose cheby_difference granule_values body_states",
        ("times: intervals of x, and of its steps",),
    ),
    Box(0, 6, "gf_query event_judge", ("a node: clear, one, split, undecided",)),
    Box(1, 6, "event_models still_spans", ("spans in which f keeps one sign",)),
    Box(0, 7, "gf_search steal_pool span_ledger", ("the root: its leaves,", "each entered once into one book")),
    Box(0, 8, "ordered_join", ("leaves in order: windows", "[1339200, 1339200] rise")),
    Box(0, 9, "window_text gf_find", ("windows: the bytes of the report", "C 2000-01-17T00:00:00 .. rise")),
)
# From a box to a box, by their places above.
ARROWS = (
    *((0, 1), (0, 2), (2, 3), (3, 4), (4, 5), (5, 6), (1, 7)),
    *((6, 8), (7, 8), (8, 9), (6, 10), (9, 11), (10, 11), (11, 12), (12, 13)),
)
# What is decided of spans, on the left, and of nodes and leaves.
STILLS = (
    Box(0, 0, "still_spans/src/worth.rt", ("Is a granule halved into 8 parts or more?", "no: no spans, the plain tree")),
    Box(0, 1, "still_spans/src/shares.rt", ("a share of the times for each worker,", "granule after granule")),
    Box(0, 2, "still_spans/src/quiet.rt", ("Has the bound over the granule one sign?", "yes: all of it is still")),
    Box(
        0, 3, "still_spans/src/known.rt",
        ("Does the model, of values or signs, keep off 0?", "no: its halves are asked, and theirs"),
    ),
    Box(
        0, 4, "still_spans/src/span_bound.rt",
        ("Is the function monotone by its bound?", "no: nodes so wide as the steps allow"),
    ),
    Box(0, 5, "still_spans/src/budget.rt", ("Are few leaves left to spare?", "yes: bounds over parts, and over a piece")),
    Box(0, 6, "still_spans/src/borders.rt", ("Has the next span the same sign?", "yes: so has the unit between")),
    Box(0, 7, "still_judge/src/still_list.rt", ("the spans in order;", "none, where two overlap")),
    Box(1, 0, "still_judge/src/serving.rt", ("a node: Is it clear by a span, or served?", "yes: it is clear")),
    Box(1, 1, "still_judge/src/beginning.rt", ("find: Does a span begin in it?", "yes: it is split, unjudged")),
    Box(
        1, 2, "still_judge/src/end_signs.rt",
        ("Do spans tell the signs at its ends?", "these may tell: clear, one event, split"),
    ),
    Box(1, 3, "event_judge", ("any other: the verdict of the search",)),
    Box(1, 4, "gf_search/src/book.rt", ("the leaves in order",)),
    Box(1, 5, "gf_search/src/counts.rt", ("Do they weigh, or count, more than the limit?", "yes: the plain tree")),
    Box(
        1, 6, "still_judge/src/settling.rt",
        ("find: Is an undecided leaf in a clear one", "of the plain tree? yes: it is clear"),
    ),
    Box(1, 7, "gf_sets/src/from_leaves.rt", ("set: the sign at the end of each clear leaf",)),
)
STILL_ARROWS = tuple((place, place + 1) for place in range(len(STILLS) - 1) if place != 7)
BOX_WIDTH, BOX_HEIGHT, ROW, COLUMN = 330, 74, 104, 400


def certificate(house: Repository) -> list[Leaf]:
    """The leaves of the search, as the shipped program certifies them."""
    program = house.root / "release/finder-x86_64-linux"
    done = subprocess.run([program, "cert", *SEARCH], cwd=house.root, capture_output=True, text=True, check=True)
    words = [line.split() for line in done.stdout.splitlines()]
    return [Leaf(int(it[1]), int(it[2]), int(it[3]), it[4]) for it in words if it[0] == "L"]


def text(
    x: float, y: float, said: str, size: int = 13, colour: str = INK, anchor: str = "start", more: str = ""
) -> str:
    """A line of text."""
    place = f'x="{x:.1f}" y="{y:.1f}" font-size="{size}" fill="{colour}" text-anchor="{anchor}"'
    return f"<text {place}{more}>{said}</text>"


def box(x: float, y: float, width: float, height: float, fill: str, line: str = INK, more: str = "") -> str:
    """A rectangle."""
    return (
        f'<rect x="{x:.1f}" y="{y:.1f}" width="{width:.1f}" height="{height:.1f}" '
        f'fill="{fill}" stroke="{line}" {more}/>'
    )


def stroke(x1: float, y1: float, x2: float, y2: float, colour: str = INK, more: str = "") -> str:
    """A straight line."""
    return f'<line x1="{x1:.1f}" y1="{y1:.1f}" x2="{x2:.1f}" y2="{y2:.1f}" stroke="{colour}" {more}/>'


def picture(width: int, height: int, title: str, parts: Iterable[str]) -> str:
    """A whole drawing, which has a title for readers that do not see it."""
    head = f'<svg xmlns="http://www.w3.org/2000/svg" viewBox="0 0 {width} {height}" width="{width}" role="img" {FONT}>'
    arrow = (
        '<defs><marker id="tip" viewBox="0 0 8 8" refX="7" refY="4" markerWidth="8" markerHeight="8" orient="auto">'
        f'<path d="M0,0 L8,4 L0,8 Z" fill="{PALE}"/></marker></defs>'
    )
    paper = box(0, 0, width, height, PAPER, "none")
    return "\n".join([head, f"<title>{title}</title>", arrow, paper, *parts, "</svg>", ""])


class Axis:
    """Where a time stands in the drawing."""

    def __init__(self, first: int, last: int, left: float, right: float) -> None:
        self.first, self.last, self.left, self.right = first, last, left, right

    def at(self, time: float) -> float:
        """The place of a time, from left to right."""
        return self.left + (time - self.first) / (self.last - self.first) * (self.right - self.left)


def still_pieces(first: int, last: int, depth: int) -> list[tuple[int, int]]:
    """The halves, halved so often, over which the example's function, t less the event, is never 0."""
    if last < EVENT or EVENT < first:
        return [(first, last)]
    if depth == 0:
        return []
    middle = first + (last - first) // 2
    return still_pieces(first, middle, depth - 1) + still_pieces(middle, last, depth - 1)


def curve(axis: Axis, top: float, height: float) -> list[str]:
    """The function over the block, its still pieces and its event."""
    zero, half = top + height / 2, height / 2 - 6
    value = [zero + half * (EVENT - it) / (EVENT - axis.first) for it in (axis.first, axis.last)]
    made = [text(axis.left, top - 12, "The function f: x of Mercury at each second, which is t - 1339200 km", 14)]
    for first, last in still_pieces(axis.first, axis.last, DRAWN_DEPTH):
        made.append(box(axis.at(first), top, axis.at(last) - axis.at(first), height, COLOURS["still"], PAPER))
    made += [
        stroke(axis.left, zero, axis.right, zero, PALE, 'stroke-dasharray="4 3"'),
        text(axis.left - 8, zero + 4, "0", 12, PALE, "end"),
        stroke(axis.left, value[0], axis.right, value[1], INK, 'stroke-width="2"'),
        text(axis.left + 10, top + 18, "still pieces: f keeps one sign over each,", 12),
        text(axis.left + 10, top + 34, "and a node in one that is narrow enough is clear", 12),
        text(axis.right - 10, top + height - 10, "still pieces on the other side of 0", 12, INK, "end"),
        f'<circle cx="{axis.at(EVENT):.1f}" cy="{zero:.1f}" r="5" fill="{COLOURS["R"]}" stroke="{INK}"/>',
        text(axis.at(EVENT) + 16, zero + 20, "the event: 1339200, a rise", 12),
    ]
    return made


def rows_of_nodes(leaves: list[Leaf], axis: Axis, top: float, row: float) -> list[str]:
    """The nodes on the way to the event, row by row of their depth, and where each is cut."""
    told = "The tree: a node is clear, or it is cut at its middle and both parts are judged"
    made = [text(axis.left, top - 12, told, 14)]
    first, last = axis.first, axis.last
    for depth in range(DRAWN_DEPTH + 1):
        y = top + depth * row
        made.append(text(axis.left - 8, y + row * 0.55, f"depth {depth}", 11, PALE, "end"))
        for leaf in [it for it in leaves if it.depth == depth]:
            width = axis.at(leaf.last) - axis.at(leaf.first)
            made.append(box(axis.at(leaf.first), y, width, row - 8, COLOURS[leaf.mark]))
        made.append(box(axis.at(first), y, axis.at(last) - axis.at(first), row - 8, COLOURS["S"]))
        middle = first + (last - first) // 2
        made.append(stroke(axis.at(middle), y - 3, axis.at(middle), y + row - 5, "#b03a2e", 'stroke-width="2"'))
        first, last = (middle, last) if middle < EVENT else (first, middle)
    middle = axis.first + (axis.last - axis.first) // 2
    clear = next(it for it in leaves if it.depth == 1)
    made += [
        text(axis.at(axis.first) + 8, top + row * 0.5, "the root, [-43200, 2721600], which is split", 12),
        text(axis.at(middle) + 6, top + row * 0.5, "its cut: 1339200", 12, "#b03a2e"),
        text(axis.at(clear.first) + 8, top + row * 1.5, "clear: no event after 1339200", 12),
    ]
    return made


def seconds(leaves: list[Leaf], left: float, right: float, top: float) -> list[str]:
    """The last cuts, second by second."""
    axis = Axis(EVENT - 4, EVENT + 2, left, right)
    made = [text(left, top - 40, "At depth 22, second by second: a node [a, b] stands for the times a + 1 to b", 14)]
    for leaf in [it for it in leaves if it.last > axis.first and it.first < axis.last]:
        a, b = max(leaf.first, axis.first), min(leaf.last, axis.last)
        made.append(box(axis.at(a), top, axis.at(b) - axis.at(a), 34, COLOURS[leaf.mark]))
        if leaf.depth == 22:
            said = "clear" if leaf.mark == "N" else "one rise"
            made.append(text((axis.at(a) + axis.at(b)) / 2, top + 22, said, 12, INK, "middle"))
    for time in range(axis.first, axis.last + 1):
        made.append(stroke(axis.at(time), top + 34, axis.at(time), top + 42))
        made.append(text(axis.at(time), top + 56, str(time), 11, PALE, "middle"))
        made.append(text(axis.at(time), top - 8, f"f = {time - EVENT}", 11, PALE, "middle"))
    printed = "What is printed is the window of the leaf with one rise: its first and its last time, both 1339200."
    made.append(text(left, top + 84, printed, 12))
    return made


def node_drawing(house: Repository) -> str:
    """The drawing of a node, its cut, its still pieces and an event."""
    leaves = certificate(house)
    axis = Axis(leaves[0].first, leaves[-1].last, 70, 880)
    parts = [
        *curve(axis, 40, 170),
        *rows_of_nodes(leaves, axis, 260, 38),
        *seconds(leaves, 70, 880, 610),
    ]
    return picture(930, 710, "A node, its cut, its still pieces and an event", parts)


def middle_of(boxes: Sequence[Box], place: int, is_end: bool, other: int) -> tuple[float, float]:
    """Where an arrow between two boxes touches the one of this place."""
    it, that = boxes[place], boxes[other]
    x, y = 30 + it.column * COLUMN, 24 + it.row * ROW
    if it.column != that.column and it.row == that.row:
        return (x + (BOX_WIDTH if it.column < that.column else 0), y + BOX_HEIGHT / 2)
    if it.column != that.column:
        shift = BOX_WIDTH * (0.82 if it.column < that.column else 0.18)
        return (x + shift, y + (0 if is_end else BOX_HEIGHT))
    return (x + BOX_WIDTH / 2, y + (0 if is_end else BOX_HEIGHT))


def is_there(house: Repository, place: str) -> bool:
    """Whether a step names a crate of crates.txt, or a file of one."""
    return (house.root / "crates" / place).is_file() if "/" in place else place in house.crates


def flow_drawing(house: Repository, title: str, boxes: Sequence[Box], arrows: Iterable[tuple[int, int]]) -> str:
    """The drawing of a flow from step to step."""
    parts = []
    for source, target in arrows:
        begin, end = middle_of(boxes, source, False, target), middle_of(boxes, target, True, source)
        parts.append(stroke(*begin, *end, PALE, 'stroke-width="1.5" marker-end="url(#tip)"'))
    for it in boxes:
        names = it.places.split()
        missing = [name for name in names if not is_there(house, name)]
        if missing:
            raise SystemExit(f"dev/drawings.py: there is no {missing[0]}")
        x, y = 30 + it.column * COLUMN, 24 + it.row * ROW
        shown = ", ".join(names) if len(it.places) < 40 else f"{names[0]}, .., {names[-1]}"
        parts.append(box(x, y, BOX_WIDTH, BOX_HEIGHT, COLOURS["N"], INK, 'rx="6"'))
        parts.append(text(x + 12, y + 22, shown, 14, INK, "start", ' font-weight="bold"'))
        parts += [text(x + 12, y + 42 + 18 * place, said, 12) for place, said in enumerate(it.says)]
    height = 24 + ROW * (max(it.row for it in boxes) + 1)
    return picture(60 + COLUMN + BOX_WIDTH, height, title, parts)


def main(words: list[str]) -> int:
    """Writes or compares the drawings, and returns the exit status."""
    asked = command.parser("drawings.py", __doc__)
    asked.add_argument("--check", action="store_true", help="compare the drawings")
    options = asked.parse_args(words)
    house = command.repository(options)
    failed = 0
    drawings = {
        "docs/pictures/node.svg": node_drawing(house),
        "docs/pictures/data.svg": flow_drawing(house, "Data flow", BOXES, ARROWS),
        "docs/pictures/stills.svg": flow_drawing(house, "What is decided of still spans and of nodes", STILLS, STILL_ARROWS),
    }
    for name, made in drawings.items():
        path = house.root / name
        if not options.check:
            path.write_text(made, encoding="utf-8")
            print(f"wrote {name}")
        elif not path.is_file() or path.read_text(encoding="utf-8") != made:
            print(f"drawings: {name} is another one than dev/drawings.py makes", file=sys.stderr)
            failed += 1
    if options.check:
        print(f"drawings: {len(drawings) - failed} passed, {failed} failed")
    return int(failed > 0)


if __name__ == "__main__":
    command.run(main)

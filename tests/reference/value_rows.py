"""`python3 -m tests.reference.value_rows [TABLE.rows ..]`: values of layers in crates/value_cases/data, answered again.

Compares each row of the tables with what the reference answers, and prints each that differs. `--row ROW` prints a row
with its answers, for whoever writes a new one. ROW has what the row gives. For each answer that stands before something
given, ROW has `-`.

    $ python3 -m tests.reference.value_rows --row 'decimal 32.'
    decimal 32. ok 32 0 none

Status: 0; 1 a row differs; 2 the words.
"""

from __future__ import annotations

import argparse
import sys
from functools import lru_cache
from pathlib import Path
from typing import Callable, Iterator, Optional, Sequence, Union

from . import intervals
from .blocks import read_ephemeris
from .bodies import View
from .chebyshev import Motion, argument, row_q, row_r, row_t, row_u
from .decimals import NumberFault, read_decimal, read_whole
from .ephemeris import Ephemeris, Granule, component_count
from .expressions import passed_limit
from .faults import EventError, Fault, FileError
from .generated import generated_text
from .header import DAY, J2000, seconds_of_date
from .intervals import Interval
from .kinds import event_of
from .lines import LongLine, counted_lines, end_number
from .row_fields import Fields, field_of_bytes
from .searches import EventJudge
from .times import TimeFault, read_time, time_text
from .verdicts import Node, Verdict

DATA = Path(__file__).resolve().parents[2] / "crates" / "value_cases" / "data"
CHECKSUM_FACTOR = 31
Answer = Union[str, int]


@lru_cache(maxsize=None)
def ephemeris_of(name: str) -> Ephemeris:
    """The ephemeris of a file of the data."""
    return read_ephemeris([(name.encode(), (DATA / name).read_bytes())])


def number_or_none(number: Optional[int]) -> str:
    """A number, or the word `none`."""
    return "none" if number is None else str(number)


def answer_decimal(fields: Fields) -> None:
    """A word as a decimal and as a whole number."""
    word = fields.bytes()
    number = read_decimal(word)
    read: list[Answer] = ["fault", int(number)] if isinstance(number, NumberFault) else ["ok", *number]
    fields.answer([*read, number_or_none(read_whole(word))])


def answer_date(fields: Fields) -> None:
    """A Julian date as seconds from Julian date 0."""
    number = read_decimal(fields.bytes())
    if isinstance(number, NumberFault):
        raise ValueError("a row of dates has a word that is no decimal")
    second = seconds_of_date(number)
    names = {Fault.JdNotWholeSecond: "NotWholeSecond", Fault.Limit: "OutOfRange"}
    fields.answer([names[second] if isinstance(second, Fault) else second + J2000 * DAY])


def answer_time(fields: Fields) -> None:
    """A word of a command line as a time, and the time on the calendar."""
    second = read_time(fields.bytes())
    fields.answer([second.value] if isinstance(second, TimeFault) else ["ok", second, time_text(second)])


def answer_lines(fields: Fields) -> None:
    """The lines of a text that are not blank, with their tokens."""
    text = fields.bytes()
    answers: list[Answer] = [end_number(text)]
    last = ["end"]
    for line in counted_lines(text):
        if isinstance(line, LongLine):
            last = ["long", str(line.number)]
        else:
            answers += ["line", line.number, len(line.tokens), *map(field_of_bytes, line.tokens)]
    fields.answer([*answers, *last])


def answer_text(fields: Fields) -> None:
    """A text by the file whose lines it has but those that are given: its first fault, or the ephemeris that it is."""
    fields.word()
    lines = (DATA / fields.word()).read_bytes().split(b"\n")
    for _ in range(fields.number()):
        number = fields.number()
        lines[number - 1] = fields.bytes()
    try:
        ephemeris = read_ephemeris([(b"", b"\n".join(lines))])
    except FileError as error:
        fields.answer(["fault", error.line, error.fault.value, int(error.detail)])
        return
    header = ephemeris.header
    sizes = [header.ncoeff, header.block_seconds, *header.emrat, len(ephemeris.blocks)]
    fields.answer(["ephemeris", *sizes, ephemeris.start, ephemeris.end])


def answer_granule(fields: Fields) -> None:
    """The granule of a column at a time, and a border."""
    answer_granule_of(fields, ephemeris_of(fields.word()))


def answer_built(fields: Fields) -> None:
    """The same of an ephemeris that has the header and the start of a file, and blocks of the row."""
    file = ephemeris_of(fields.word())
    built = Ephemeris(file.header, file.start)
    for _ in range(fields.number()):
        built.blocks.append(tuple(fields.decimal() for _ in range(file.header.ncoeff)))
    answer_granule_of(fields, built)


def answer_granule_of(fields: Fields, ephemeris: Ephemeris) -> None:
    """A granule's start, seconds, coefficients, components and first coefficient, and the nearest border of a span."""
    column = fields.number()
    granule = ephemeris.granule(column, fields.number())
    first = granule.components[0][0]
    fields.answer([granule.start, granule.length, granule.count, component_count(column), *first])
    fields.answer([number_or_none(ephemeris.nearest_border([column], *fields.span()))])


def answer_generated(fields: Fields) -> None:
    """The length of a generated text, and the sum of its bytes, each times a power of 31."""
    text = generated_text(fields.number(), fields.number())
    checksum = 0
    for code in text:
        checksum = (checksum * CHECKSUM_FACTOR + code) % 2**32
    fields.answer([len(text), checksum])


def answer_interval(fields: Fields) -> None:
    """An operation on intervals."""
    of_two: dict[str, Callable[[Interval, Interval], Interval]] = {
        "add": intervals.add,
        "sub": intervals.subtract,
        "mul": intervals.multiply,
        "join": intervals.hull,
        "meet": intervals.intersection,
    }
    operation = fields.word()
    if operation in of_two:
        result = of_two[operation](fields.interval(), fields.interval())
    elif operation == "signed_square":
        result = intervals.signed_square(fields.interval())
    elif operation == "of":
        result = intervals.normalize(*fields.interval())
    elif operation == "scale":
        result = intervals.scale(*fields.interval(), fields.number())
    else:
        result = intervals.of_fraction(fields.decimal().value(), fields.number())
    fields.answer(result)


def answer_argument(fields: Fields) -> None:
    """The arguments that belong to a span."""
    fields.answer(argument(fields.number(), fields.number(), fields.number()))


def answer_basis(fields: Fields) -> None:
    """The entries of the four bases at a place, over an interval of arguments."""
    x = fields.number(), fields.number()
    count, place = fields.number(), fields.number()
    t, u = row_t(x, count), row_u(x, count)
    rows = (t, u, row_q(x, count, t), row_r(x, count, u))
    fields.answer(end for row in rows for end in row[place])


def answer_ranges(fields: Fields) -> None:
    """Position, velocity and their steps over a span of a granule."""
    start, length, count, axis = (fields.number() for _ in range(4))
    span = fields.span()
    components = tuple(tuple(fields.decimal() for _ in range(count)) for _ in range(3))
    motion = Motion(Granule(start, length, components), span)
    found = [motion.position(axis), motion.position_step(axis), motion.velocity(axis), motion.velocity_step(axis)]
    fields.answer(number for interval in found for number in interval)


def answer_event(fields: Fields) -> None:
    """The enclosures of a kind's function and of its conditions over a span."""
    ephemeris, query = ephemeris_of(fields.word()), fields.query()
    event = event_of(ephemeris, query)
    sight = View(ephemeris, query.targets, query.observer, query.frame).over(fields.span())
    fields.answer_enclosure(sight.enclosure(event.function))
    fields.answer([len(event.conditions)])
    for condition in event.conditions:
        fields.answer(["at_least" if condition.is_at_least else "below"])
        fields.answer_enclosure(sight.enclosure(condition.function))


def answer_refusal(fields: Fields) -> None:
    """The fault of a query."""
    ephemeris, query = ephemeris_of(fields.word()), fields.query()
    try:
        event_of(ephemeris, query)
    except EventError as error:
        fields.answer([error.fault.value])
    else:
        fields.answer(["none"])


def next_view(fields: Fields) -> View:
    """A file, two targets, an observer and a frame."""
    ephemeris = ephemeris_of(fields.word())
    return View(ephemeris, (fields.word(), fields.word()), fields.word(), fields.word())


def answer_coordinate(fields: Fields) -> None:
    """The enclosure of a coordinate, and the columns in use."""
    view, coordinate = next_view(fields), fields.coordinate()
    fields.answer_enclosure(view.over(fields.span()).enclosure(coordinate))
    fields.answer([len(view.columns), *view.columns])


def answer_formula(fields: Fields) -> None:
    """The enclosure of an expression."""
    sight = next_view(fields).over(fields.span())
    fields.answer_enclosure(sight.enclosure(fields.expression()))


def answer_limit(fields: Fields) -> None:
    """The first limit that an expression passes."""
    place = fields.leave_room()
    fields.fill(place, passed_limit(fields.expression()) or "none")


def answer_verdict(fields: Fields) -> None:
    """The verdict of a node; of one that is split also the tick of the cut and the depth of its parts."""
    ephemeris, query = ephemeris_of(fields.word()), fields.query()
    judge = EventJudge(ephemeris, query, fields.number(), fields.number(), fields.word())
    node = Node(*fields.span(), fields.number())
    verdict = judge.verdict(node)
    fields.answer([verdict.name.lower()])
    if verdict is Verdict.SPLIT:
        left, _ = judge.cut(node)
        fields.answer([left.last, left.depth])


ANSWERS: dict[str, Callable[[Fields], None]] = {
    "argument": answer_argument,
    "basis": answer_basis,
    "built": answer_built,
    "coordinate": answer_coordinate,
    "date": answer_date,
    "decimal": answer_decimal,
    "event": answer_event,
    "formula": answer_formula,
    "generated": answer_generated,
    "granule": answer_granule,
    "interval": answer_interval,
    "limit": answer_limit,
    "lines": answer_lines,
    "ranges": answer_ranges,
    "refusal": answer_refusal,
    "text": answer_text,
    "time": answer_time,
    "verdict": answer_verdict,
}
"""By the kind of a row, what reads what it gives and answers the rest."""


def answered_row(row: str) -> str:
    """A row with what it gives and what the reference answers. Raises ValueError if it does not have its form."""
    fields = Fields(row)
    if fields.kind not in ANSWERS:
        raise ValueError(f"no row is of the kind {fields.kind}")
    ANSWERS[fields.kind](fields)
    return fields.row()


def rows_of(table: Path) -> Iterator[tuple[int, str]]:
    """The rows of a table with the numbers of their lines; a line that is empty or begins with `#` is none."""
    for number, line in enumerate(table.read_text("utf-8").split("\n"), 1):
        if line and not line.startswith("#"):
            yield number, line


def differing_rows(table: Path) -> Iterator[tuple[int, str]]:
    """The rows of a table that are answered otherwise than they stand: the numbers of their lines, and the answers."""
    for number, row in rows_of(table):
        answered = answered_row(row)
        if answered != row:
            yield number, answered


def compare_table(table: Path) -> int:
    """Prints each row of a table that differs and how many there are, and returns how many differ."""
    differing = list(differing_rows(table))
    for number, answered in differing:
        print(f"{table.name}: line {number} is answered: {answered}")
    count = sum(1 for _ in rows_of(table))
    print(f"{table.name}: {count - len(differing)} of {count} rows are answered as they stand", flush=True)
    return len(differing)


def main(words: Optional[Sequence[str]] = None) -> int:
    """Runs the command."""
    parser = argparse.ArgumentParser(prog="python3 -m tests.reference.value_rows", description=__doc__)
    parser.formatter_class = argparse.RawDescriptionHelpFormatter
    parser.add_argument("--row", help="a row, which is printed with its answers")
    parser.add_argument("tables", nargs="*", type=Path, metavar="TABLE.rows", help="tables; without them all")
    chosen = parser.parse_args(words)
    if chosen.row:
        print(answered_row(chosen.row))
        return 0
    counts = [compare_table(table) for table in chosen.tables or sorted(DATA.glob("*.rows"))]
    return 1 if any(counts) else 0


if __name__ == "__main__":
    sys.exit(main())

"""The lines of the files joined, and the header that they begin with. The first rule that is broken is the fault."""

from __future__ import annotations

from typing import Iterable, Iterator, Union

from .decimals import Decimal, NumberFault, read_decimal, read_whole
from .ephemeris import KNOWN_COLUMNS, Column, Header, places_of
from .faults import Fault, FileError
from .lines import LongLine, counted_lines, end_number

MAX_FILE = 268_435_456
"""The most bytes of a file."""
MAX_NAMES = 2000
"""The most constants of a header."""
MAX_COEFFICIENTS = 32
"""The most coefficients of a component."""
NCOEFF_RANGE = range(3, 4097)
"""How many numbers a block may have."""
COLUMN_COUNTS = (13, 14, 15)
"""How many columns a header may have."""
MAX_BLOCK_DAYS = 64
LAST_DAY = 5_000_000
"""Julian dates are from 0 to this one."""
DAY = 86_400
J2000 = 2_451_545
"""The Julian date of second 0."""


class LinesEnded(Exception):
    """The lines of all files have ended."""


class JoinedLines:
    """The lines of files, one after the other, without blank ones. A file is opened when its lines are needed."""

    def __init__(self, files: Iterable[tuple[bytes, bytes]]) -> None:
        """Takes the files by their names and bytes, in order; the iterable may open each as it comes to it."""
        self._walk = self._lines_of(files)
        self.name = b""
        self.number = 0

    def _lines_of(self, files: Iterable[tuple[bytes, bytes]]) -> Iterator[list[bytes]]:
        end = 1
        for self.name, text in files:
            self.number, end = 0, end_number(text)
            if len(text) > MAX_FILE:
                raise self.error(Fault.FileTooLarge)
            for line in counted_lines(text):
                self.number = line.number
                if isinstance(line, LongLine):
                    raise self.error(Fault.LineTooLong)
                yield line.tokens
        self.number = end

    def tokens(self) -> list[bytes]:
        """The tokens of the next line. Raises `LinesEnded`, after which the number is that of the lines plus 1."""
        try:
            return next(self._walk)
        except StopIteration:
            raise LinesEnded from None

    def error(self, fault: Fault, detail: int = 0) -> FileError:
        """The fault at the line that was read last."""
        return FileError(fault, self.name, self.number, detail)


def seconds_of_date(date: Decimal) -> Union[int, Fault]:
    """The second of a Julian date since J2000, or that it is no whole second, or past the limits of dates."""
    seconds = (date.value() - J2000) * DAY
    if seconds.denominator != 1:
        return Fault.JdNotWholeSecond
    return seconds.numerator if 0 <= date.value() <= LAST_DAY else Fault.Limit


def seconds_of_days(days: Decimal) -> Union[int, Fault]:
    """The seconds of so many days, or why a block cannot last so long: no whole seconds, or past the limits."""
    seconds = days.value() * DAY
    if seconds.denominator != 1:
        return Fault.JdNotWholeSecond
    return seconds.numerator if 1 <= seconds <= MAX_BLOCK_DAYS * DAY else Fault.Limit


def read_header(lines: JoinedLines) -> Header:
    """The header, up to and including `GROUP 1070`."""
    try:
        ncoeff = _read_first_line(lines)
        _expect_group(lines.tokens(), 1010, lines)
        _read_titles(lines)
        block_seconds = _read_span(lines)
        _expect_group(lines.tokens(), 1040, lines)
        names = _read_names(lines)
        _expect_group(lines.tokens(), 1041, lines)
        emrat = _read_emrat(lines, names)
        _expect_group(lines.tokens(), 1050, lines)
        columns = _read_columns(lines)
        _check_columns(lines, columns, ncoeff, block_seconds)
        _expect_group(lines.tokens(), 1070, lines)
    except LinesEnded:
        raise lines.error(Fault.Ended) from None
    return Header(ncoeff, block_seconds, emrat, columns)


def _read_first_line(lines: JoinedLines) -> int:
    """`KSIZE=`, any token, `NCOEFF=`, a whole number: how many numbers a block has."""
    tokens = lines.tokens()
    count = read_whole(tokens[3]) if len(tokens) == 4 else None
    if count is None or tokens[0] != b"KSIZE=" or tokens[2] != b"NCOEFF=":
        raise lines.error(Fault.FirstLine)
    if count not in NCOEFF_RANGE:
        raise lines.error(Fault.Limit)
    return count


def _expect_group(tokens: list[bytes], number: int, lines: JoinedLines) -> None:
    """The line has to be `GROUP` and the number."""
    if tokens != [b"GROUP", b"%d" % number]:
        raise lines.error(Fault.GroupMissing, number)


def _read_titles(lines: JoinedLines) -> None:
    """Lines that are not looked at, up to the next that begins with `GROUP`, which has to be that of the span."""
    tokens = lines.tokens()
    while tokens[0] != b"GROUP":
        tokens = lines.tokens()
    _expect_group(tokens, 1030, lines)


def _read_span(lines: JoinedLines) -> int:
    """The first and the last Julian date, which are only checked, and the seconds of a block."""
    tokens = lines.tokens()
    seconds = 0
    for place, read in enumerate((seconds_of_date, seconds_of_date, seconds_of_days)):
        number = read_decimal(tokens[place]) if place < len(tokens) else NumberFault.NOT_NUMBER
        if isinstance(number, NumberFault):
            raise lines.error(Fault.HeaderNumber, number)
        outcome = read(number)
        if isinstance(outcome, Fault):
            raise lines.error(outcome)
        seconds = outcome
    return seconds


def _read_count(lines: JoinedLines) -> int:
    """The first token of the next line, a whole number; further tokens are skipped."""
    count = read_whole(lines.tokens()[0])
    if count is None:
        raise lines.error(Fault.HeaderNumber, NumberFault.NOT_NUMBER)
    return count


def _read_names(lines: JoinedLines) -> list[bytes]:
    """The count of names, and as many names; what is left on the line of the last is skipped."""
    count = _read_count(lines)
    if count > MAX_NAMES:
        raise lines.error(Fault.Limit)
    names: list[bytes] = []
    while len(names) < count:
        names += lines.tokens()
    return names[:count]


def _read_emrat(lines: JoinedLines, names: list[bytes]) -> Decimal:
    """The count of values and as many values, of which only the one of the first name `EMRAT` is read."""
    if _read_count(lines) != len(names):
        raise lines.error(Fault.CountMismatch)
    if b"EMRAT" not in names:
        raise lines.error(Fault.EmratMissing)
    place = names.index(b"EMRAT")
    emrat = Decimal(0, 0)
    seen = 0
    while seen < len(names):
        tokens = lines.tokens()
        if seen <= place < seen + len(tokens):
            emrat = _emrat_of(tokens[place - seen], lines)
        seen += len(tokens)
    return emrat


def _emrat_of(word: bytes, lines: JoinedLines) -> Decimal:
    number = read_decimal(word)
    if isinstance(number, NumberFault):
        raise lines.error(Fault.HeaderNumber, number)
    if not 1 <= number.value() <= 1000:
        raise lines.error(Fault.EmratRange)
    return number


def _read_columns(lines: JoinedLines) -> tuple[Column, ...]:
    """Three lines of as many whole numbers each: the starts, the coefficients and the granules of the columns."""
    rows: list[list[int]] = []
    for _ in range(3):
        tokens = lines.tokens()
        if len(tokens) not in ([len(rows[0])] if rows else COLUMN_COUNTS):
            raise lines.error(Fault.ColumnCount)
        numbers = [read_whole(token) for token in tokens]
        if None in numbers:
            raise lines.error(Fault.HeaderNumber, NumberFault.NOT_NUMBER)
        rows.append([number or 0 for number in numbers])
    return tuple(Column(*row) for row in zip(*rows))


def _check_columns(lines: JoinedLines, columns: tuple[Column, ...], ncoeff: int, block_seconds: int) -> None:
    """Each present column of the first 13: its coefficients, its places, and whole seconds for each granule."""
    taken: list[range] = []
    for number, column in enumerate(columns[:KNOWN_COLUMNS], 1):
        if not column.is_present:
            continue
        if column.coefficients > MAX_COEFFICIENTS:
            raise lines.error(Fault.CoefficientCount)
        places = places_of(number, column)
        is_inside = places.start >= 3 and places.stop - 1 <= ncoeff
        if not is_inside or any(places.start < other.stop and other.start < places.stop for other in taken):
            raise lines.error(Fault.ColumnPlace)
        if block_seconds % column.granules:
            raise lines.error(Fault.GranuleNotWhole)
        taken.append(places)

"""The bytes of an ephemeris text: JPL's form of a number, in which each double comes back to its last bit."""

from __future__ import annotations

import functools
import textwrap
from collections.abc import Iterator
from fractions import Fraction

import numpy as np
import numpy.typing as npt

from ..reports.calendar import DAY
from ..seen.vectors import Floats
from .files import Contents, nothing_of, seconds_of
from .text import COLUMNS, DATE_STEP, OTHER_COLUMNS, EphemerisText

Bytes = npt.NDArray[np.uint8]
# A number in JPL's form: a blank, a blank or a minus, `0.`, 18 digits, `D`, a sign and two digits. Three are in a line.
FIELD = 26
A_LINE = 3
# The bytes of the first line of a block: its number, and how many numbers it has.
HEAD = 13
# The length of a number as `% .17E` writes it, and how many are written at once.
PRINTED = 24
AT_ONCE = 3_000
# What is smaller in magnitude, in km, is written as 0: the exponent has two digits.
SMALLEST = 1e-90
# No file of a text has more bytes, so that it stays below the format's 268,435,456.
MAX_BYTES = 200_000_000
# The letters of a line of the title, and the name of a constant.
TITLE = 84
CONSTANT = 8


def fields(values: Floats) -> Bytes:
    """Numbers in JPL's form, a row of 26 bytes for each: 18 digits, of which 17 tell a double from each other one."""
    flat = _written(values).ravel()
    pieces = [flat[at : at + AT_ONCE].tolist() for at in range(0, len(flat), AT_ONCE)]
    text = "".join([("% .17E" * len(piece)) % tuple(piece) for piece in pieces])
    printed = np.frombuffer(text.encode("ascii"), np.uint8).reshape(-1, PRINTED)
    exponent = (printed[:, 22].astype(int) - 48) * 10 + printed[:, 23] - 48
    # (`0.1` in place of `1`: the exponent is one more, but that of 0)
    exponent = np.where(printed[:, 21] == ord("-"), -exponent, exponent) + (flat != 0)
    made = np.full((len(flat), FIELD), ord(" "), np.uint8)
    made[:, 1] = np.where(flat == 0, ord(" "), printed[:, 0])
    made[:, 2:4] = np.frombuffer(b"0.", np.uint8)
    made[:, 4] = printed[:, 1]
    made[:, 5:22] = printed[:, 3:20]
    made[:, 22] = ord("D")
    made[:, 23] = np.where(exponent < 0, ord("-"), ord("+"))
    made[:, 24] = np.abs(exponent) // 10 + 48
    made[:, 25] = np.abs(exponent) % 10 + 48
    return made


def _written(values: Floats) -> Floats:
    """The numbers that are written: smaller ones are 0."""
    return np.where(np.abs(values) < SMALLEST, 0.0, values)


# A line that is not full ends with zeros.
ZERO = fields(np.zeros(1))


def _units_of_date(seconds: int) -> int:
    """The Julian date of seconds since J2000, in units of 10^-7 days: a whole number for a multiple of 27 seconds."""
    return 24_515_450_000_000 + seconds // DATE_STEP * 3_125


def date_text(seconds: int) -> str:
    """The Julian date of seconds since J2000, a multiple of 27, as an exact decimal."""
    whole, part = divmod(_units_of_date(seconds), 10**7)
    return f"{whole}.{part:07}".rstrip("0").ljust(len(str(whole)) + 3, "0")


def _date_fields(seconds: list[int]) -> Bytes:
    """Julian dates of multiples of 27 seconds in JPL's form, exactly."""
    text = "".join(f"  0.{_units_of_date(each):014}0000D+07" for each in seconds)
    return np.frombuffer(text.encode("ascii"), np.uint8).reshape(-1, FIELD)


def header(text: EphemerisText) -> bytes:
    """The header of a text: the groups that the format has, in its order."""
    days = Fraction(text.block, DAY)
    names, values = _constants((*text.constants.items(), ("EMRAT", text.mass_ratio)))
    groups = {
        "1010": "\n".join(title_lines(text.titles)),
        "1030": f"  {date_text(text.start)}  {date_text(text.end)}  {float(days)!r}",
        "1040": names,
        "1041": values,
        "1050": _columns(text),
    }
    rows = [f"KSIZE={2 * text.numbers:6}    NCOEFF={text.numbers:6}"]
    rows += [f"GROUP   {number}\n\n{body}" for number, body in groups.items()]
    return ("\n\n".join([*rows, "GROUP   1070"]) + "\n\n").encode("ascii")


@functools.lru_cache(maxsize=16)
def _constants(constants: tuple[tuple[str, float], ...]) -> tuple[str, str]:
    """The groups of the names and of the values of constants."""
    names = "".join(f"  {name[:6]:6}" for name, _ in constants)
    values = fields(np.array([value for _, value in constants])).tobytes().decode("ascii")
    count = f"{len(constants):6}\n"
    return count + _wrapped(names, 10 * CONSTANT), count + _wrapped(values, A_LINE * FIELD)


def title_lines(titles: tuple[str, ...]) -> list[str]:
    """The lines of a title, wrapped, in ASCII, none of which is a `GROUP`."""
    lines = []
    for title in titles:
        plain = title.encode("ascii", "backslashreplace").decode("ascii")
        lines += textwrap.wrap(plain, TITLE, subsequent_indent="  ", break_long_words=True) or [""]
    return [f". {line}" if line.split()[:1] == ["GROUP"] else line for line in lines]


def _wrapped(text: str, width: int) -> str:
    """A text in lines of one width."""
    return "\n".join(text[at : at + width] for at in range(0, len(text), width))


def _columns(text: EphemerisText) -> str:
    """The three lines of the columns: starts, coefficients, granules."""
    rows: list[tuple[int, int, int]] = []
    place = 3
    for name in COLUMNS:
        column = text.columns.get(name)
        rows.append((place, column.count, column.granules) if column else (place, 0, 0))
        place += column.numbers if column else 0
    rows += [(place, 0, 0)] * OTHER_COLUMNS
    return "\n".join("".join(f"{number:6}" for number in line) for line in zip(*rows))


def blocks(text: EphemerisText, first: int, last: int) -> bytes:
    """The lines of blocks from one number up to another, counted from 0."""
    numbers = _numbers(text, first, last)
    dates = _date_fields([text.start + text.block * number for number in range(first, last + 1)])[:, None]
    return lines_of(np.concatenate([dates[:-1], dates[1:], fields(numbers).reshape(*numbers.shape, FIELD)], axis=1), first)


def _numbers(text: EphemerisText, first: int, last: int) -> Floats:
    """The coefficients of blocks, a row for each."""
    parts = []
    for name in COLUMNS:
        if name in text.columns:
            column = text.columns[name]
            parts.append(column.coefficients[first * column.granules : last * column.granules].reshape(last - first, -1))
    return np.concatenate(parts, axis=1)


def lines_of(numbers: Bytes, first: int) -> bytes:
    """The lines of blocks that begin with one number, counted from 0, of their dates and coefficients as `fields` writes
    them: by block, number and byte."""
    count, total = numbers.shape[:2]
    rows = -(-total // A_LINE)
    filled = np.empty((count, rows * A_LINE, FIELD), np.uint8)
    filled[:, :total] = numbers
    filled[:, total:] = ZERO
    made = np.empty((count, length_of_block(total)), np.uint8)
    heads = "".join(f"{number + 1:6}{total:6}\n" for number in range(first, first + count)).encode("ascii")
    made[:, :HEAD] = np.frombuffer(heads, np.uint8).reshape(count, HEAD)
    lines = made[:, HEAD:].reshape(count, rows, A_LINE * FIELD + 1)
    lines[:, :, :-1] = filled.reshape(count, rows, A_LINE * FIELD)
    lines[:, :, -1] = ord("\n")
    return made.tobytes()


def length_of_block(numbers: int) -> int:
    """The bytes of the lines of a block that has so many numbers, its dates among them."""
    return HEAD + -(-numbers // A_LINE) * (A_LINE * FIELD + 1)


def fields_of(lines: Bytes, numbers: int) -> Bytes:
    """The numbers of blocks as `fields` writes them, by block, number and byte, of the lines of each block."""
    rows = -(-numbers // A_LINE)
    feeds = lines[:, HEAD:].reshape(len(lines), rows, A_LINE * FIELD + 1)
    found: Bytes = feeds[:, :, :-1].reshape(len(lines), rows * A_LINE, FIELD)
    return found


def contents(text: EphemerisText, start: float, end: float) -> Contents:
    """What `files.read` reads of the files of a text, bit for bit: 18 digits tell a double from each other one."""
    edges = [text.start + text.block * number for number in range(text.blocks + 1)]
    dates = np.array([_units_of_date(edge) / 10**7 for edge in edges])
    low, high = seconds_of(dates[0]), seconds_of(dates[-1])
    kept = np.flatnonzero((seconds_of(dates[1:]) > start) & (seconds_of(dates[:-1]) < end))
    if not len(kept):
        raise nothing_of(low, high, start, end)
    first, last = int(kept[0]), int(kept[-1]) + 1
    rows = [dates[first:last, None], dates[first + 1 : last + 1, None], _written(_numbers(text, first, last))]
    return Contents(header(text).split(), np.concatenate(rows, axis=1), low, high)


def files(text: EphemerisText) -> Iterator[bytes]:
    """The files of a text in their order, each of at most 200,000,000 bytes: one that has the header and all blocks; or
    the header alone, and then files of blocks, each of which begins with the last block of the one before."""
    text.checked()
    head = header(text)
    bytes_of_block = len(blocks(text, 0, 1))
    most = max(2, (MAX_BYTES - len(head)) // bytes_of_block)
    if text.blocks <= most:
        yield head + blocks(text, 0, text.blocks)
        return
    yield head
    first = 0
    while first < text.blocks - 1:
        last = min(text.blocks, first + most)
        yield blocks(text, first, last)
        first = last - 1

"""The fields of a row of a table of values: what a row gives is read, and what it answers is made anew.

A row is a word that says its kind, and fields, separated by one blank. In a field of bytes `~` is a blank, `%` with two
hexadecimal digits is the byte of that number, `%` alone is no byte at all, and each other byte is itself.
"""

from __future__ import annotations

import re
from typing import Iterable, Union

from .decimals import Decimal
from .enclosures import Enclosure, Span
from .expressions import Coordinate, Cosine, Difference, Expression, Length, Product, Quantity, SignedSquare, Sum
from .intervals import Interval
from .kinds import Query, dot, square, vector

_ESCAPE = re.compile(r"%([0-9A-Fa-f]{2})|(.)", re.DOTALL)


def bytes_of_field(field: str) -> bytes:
    """The bytes that a field says."""
    if field == "%":
        return b""
    pieces = _ESCAPE.findall(field)
    return b"".join(bytes.fromhex(code) if code else letter.replace("~", " ").encode() for code, letter in pieces)


def field_of_bytes(text: bytes) -> str:
    """The field that says these bytes: printed letters stand for themselves, except for `%` and `~`."""
    if not text:
        return "%"
    return "".join(_letter_of(code) for code in text)


def _letter_of(code: int) -> str:
    letter = chr(code)
    if letter == " ":
        return "~"
    return letter if "!" <= letter <= "}" and letter != "%" else f"%{code:02X}"


def quantity_of(word: str) -> Quantity:
    """The quantity that a word names. Raises ValueError if it names none."""
    quantities: dict[str, Quantity] = {"position": "position", "velocity": "velocity"}
    if word not in quantities:
        raise ValueError(f"{word} is no quantity")
    return quantities[word]


class Fields:
    """A row that is taken apart from left to right, and made anew: `row()` has what was taken and what was answered."""

    def __init__(self, row: str) -> None:
        self.kind, *self._words = row.split(" ")
        self._made: list[str] = [self.kind]
        self._at = 0

    def row(self) -> str:
        """The row as it is answered."""
        return " ".join(self._made)

    def word(self) -> str:
        """The next field, as it stands. Raises ValueError if there is none."""
        if self._at >= len(self._words):
            raise ValueError(f"a row of {self.kind} has too few fields")
        word = self._words[self._at]
        self._at += 1
        self._made.append(word)
        return word

    def number(self) -> int:
        """The next field, a whole number."""
        return int(self.word())

    def bytes(self) -> bytes:
        """The bytes of the next field."""
        return bytes_of_field(self.word())

    def interval(self) -> Interval:
        """Low end, high end and exponent of 2."""
        return Interval(self.number(), self.number(), self.number())

    def decimal(self) -> Decimal:
        """Mantissa and exponent of 10."""
        return Decimal(self.number(), self.number())

    def span(self) -> Span:
        """The first and the last tick."""
        return Span(self.number(), self.number())

    def query(self) -> Query:
        """Kind, target, second body or `-`, observer, frame, axis, two decimals, and direction."""
        kind, target, second = self.word(), self.word(), self.word()
        observer, frame, axis = self.word(), self.word(), self.number()
        values = self.decimal(), self.decimal()
        return Query(kind, target, None if second == "-" else second, observer, frame, axis, *values, self.word())

    def coordinate(self) -> Coordinate:
        """A quantity, a target and an axis."""
        return Coordinate(self.quantity(), self.number(), self.number())

    def quantity(self) -> Quantity:
        """The word `position` or `velocity`. Raises ValueError for another one."""
        return quantity_of(self.word())

    def expression(self) -> Expression:
        """An operation and then its operands, or a constant, or a coordinate."""
        word = self.word()
        if word == "sum":
            return Sum(self.expression(), self.expression())
        if word == "difference":
            return Difference(self.expression(), self.expression())
        if word == "product":
            return Product(self.expression(), self.expression())
        if word == "signed_square":
            return SignedSquare(self.expression())
        if word == "dot":
            vectors = [vector(self.quantity(), self.number()) for _ in range(2)]
            return dot(*vectors)
        if word == "squared_length":
            return square(Length(self.decimal()))
        if word in ("length", "cosine"):
            return Length(self.decimal()) if word == "length" else Cosine(self.decimal())
        return Coordinate(quantity_of(word), self.number(), self.number())

    def answer(self, values: Iterable[Union[str, int]]) -> None:
        """Answers the next fields; what stands there is passed over."""
        answered = [str(value) for value in values]
        self._made += answered
        self._at += len(answered)

    def answer_enclosure(self, enclosure: Enclosure) -> None:
        """Answers the intervals of mid, range and step."""
        self.answer(number for interval in enclosure for number in interval)

    def leave_room(self) -> int:
        """Passes over the next field, which is answered later, by its place."""
        self.answer(["-"])
        return len(self._made) - 1

    def fill(self, place: int, value: str) -> None:
        """Answers a field that was passed over."""
        self._made[place] = value

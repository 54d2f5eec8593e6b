"""Texts cut into lines, and lines into tokens.

    >>> [line.tokens for line in counted_lines(b"KSIZE=  52\\r\\n\\n\\tGROUP 1010")]
    [[b'KSIZE=', b'52'], [b'GROUP', b'1010']]
"""

from __future__ import annotations

import re
from typing import Iterator, NamedTuple, Union

MAX_LINE = 4096
"""The most bytes of a line, without its line end."""

_TOKEN = re.compile(rb"[^ \t]+")


class Line(NamedTuple):
    """A line with tokens. Lines are numbered from 1, blank ones too."""

    number: int
    tokens: list[bytes]


class LongLine(NamedTuple):
    """A line of more than `MAX_LINE` bytes, which is no line of any form."""

    number: int


def tokens_of(piece: bytes) -> list[bytes]:
    """The parts of a line between blanks and tabs that are not empty."""
    return _TOKEN.findall(piece)


def cut_lines(text: bytes) -> list[bytes]:
    """All lines of a text, blank ones too, without their ends.

    A line ends at a line feed. One carriage return just before it, or at the end of the last piece, belongs to the end.
    A last piece without a line feed is a line if it is not empty. So a last piece that is one carriage return is a
    blank line.
    """
    pieces = text.split(b"\n")
    if not pieces[-1]:
        del pieces[-1]
    return [piece[:-1] if piece.endswith(b"\r") else piece for piece in pieces]


def counted_lines(text: bytes) -> Iterator[Union[Line, LongLine]]:
    """The lines that count, in order: those with tokens, up to and including the first one that is too long."""
    for number, piece in enumerate(cut_lines(text), 1):
        if len(piece) > MAX_LINE:
            yield LongLine(number)
            return
        tokens = tokens_of(piece)
        if tokens:
            yield Line(number, tokens)


def end_number(text: bytes) -> int:
    """The number of lines plus 1, at which a text that ends too early is at fault."""
    return len(cut_lines(text)) + 1

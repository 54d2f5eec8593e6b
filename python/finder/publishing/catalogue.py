"""A catalogue of searches: a line for each, with its name and its options."""

from __future__ import annotations

import re
import shlex
from collections.abc import Sequence
from typing import NamedTuple

from ..process.messages import shown

NAME = re.compile(r"[a-z0-9][a-z0-9-]*")


class Refused(Exception):
    """What is asked for is not published, or what was published is not what it has to be."""


class Search(NamedTuple):
    """A line of the catalogue: a name, and the options of the search."""

    name: str
    options: list[str]

    @property
    def files(self) -> list[str]:
        """The names of its certificate and its report."""
        return [f"{self.name}.cert", f"{self.name}.report"]


def searches_of(text: bytes) -> list[Search]:
    """The searches of a catalogue, no two of one name."""
    searches: list[Search] = []
    for number, line in enumerate(_lines_of(text), 1):
        try:
            words = shlex.split(line, comments=True)
        except ValueError as error:
            raise Refused(f"catalogue line {number}: {error}") from None
        if not words:
            continue
        if not NAME.fullmatch(words[0]):
            raise Refused(f"catalogue line {number}: a name has small letters, digits and hyphens: {shown(words[0])}")
        if words[0] in (search.name for search in searches):
            raise Refused(f"catalogue line {number}: the name {words[0]} stands there twice")
        if not _are_options(words[1:]):
            raise Refused(f"catalogue line {number}: options of `finder find` alone are wanted, without files")
        searches.append(Search(words[0], words[1:]))
    if not searches:
        raise Refused("the catalogue has no search")
    return searches


def _lines_of(text: bytes) -> list[str]:
    """The lines of a catalogue, which is UTF-8 and has no other end of a line than a line feed."""
    lines = text.split(b"\n")
    for number, line in enumerate(lines, 1):
        if b"\r" in line:
            raise Refused(
                f"catalogue line {number}: it has a carriage return, as in files of DOS: `sed -i 's/\\r$//' CATALOGUE`"
                " removes them"
            )
        if b"\0" in line:
            raise Refused(f"catalogue line {number}: it has a NUL, which no option has")
    try:
        return [line.decode("utf-8") for line in lines]
    except UnicodeDecodeError as error:
        raise Refused(f"the catalogue is no UTF-8: {error.reason}") from None


def _are_options(words: Sequence[str]) -> bool:
    """Whether words are options with their values alone, none of which names a certificate."""
    wants_value = False
    for word in words:
        if not wants_value and (not word.startswith("--") or word.split("=")[0] in ("--", "--cert")):
            return False
        wants_value = not wants_value and "=" not in word
    return not wants_value

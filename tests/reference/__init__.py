"""The exact reference of `finder`: a second program that answers the same command lines, to compare the program with.

It is written from the documents of the formats and the definitions alone. It computes with whole numbers and fractions.
It shares no line with the program, with the package for Python or with the checker of certificates.

    >>> outcome = answer([b"scalar", b"--quad", b"1,0,-100", b"--from=0", b"--to", b"50"], {})
    >>> print(outcome.output.decode(), end="")
    SCALAR quad 1,0,-100 dir any width 1 depth 40 cut half span 0 50
    C 10 10 rise
    END certain 1 undecided 0
"""

from __future__ import annotations

from typing import Mapping, NamedTuple, Optional, Sequence

from .command import run
from .devices import READ_SIZE, Calls, MemoryShelf, MemorySink

__all__ = ["Outcome", "answer"]

DEVICES = ("shelf", "out-sink", "err-sink")


class Outcome(NamedTuple):
    """What a run returns, and what it writes to standard output and standard error."""

    status: int
    output: bytes
    error: bytes


def _sink(limits: str) -> MemorySink:
    """An output of a stored case: `ROOM PIECE CALL..`, or nothing for one that takes all."""
    numbers = [int(word) for word in limits.split()]
    if not numbers:
        return MemorySink()
    room, piece, *failing = numbers
    return MemorySink(room, piece, Calls(frozenset(failing)))


def _shelf(files: Mapping[bytes, bytes], limits: str) -> MemoryShelf:
    """The files of a stored case: `PIECE CALL..`, or nothing if all calls succeed."""
    piece, *failing = [int(word) for word in limits.split()] or [READ_SIZE]
    return MemoryShelf(files, piece, Calls(frozenset(failing)))


def answer(
    words: Sequence[bytes], files: Mapping[bytes, bytes], devices: Optional[Mapping[str, str]] = None
) -> Outcome:
    """The outcome of a command line, the program's name aside, over files in memory by their names.

    `devices` says what fails, in the words of a stored case. `shelf` is `PIECE CALL..`: a read gives at most PIECE
    bytes, and the openings and readings of these numbers fail, counted from 1. `out-sink` and `err-sink` are `ROOM
    PIECE CALL..`: an output takes ROOM bytes in all and PIECE in a write, and the writes of these numbers fail. A
    device that is not named never fails. Raises ValueError for another device or other words.
    """
    limits = dict(devices or {})
    if not set(limits) <= set(DEVICES):
        raise ValueError(f"no such devices: {', '.join(sorted(set(limits) - set(DEVICES)))}")
    output, error = _sink(limits.get("out-sink", "")), _sink(limits.get("err-sink", ""))
    status = run(words, _shelf(files, limits.get("shelf", "")), output, error)
    return Outcome(int(status), output.taken, error.taken)

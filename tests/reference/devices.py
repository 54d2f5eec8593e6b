"""Files to read and outputs to write: in memory, with calls that fail and limits of what a call gives; or real ones."""

from __future__ import annotations

import os
from dataclasses import dataclass, field
from typing import BinaryIO, Mapping, Optional, Protocol

READ_SIZE = 65_536
"""The most bytes that are asked for in a read."""


class DeviceError(Exception):
    """A call of a device failed."""


class Shelf(Protocol):
    """Files by their names. One is open at a time."""

    def open(self, name: bytes) -> None:
        """Opens a file. Raises `DeviceError` if it is not there."""

    def read(self, most: int) -> bytes:
        """The next bytes of the open file, at most so many; none at its end."""


class Sink(Protocol):
    """An output."""

    def write(self, piece: bytes) -> int:
        """Takes a prefix of the bytes, and returns its length."""


@dataclass
class Calls:
    """Counts calls from 1 on; those of some numbers fail."""

    failing: frozenset[int] = frozenset()
    count: int = 0

    def call(self) -> None:
        """Counts a call. Raises `DeviceError` if it is to fail."""
        self.count += 1
        if self.count in self.failing:
            raise DeviceError


@dataclass
class MemoryShelf:
    """Files in memory: a read gives at most `piece` bytes; the calls are openings and readings."""

    files: Mapping[bytes, bytes]
    piece: int = READ_SIZE
    calls: Calls = field(default_factory=Calls)
    text: bytes = b""
    at: int = 0

    def open(self, name: bytes) -> None:
        """Opens a file."""
        self.calls.call()
        if name not in self.files:
            raise DeviceError
        self.text, self.at = self.files[name], 0

    def read(self, most: int) -> bytes:
        """The next bytes."""
        self.calls.call()
        piece = self.text[self.at : self.at + min(most, self.piece)]
        self.at += len(piece)
        return piece


@dataclass
class MemorySink:
    """An output in memory that takes at most `room` bytes in all and `piece` in a write. None is no limit."""

    room: Optional[int] = None
    piece: Optional[int] = None
    calls: Calls = field(default_factory=Calls)
    taken: bytes = b""

    def write(self, piece: bytes) -> int:
        """Takes what there is room for."""
        self.calls.call()
        size = len(piece) if self.piece is None else min(len(piece), self.piece)
        if self.room is not None:
            size = min(size, self.room - len(self.taken))
        self.taken += piece[:size]
        return size


class FileShelf:
    """Real files."""

    def __init__(self) -> None:
        self._file: Optional[BinaryIO] = None

    def open(self, name: bytes) -> None:
        """Opens a file."""
        self.close()
        try:
            self._file = open(name, "rb")
        except (OSError, ValueError):
            raise DeviceError from None

    def read(self, most: int) -> bytes:
        """The next bytes."""
        assert self._file is not None, "no file is open"
        try:
            return self._file.read(most)
        except OSError:
            raise DeviceError from None

    def close(self) -> None:
        """Closes the open file, if there is one."""
        if self._file is not None:
            self._file.close()


@dataclass
class StreamSink:
    """A file that is open for writing, by its number."""

    number: int

    def write(self, piece: bytes) -> int:
        """Writes a prefix."""
        try:
            return os.write(self.number, piece)
        except OSError:
            raise DeviceError from None

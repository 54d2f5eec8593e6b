"""Calls of the library for C, through a program in C, in the layout of include/finder.h."""

from __future__ import annotations

import shutil
import struct
import subprocess
from collections.abc import Mapping, Sequence
from pathlib import Path
from typing import NamedTuple

from tests.support.case_runs import COMPILERS, Answer
from tests.support.settings import TOP

LIBRARY = TOP / "release" / "libfinder-x86_64-linux.so"
SOURCE = TOP / "tests" / "support" / "library_calls.c"
FLAGS = ("-O2", "-Wall", "-Wextra", "-Werror", f"-I{TOP / 'include'}")
NO_ROOM, MALFORMED = 5, 64
ROOM = 1 << 16
MARK = b"\xa5"


class Reply(NamedTuple):
    """What a call returned: its status, how long the whole text is, and all bytes of the room."""

    status: int
    length: int
    room: bytes

    def text(self) -> bytes:
        """The text, as far as there was room."""
        return self.room[: self.length]


def compiler() -> str:
    """A compiler of C, or nothing."""
    return next((found for found in map(shutil.which, COMPILERS) if found), "")


def build_caller(folder: Path, library: Path = LIBRARY) -> Path:
    """Compiles the program that calls the library."""
    shutil.copyfile(library, folder / "libfinder.so")
    made, link = folder / "calls", (f"-L{folder}", "-lfinder", f"-Wl,-rpath,{folder}")
    subprocess.run([compiler(), *FLAGS, "-o", made, SOURCE, *link], check=True)
    return made


def laid_out(words: Sequence[bytes], files: Mapping[bytes, bytes]) -> tuple[bytes, bytes]:
    """The bytes of words and files."""
    rows = (b"%s\0%s%s" % (name, struct.pack("<Q", len(text)), text) for name, text in files.items())
    return b"".join(word + b"\0" for word in words), b"".join(rows)


class Caller:
    """A process that makes calls, one after the other."""

    def __init__(self, program: Path) -> None:
        self._process = subprocess.Popen([program], stdin=subprocess.PIPE, stdout=subprocess.PIPE)

    def close(self) -> int:
        """Ends it, and returns its status."""
        self._process.communicate()
        return self._process.returncode

    def kill(self) -> None:
        """Ends it at once."""
        self._process.kill()
        self._process.wait()

    def call(self, words: bytes, files: bytes, room: int = ROOM) -> Reply:
        """One call."""
        given, taken = self._process.stdin, self._process.stdout
        assert given and taken
        given.write(struct.pack("<3Q", len(words), len(files), room) + words + files)
        given.flush()
        status, length = struct.unpack("<BQ", taken.read(9))
        return Reply(status, length, taken.read(room))

    def answer(self, words: Sequence[bytes], files: Mapping[bytes, bytes]) -> Answer:
        """The answer of the command, by as many calls as its text needs."""
        given = laid_out(words, files)
        reply = self.call(*given)
        if reply.status == NO_ROOM:
            reply = self.call(*given, room=reply.length)
        return Answer(reply.status, b"" if reply.status else reply.text(), reply.text() if reply.status else b"")

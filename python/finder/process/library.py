"""The library of the command, called in this process: the same texts, and the same refusals."""

from __future__ import annotations

import ctypes
import functools
import os
import shlex
import struct
import time
from collections.abc import Iterator, Sequence
from pathlib import Path
from typing import Any, Optional, Union

import numpy as np

from .guard import Outcome
from .messages import shown
from .path import LIBRARY, NoProgram
from .program import LOG, OverBudget, Runs, answer_of

Word = Union[str, bytes]
# The statuses of include/finder.h that the command lacks, or gives for another cause.
NO_ROOM = 5
# Room for the text of a search, and for that of commands that print more. A longer text costs a second call.
ROOM = 1 << 20
MORE_ROOM = 1 << 24
LONG = (b"cert", b"gen")
# What the program puts in the place of words that are no UTF-8.
REFUSED = [b"check"]


def find_library() -> Path:
    """The library of this machine: the one that was installed with this package, or that of the clone that it is in."""
    here = Path(__file__).resolve().parents[1]
    for folder in (here, here.parents[1] / "release"):
        if (folder / LIBRARY).is_file():
            return folder / LIBRARY
    raise NoProgram(f"there is no {LIBRARY} beside the package: leave in_process= out, and the command searches")


@functools.lru_cache(maxsize=None)
def _call() -> Any:
    """The call of the library, which ctypes makes without the lock of the interpreter."""
    name = find_library()
    try:
        call = ctypes.CDLL(str(name)).finder_call
    except OSError as error:
        raise NoProgram(f"{shown(str(name))} cannot be loaded: {shown(str(error))}") from None
    bytes_of = (ctypes.c_char_p, ctypes.c_size_t)
    call.argtypes = [*bytes_of, *bytes_of, ctypes.c_void_p, ctypes.c_size_t, ctypes.POINTER(ctypes.c_size_t)]
    call.restype = ctypes.c_uint8
    return call


def _is_text(word: bytes) -> bool:
    """Whether bytes are UTF-8."""
    try:
        word.decode("utf-8")
    except UnicodeDecodeError:
        return False
    return True


def words_of(words: Sequence[Word]) -> list[bytes]:
    """The words of a command line as the program takes them."""
    given = [os.fsencode(word) for word in words]
    if any(b"\0" in word for word in given):
        raise ValueError("embedded null byte")
    return given if all(map(_is_text, given)) else REFUSED


def _names_in(words: Sequence[bytes]) -> Iterator[bytes]:
    """The names of files in a command line, as this package writes it: all behind `--`, and that of a certificate."""
    options, names = list(words), list[bytes]()
    if b"--" in words:
        place = options.index(b"--")
        options, names = options[:place], options[place + 1 :]
    names += [word[len(b"--cert=") :] for word in options if word.startswith(b"--cert=")]
    yield from dict.fromkeys(names)


def _files_of(names: Iterator[bytes]) -> Iterator[bytes]:
    """The files that can be read, laid out for the call."""
    for name in names:
        try:
            with open(name, "rb") as file:
                content = file.read()
        except OSError:
            continue
        yield name + b"\0" + struct.pack("<Q", len(content))
        yield content


def outcome_of(words: Sequence[bytes], files: bytes) -> Outcome:
    """What the library returns for words, and for files that are laid out."""
    line = b"".join(word + b"\0" for word in words)
    room, length = MORE_ROOM if words[:1] and words[0] in LONG else ROOM, ctypes.c_size_t()
    status = NO_ROOM
    while status == NO_ROOM:
        text = np.empty(room, np.uint8)
        status = _call()(line, len(line), files, len(files), text.ctypes.data, room, ctypes.byref(length))
        room = length.value
    said = text[: length.value].tobytes()
    return Outcome(status, b"" if status else said, said if status else b"")


class InProcess(Runs):
    """Calls of the library in place of processes. They start no thread, and cannot be ended."""

    def __init__(self, program: object, timeout: Optional[float]) -> None:
        if program is not None:
            raise TypeError("program= names a command, and in_process=True runs none")
        if timeout is not None:
            raise TypeError("a search in this process cannot be ended: leave timeout= out")
        _call()
        self._stopped = False

    def run(self, words: Sequence[Word], budget: Optional[float] = None) -> str:
        """What the command prints for these words: `OverBudget` where it may take so many seconds and no more."""
        self.refuse_stopped()
        if budget is not None:
            raise OverBudget
        began, given = time.monotonic(), words_of(words)
        ended = outcome_of(given, b"".join(_files_of(_names_in(given))))
        told = shown(shlex.join(map(os.fsdecode, words)))
        LOG.info("%s: status %d, %.3f seconds, in this process", told, ended.status, time.monotonic() - began)
        return answer_of(ended, [os.fsdecode(word) for word in words])

    def stop(self) -> None:
        """Starts no search any more."""
        self._stopped = True

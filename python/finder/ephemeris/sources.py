"""The files of a source: names, folders and patterns; compressed or not; and what each is, by its first bytes."""

from __future__ import annotations

import bz2
import contextlib
import enum
import glob
import gzip
import lzma
import mmap
import os
import re
import struct
from collections.abc import Iterable
from dataclasses import dataclass
from pathlib import Path
from typing import Any, Optional, Union

from ..public import public
from .cache import cache_folder
from .sums import sha256_of_source

# What the first bytes of a file say of it.
HEADER = re.compile(rb"[ \t]*KSIZE=")
BLOCK_FIRST = re.compile(rb"[ \t\r\n]*[0-9]+[ \t]+[0-9]+[ \t]*\r?\n[ \t]*[0-9.]+[DdEe][+-]?[0-9]+[ \t]")
COMPRESSED: dict[bytes, Any] = {b"\x1f\x8b": gzip, b"BZh": bz2, b"\xfd7zXZ\x00": lzma}
SPK_IDS = (b"DAF/SPK ", b"NAIF/DAF")
# The three dates of a binary DE file, after three titles of 84 letters and 400 names of six.
DATES_AT = 3 * 84 + 400 * 6
LOOKED_AT = DATES_AT + 24
# The days of a block, by which a date differs from eight bytes in the other order.
SHORTEST_BLOCK, LONGEST_BLOCK = 1e-5, 64.0


class Form(enum.Enum):
    """What a file is."""

    ASCII = "JPL's ASCII form of DE"
    BINARY = "JPL's binary form of DE"
    SPK = "an SPK kernel"


@public
class WrongSource(ValueError):
    """A source that cannot be read: the file is named, what it is, and what to do.

    >>> import finder
    >>> issubclass(finder.WrongSource, ValueError)
    True
    """


@dataclass(frozen=True)
class SourceFile:
    """A file of a source: its name as it was given or found, what it is, its bytes, decompressed, and the SHA-256 of
    the file as it lies there."""

    name: str
    form: Form
    data: Any
    is_plain: bool
    sha256: str

    @property
    def last_name(self) -> str:
        """The name without its folder."""
        return os.path.basename(self.name)


def source_files(source: Any) -> list[SourceFile]:
    """The files of a source, all of one form."""
    files = [_read(name) for name in _names(source)]
    forms = {file.form: file for file in files}
    if len(forms) > 1:
        found = " and ".join(f"{file.name} is {form.value}" for form, file in forms.items())
        raise WrongSource(f"a source is of one form, and {found}: name files of one of them")
    return files


def _names(source: Any) -> list[str]:
    """The names of the files of a name, a folder, a pattern, or several of these."""
    if isinstance(source, (str, os.PathLike)):
        return _of_name(os.fspath(source))
    if isinstance(source, bytes) or hasattr(source, "read") or not isinstance(source, Iterable):
        raise TypeError(f"a source is a name, a path, a folder, a pattern or several of these, and not {source!r}")
    named = list(source)
    if not all(isinstance(name, (str, os.PathLike)) for name in named):
        raise TypeError(f"a source is a name, a path, a folder, a pattern or several of these, and not {named!r}")
    made = [found for name in named for found in _of_name(os.fspath(name))]
    if not made:
        raise WrongSource("no file is named: a name, a path, a folder or a pattern is wanted")
    return made


def _of_name(name: str) -> list[str]:
    if os.path.isdir(name):
        found = [str(path) for path in sorted(Path(name).iterdir()) if path.is_file() and _is_known(str(path))]
        if not found:
            raise WrongSource(f"the folder {name} has no file of an ephemeris: {_known_forms()}")
        return found
    if not os.path.exists(name) and glob.has_magic(name):
        found = sorted(glob.glob(name))
        if not found:
            raise FileNotFoundError(f"no file is like {name}")
        return [each for path in found for each in _of_name(path)]
    if not name:
        raise WrongSource("no file is named: the name is empty")
    return [name]


def _is_known(name: str) -> bool:
    """Whether a file of a folder is one of an ephemeris; the others are passed over."""
    try:
        return _form(_first(name)) is not None
    except (OSError, EOFError, ValueError, lzma.LZMAError):
        return False


def _first(name: str) -> bytes:
    """The first bytes of a file, decompressed."""
    with open(name, "rb") as file:
        first = file.read(LOOKED_AT)
    for begin, compression in COMPRESSED.items():
        if first.startswith(begin):
            with compression.open(name, "rb") as inner:
                return bytes(inner.read(LOOKED_AT))
    return first


def _form(first: bytes) -> Optional[Form]:
    """What a file is by its first bytes."""
    if first.startswith(SPK_IDS):
        return Form.SPK
    if HEADER.match(first) or BLOCK_FIRST.match(first):
        return Form.ASCII
    if len(first) >= LOOKED_AT and byte_order(first):
        return Form.BINARY
    return None


def byte_order(first: bytes) -> str:
    """The byte order of a binary DE file, `<` or `>`: that in which its three dates are dates; else nothing."""
    for order in "<>":
        start, end, days = struct.unpack_from(f"{order}3d", first, DATES_AT)
        if -1e7 < start < end < 1e7 and SHORTEST_BLOCK < days <= end - start and days <= LONGEST_BLOCK:
            return order
    return ""


def _known_forms() -> str:
    return "JPL's ASCII or binary files of DE are read, SPK kernels, and each of these as .gz, .bz2 or .xz"


def _read(name: str) -> SourceFile:
    """A file, whose bytes are mapped where it is not compressed."""
    data = _mapped(name)
    sha256 = sha256_of_source(name, data, cache_folder())
    plain: Union[bytes, mmap.mmap] = data
    for begin, compression in COMPRESSED.items():
        if data[: len(begin)] == begin:
            try:
                plain = compression.decompress(bytes(data))
            except (OSError, EOFError, ValueError, lzma.LZMAError) as error:
                raise WrongSource(f"{name} is compressed and damaged ({error}): copy it anew") from None
    form = _form(plain[:LOOKED_AT])
    if form is None:
        raise WrongSource(f"{name} {_what_else(plain[:LOOKED_AT])}: {_known_forms()}")
    return SourceFile(name, form, plain, plain is data, sha256)


def _mapped(name: str) -> Union[bytes, mmap.mmap]:
    with open(name, "rb") as file:
        with contextlib.suppress(ValueError):
            # (an empty file cannot be mapped)
            return mmap.mmap(file.fileno(), 0, access=mmap.ACCESS_READ)
        return file.read()


def _what_else(first: bytes) -> str:
    """What a file is that is none of an ephemeris."""
    if not first:
        return "is empty"
    if first.startswith(b"DAFETF"):
        return "is a kernel in the transfer form: turn it into a binary one by NAIF's `tobin`"
    if first.startswith(b"DAF/"):
        return f"is a kernel {first[:7].decode()}, and no SPK"
    if first.startswith(b"PK\x03\x04"):
        return "is a zip archive: unpack it"
    return f"begins with {first[:16]!r}, as no ephemeris does"

"""The names of files, of all that a call takes as `files`: the one place where searches and readings of files ask."""

from __future__ import annotations

import contextlib
import glob
import os
from collections.abc import Iterable, Sequence
from typing import Protocol, Union, runtime_checkable

from .order import WrongFiles, content_of, in_order

# How files begin that the program does not read, and what they are.
OTHER_FORMS = {
    b"\x1f\x8b": "is compressed by gzip",
    b"BZh": "is compressed by bzip2",
    b"\xfd7zXZ\x00": "is compressed by xz",
    b"DAF/SPK ": "is an SPK kernel",
    b"NAIF/DAF": "is an SPK kernel",
    b"JPL Planetary": "is a binary file of DE",
}
LONGEST_BEGIN = max(map(len, OTHER_FORMS))


@runtime_checkable
class HasFiles(Protocol):
    """What stands for files: `files` are the names of its texts, the header's first and the blocks in order of time."""

    @property
    def files(self) -> Sequence[str]:
        """The names."""


Files = Union[str, os.PathLike[str], HasFiles, Iterable[Union[str, os.PathLike[str]]]]


def file_names(files: Files) -> list[str]:
    """The names of one file, of several, or of what has `files`, in the order of their blocks: `WrongFiles` where no
    order keeps every block. A folder stands for the texts of DE series in it, and `*` and `?` for what they match."""
    if isinstance(files, (str, os.PathLike)):
        return in_order(_named(files))
    if isinstance(files, HasFiles):
        return [_file_name(file) for file in files.files]
    if files is None or hasattr(files, "read") or isinstance(files, bytes) or not isinstance(files, Iterable):
        raise TypeError(f"files are a name, a path, or several of them, and not {_shown(files)}")
    return in_order([name for file in files for name in _named(file)])


def some_names(files: Files) -> list[str]:
    """The names of files, of which there is one at least."""
    names = file_names(files)
    if not names:
        raise ValueError("no file is named: a name, a path, or several of them are wanted")
    return names


def _named(file: Union[str, os.PathLike[str]]) -> list[str]:
    """The files that a name stands for: a folder, a pattern of names, or itself."""
    name = _file_name(file)
    if os.path.isdir(name):
        return _texts_of(name)
    found = sorted(glob.glob(name)) or [name] if not os.path.exists(name) and glob.has_magic(name) else [name]
    for each in found:
        _refuse_other_forms(each)
    return found


def _refuse_other_forms(name: str) -> None:
    """Refuses a file that `Ephemeris.open` reads and the program does not: compressed, or of another form."""
    if not os.path.isfile(name):
        return
    with contextlib.suppress(OSError), open(name, "rb") as file:
        first = file.read(LONGEST_BEGIN)
        form = next((form for begin, form in OTHER_FORMS.items() if first.startswith(begin)), None)
        if form is not None:
            raise WrongFiles(f"{name} {form}: search finder.Ephemeris.open({name!r}), which reads it")


def _texts_of(folder: str) -> list[str]:
    """The texts of the one DE series that a folder has, in files that are not hidden."""
    names = sorted(entry.path for entry in os.scandir(folder) if entry.is_file() and not entry.name.startswith("."))
    found = {name: content for name in names if (content := content_of(name))}
    heads = [name for name, content in found.items() if content.has_header]
    if not found:
        raise WrongFiles(f"the folder {folder} has no text of a DE series, as header.405 and ascp2000.405")
    if len(heads) > 1:
        raise WrongFiles(
            f"the folder {folder} has {len(heads)} headers, {heads[0]} and others: name files of one series"
        )
    return list(found)


def _file_name(file: Union[str, os.PathLike[str]]) -> str:
    if not isinstance(file, (str, os.PathLike)):
        raise TypeError(f"a file is a name or a path, and not {_shown(file)}")
    name = os.fspath(file)
    if not name:
        raise ValueError("no file is named: the name is empty")
    return name


def _shown(file: object) -> str:
    """What was given in place of a name."""
    if hasattr(file, "read"):
        return f"an opened file: give its name, {getattr(file, 'name', 'as a text')!r}"
    return repr(file)

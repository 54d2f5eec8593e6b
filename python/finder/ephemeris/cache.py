"""Texts that are kept: each in a folder of its own, named by its key, written whole or not at all.

The folder is `$FINDER_CACHE`, or `$XDG_CACHE_HOME/finder`, or `~/.cache/finder`. Many processes may use it at once: one
makes a text while the others wait for it, and what a process leaves that was killed is no text and is swept away later.
"""

from __future__ import annotations

import contextlib
import errno
import fcntl
import hashlib
import json
import os
import shutil
import tempfile
import time
from collections.abc import Callable, Iterable, Iterator
from dataclasses import dataclass, field, replace
from pathlib import Path
from typing import TYPE_CHECKING, Any, NamedTuple, Optional, Protocol, runtime_checkable

from ..process import scratch
from ..process.whole_files import copy_whole
from .sums import SUMS, sha256_of

if TYPE_CHECKING:
    from .text import EphemerisText

# What is in the folder of a text besides its files; it is written last.
ABOUT = "about.json"
# A text that is being made, and the locks, of which each is of the keys with the same two first letters.
UNDONE = ".undone-"
LOCKS = "locks"
# After so many seconds what is undone was left by a process that ended.
STALE = 3_600.0
# The errors of a system that knows no locks: a text is then perhaps made twice, and kept once.
NO_LOCKS = (errno.ENOLCK, errno.ENOSYS, errno.EOPNOTSUPP, errno.EINVAL)
FULL = (errno.ENOSPC, errno.EDQUOT, errno.EFBIG)


class Made(NamedTuple):
    """A text that is made: the bytes of its files, in order, what is known of it, and its numbers if they are at hand,
    so that nobody has to read them of the files."""

    files: Iterable[bytes]
    about: dict[str, Any]
    numbers: Optional[EphemerisText] = None


Make = Callable[[], Made]


@dataclass(frozen=True)
class Kept:
    """A text that is kept: the names of its files in the order in which they are read, and what is known of it. One that
    was made by this process has its `numbers` too."""

    folder: str
    files: tuple[str, ...]
    about: dict[str, Any]
    numbers: Optional[EphemerisText] = field(default=None, compare=False, repr=False)

    def __reduce__(self) -> tuple[type[Kept], tuple[str, tuple[str, ...], dict[str, Any]]]:
        # (another process reads the numbers of the files)
        return Kept, (self.folder, self.files, self.about)

    @property
    def bytes(self) -> int:
        """The length of all files."""
        return sum(self.about["sizes"])


@runtime_checkable
class OfKept(Protocol):
    """What stands on a text that is kept."""

    _kept: Kept


def numbers_of(files: Any) -> Optional[EphemerisText]:
    """The numbers of what stands for files, if this process made them; else None: they are to be read."""
    return files._kept.numbers if isinstance(files, OfKept) else None


def cache_folder() -> Path:
    """The folder of the cache, which need not be there.

    >>> import os
    >>> os.environ["FINDER_CACHE"] = "/tmp/texts"
    >>> str(cache_folder())
    '/tmp/texts'
    >>> del os.environ["FINDER_CACHE"]
    """
    own = os.environ.get("FINDER_CACHE")
    if own:
        return Path(own)
    shared = os.environ.get("XDG_CACHE_HOME", "")
    return (Path(shared) if os.path.isabs(shared) else Path.home() / ".cache") / "finder"


def key_of(parts: Iterable[Any]) -> str:
    """A key by all that a text depends on: texts, numbers, bytes, and lists and dictionaries of these."""
    made = hashlib.sha256()
    for part in parts:
        piece = part if isinstance(part, bytes) else json.dumps(part, sort_keys=True).encode()
        made.update(f"{len(piece)}:".encode() + piece)
    return made.hexdigest()


def kept(key: str, make: Make, use: bool = True) -> Kept:
    """The text of a key: the one that is kept, or it is made and kept. `make` returns what `Made` has. Without `use` it
    is made in a folder that is removed with what it returns."""
    if not use:
        folder = scratch.new_folder()
        try:
            made = _written(Path(folder), make())
        except BaseException:
            shutil.rmtree(folder, ignore_errors=True)
            raise
        scratch.remove_with(made, folder)
        return made
    home = cache_folder()
    found = _found(home / key)
    if found is not None:
        return found
    with _explained(home):
        (home / LOCKS).mkdir(parents=True, exist_ok=True)
    with _locked(home, key):
        return _found(home / key) or _made(home, key, make)


def _made(home: Path, key: str, make: Make) -> Kept:
    """Makes a text in a folder beside its own, which then takes its name."""
    sweep(home)
    made = make()
    with _explained(home):
        work = Path(tempfile.mkdtemp(prefix=UNDONE, dir=home))
        try:
            _written(work, made)
            if (home / key).exists():
                # (what is there is damaged, as it was not found)
                shutil.rmtree(home / key)
            _rename(work, home / key)
        finally:
            shutil.rmtree(work, ignore_errors=True)
    found = _found(home / key)
    if found is None:
        raise OSError(f"the text that was written to {home / key} is not there any more: try again")
    return replace(found, numbers=made.numbers)


def _rename(work: Path, folder: Path) -> None:
    """Gives a folder its name, unless another process was first, where there are no locks."""
    try:
        os.rename(work, folder)
    except OSError as error:
        if error.errno not in (errno.EEXIST, errno.ENOTEMPTY):
            raise


def _written(folder: Path, made: Made) -> Kept:
    """Writes the files of a text, and last what is known of it."""
    names, sizes, sums = [], [], hashlib.sha256()
    for number, data in enumerate(made.files):
        name = f"{made.about['name']}.asc" if number == 0 else f"{made.about['name']}-{number:04}.asc"
        _write(folder / name, data)
        names.append(name)
        sizes.append(len(data))
        sums.update(data)
    whole = {**made.about, "files": names, "sizes": sizes, "sha256": sums.hexdigest()}
    _write(folder / ABOUT, json.dumps(whole, indent=1).encode())
    return Kept(str(folder), tuple(str(folder / name) for name in names), whole, made.numbers)


def _write(path: Path, data: bytes) -> None:
    """Writes a file, as far as the disk."""
    with open(path, "wb") as file:
        file.write(data)
        file.flush()
        os.fsync(file.fileno())


def write_text(path: Path, source: str) -> str:
    """Writes a copy of a file whole or not at all, and returns its name. `FileExistsError` where a file of this name has
    other bytes."""
    if path.exists():
        if sha256_of([str(path)]) != sha256_of([source]):
            raise FileExistsError(errno.EEXIST, "a file with other bytes is there: name another folder", str(path))
        return str(path)
    copy_whole(source, path)
    return str(path)


def _found(folder: Path) -> Optional[Kept]:
    """The text of a folder, or None where it is not there or not whole."""
    try:
        about = json.loads((folder / ABOUT).read_bytes())
        files = tuple(str(folder / name) for name in about["files"])
        if [os.path.getsize(name) for name in files] != about["sizes"]:
            return None
    except (OSError, ValueError, KeyError, TypeError):
        return None
    return Kept(str(folder), files, about)


@contextlib.contextmanager
def _locked(home: Path, key: str) -> Iterator[None]:
    """Holds the lock of a key, which ends with the process, however that one ends."""
    with _explained(home):
        file = open(home / LOCKS / key[:2], "wb")
    with file:
        try:
            fcntl.flock(file, fcntl.LOCK_EX)
        except OSError as error:
            if error.errno not in NO_LOCKS:
                raise
        yield


@contextlib.contextmanager
def _explained(home: Path) -> Iterator[None]:
    """Says of an error of the system which folder it is of, and what to do."""
    try:
        yield
    except OSError as error:
        if error.errno in FULL:
            advice = "make room, by `python -m finder cache clear` too, or name another folder by FINDER_CACHE"
        elif error.errno in (errno.EACCES, errno.EROFS, errno.EPERM):
            advice = "name a folder that you may write to by FINDER_CACHE, or write cache=False"
        else:
            raise
        raise type(error)(error.errno, f"{error.strerror}: the cache of texts, {advice}", str(home)) from error


def texts() -> list[Kept]:
    """The texts that are kept, those first that were made last."""
    home = cache_folder()
    folders = sorted(home.iterdir(), key=lambda each: -each.stat().st_mtime) if home.is_dir() else []
    found = [_found(folder) for folder in folders if not folder.name.startswith(UNDONE) and folder.name != LOCKS]
    return [each for each in found if each is not None]


def clear() -> tuple[int, int]:
    """Removes all texts that are kept; how many there were, and of how many bytes."""
    home, found = cache_folder(), texts()
    for each in found:
        shutil.rmtree(each.folder, ignore_errors=True)
    shutil.rmtree(home / SUMS, ignore_errors=True)
    sweep(home)
    return len(found), sum(each.bytes for each in found)


def sweep(home: Path) -> None:
    """Removes what processes left that ended while they made a text."""
    for folder in home.glob(f"{UNDONE}*") if home.is_dir() else ():
        with contextlib.suppress(OSError):
            if time.time() - folder.stat().st_mtime > STALE:
                shutil.rmtree(folder, ignore_errors=True)

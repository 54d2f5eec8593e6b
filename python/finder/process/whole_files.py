"""Files that are written whole or not at all: what fails leaves the file that was there before, and nothing else."""

from __future__ import annotations

import contextlib
import errno
import fcntl
import os
import secrets
import shutil
import stat
from collections.abc import Callable, Iterator
from pathlib import Path
from typing import BinaryIO, Optional, Union

# A file or folder that is being written has a name of its own, which begins and ends so.
UNDONE, NEW = ".finder-", ".new"
# The errors of a system that knows no locks, or cannot bring a folder to the disk.
UNKNOWN = (errno.ENOLCK, errno.ENOSYS, errno.EOPNOTSUPP, errno.EINVAL, errno.EBADF)
# What is below these is a stream of a process, also where it leads to a file.
STREAMS = ("/dev/", "/proc/")
# How a folder is opened, and what a killed process has left, whatever it is.
OF_FOLDER = os.O_RDONLY | os.O_DIRECTORY | os.O_CLOEXEC
A_READ = 1 << 20
OF_LEFT = os.O_RDONLY | os.O_NOFOLLOW | os.O_NONBLOCK | os.O_CLOEXEC

Name = Union[str, "os.PathLike[str]"]


def write_whole(name: Name, text: bytes) -> None:
    """Writes a file, and brings it to the disk. Where that fails, the file is the one that was there before, and the
    `OSError` has its name.

    >>> import os, tempfile
    >>> folder = tempfile.mkdtemp()
    >>> write_whole(f"{folder}/moon.cert", b"CERT 1\\n")
    >>> os.listdir(folder)
    ['moon.cert']
    """
    with whole_file(name) as file, named(name):
        file.write(text)


def copy_whole(source: Name, name: Name) -> None:
    """Writes a copy of a file in the same way."""
    with named(source):
        opened = open(source, "rb")
    with opened, whole_file(name) as file:
        while True:
            with named(source):
                piece = opened.read(A_READ)
            if not piece:
                return
            with named(name):
                file.write(piece)


@contextlib.contextmanager
def whole_file(name: Name) -> Iterator[BinaryIO]:
    """A file to write to, which takes its name once all is written, and is removed where anything fails before. What is
    there and is no file, as a pipe or a terminal, is written to as it is."""
    target = Path(os.path.realpath(name))
    with named(name):
        mode = None if os.path.abspath(name).startswith(STREAMS) else _mode_of(target)
        plain = open(name, "wb") if mode is None else None
    if plain is not None:
        with plain:
            yield plain
        return
    with named(name):
        new, file = _new_file(target.parent)
    try:
        yield file
        with named(name):
            if mode:
                os.fchmod(file.fileno(), mode)
            sync(file)
            os.replace(new, target)
    except BaseException:
        _remove(new, file)
        raise
    with named(name):
        file.close()
        sync_folder(target.parent)


@contextlib.contextmanager
def new_folder(beside: Path) -> Iterator[Path]:
    """A folder in this one, for files that get their places once all are written. It is removed at the end with what is
    left in it; where the process is killed, by the next `sweep`."""
    with named(beside):
        folder, opened = locked_folder(lambda: _made_folder(beside / _undone()))
    try:
        yield folder
    finally:
        shutil.rmtree(folder, ignore_errors=True)
        os.close(opened)


def locked_folder(make: Callable[[], Name]) -> tuple[Path, int]:
    """A folder that a call makes, and the number by which it is open and locked: no `sweep` takes it for one that was
    left. It is made again where one did, before it was locked."""
    while True:
        folder = Path(make())
        try:
            opened = os.open(folder, OF_FOLDER)
        except FileNotFoundError:
            continue
        except OSError:
            shutil.rmtree(folder, ignore_errors=True)
            raise
        if not is_locked(opened) and folder.is_dir():
            return folder, opened
        os.close(opened)


def sweep(folder: Path, names: str = f"{UNDONE}*{NEW}") -> None:
    """Removes what killed processes have left in a folder, under such names: what is in use is locked. Where the system
    knows no locks, all stays."""
    for left in folder.glob(names):
        with contextlib.suppress(OSError):
            opened = os.open(left, OF_LEFT)
            try:
                if _lock(opened):
                    shutil.rmtree(left) if left.is_dir() else left.unlink()
            finally:
                os.close(opened)


def sync(file: BinaryIO) -> None:
    """Brings what was written to a file to the disk."""
    file.flush()
    os.fsync(file.fileno())


def sync_folder(folder: Path) -> None:
    """Brings the names of a folder to the disk."""
    opened = os.open(folder, OF_FOLDER)
    try:
        os.fsync(opened)
    except OSError as error:
        if error.errno not in UNKNOWN:
            raise
    finally:
        os.close(opened)


def is_locked(opened: int) -> bool:
    """Locks what is open, for as long as it is open; whether another process has locked it before."""
    return _lock(opened) is False


@contextlib.contextmanager
def named(name: Name) -> Iterator[None]:
    """Says of an error of the system which file it is of.

    >>> with named("moon.cert"):
    ...     raise OSError(28, "No space left on device")
    Traceback (most recent call last):
    OSError: [Errno 28] No space left on device: 'moon.cert'
    """
    try:
        yield
    except OSError as error:
        if error.errno is None or error.filename == os.fspath(name):
            raise
        raise OSError(error.errno, os.strerror(error.errno), os.fspath(name)) from error


def _undone() -> str:
    return f"{UNDONE}{secrets.token_hex(8)}{NEW}"


def _made_folder(folder: Path) -> Path:
    folder.mkdir()
    return folder


def _new_file(folder: Path) -> tuple[Path, BinaryIO]:
    """A new file of a folder, locked, and its name for now."""
    while True:
        new = folder / _undone()
        opened = os.open(new, os.O_WRONLY | os.O_CREAT | os.O_EXCL | os.O_NOFOLLOW | os.O_CLOEXEC, 0o666)
        file = os.fdopen(opened, "wb")
        try:
            # (a `sweep` may have taken it for one that was left, before it was locked)
            if not is_locked(opened) and os.fstat(opened).st_nlink:
                return new, file
        except BaseException:
            _remove(new, file)
            raise
        _remove(new, file)


def _lock(opened: int) -> Optional[bool]:
    """Locks what is open: False where another process has locked it before, and None where the system knows no locks."""
    try:
        fcntl.flock(opened, fcntl.LOCK_EX | fcntl.LOCK_NB)
    except BlockingIOError:
        return False
    except OSError as error:
        if error.errno not in UNKNOWN:
            raise
        return None
    return True


def _remove(new: Path, file: BinaryIO) -> None:
    """Removes a file that did not get its name, with what it was not brought to write."""
    with contextlib.suppress(OSError):
        new.unlink()
    with contextlib.suppress(OSError):
        file.close()


def _mode_of(target: Path) -> Optional[int]:
    """The rights that a file has, which its successor gets; 0 where there is none; None of what is no file."""
    try:
        status = target.stat()
    except FileNotFoundError:
        return 0
    return stat.S_IMODE(status.st_mode) if stat.S_ISREG(status.st_mode) else None

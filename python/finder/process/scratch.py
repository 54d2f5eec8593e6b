"""Files of a process below the folder of temporary files, which do not outlive it.

A process has one folder there, which it holds locked. A folder in it is removed with what it is of, and all is removed at
the end of the process. What a killed process has left is locked by none: the next process that makes a folder removes it.
"""

from __future__ import annotations

import atexit
import os
import shutil
import tempfile
import threading
import weakref
from pathlib import Path
from typing import Optional

from .whole_files import locked_folder, sweep

PREFIX = "finder-texts-"


class _Scratch:
    """The folder of this process, if it has one."""

    def __init__(self) -> None:
        self._lock = threading.Lock()
        self._folder: Optional[Path] = None
        self._opened = -1

    def new_folder(self) -> str:
        """A new folder in it."""
        with self._lock:
            if self._folder is None or not self._folder.is_dir():
                self._close()
                place = Path(tempfile.gettempdir())
                sweep(place, f"{PREFIX}*")
                self._folder, self._opened = locked_folder(lambda: tempfile.mkdtemp(prefix=PREFIX, dir=place))
            return tempfile.mkdtemp(dir=self._folder)

    def remove(self) -> None:
        """Removes it."""
        with self._lock:
            if self._folder is not None:
                shutil.rmtree(self._folder, ignore_errors=True)
            self._close()

    def before_fork(self) -> None:
        """Waits until no folder is being made."""
        self._lock.acquire()

    def after_fork(self) -> None:
        """Goes on in this process."""
        self._lock.release()

    def forget(self) -> None:
        """In a process that was forked: the folder is not its own."""
        self._close()
        self._lock.release()

    def _close(self) -> None:
        if self._opened >= 0:
            os.close(self._opened)
        self._folder, self._opened = None, -1


_scratch = _Scratch()
atexit.register(_scratch.remove)
os.register_at_fork(before=_scratch.before_fork, after_in_parent=_scratch.after_fork, after_in_child=_scratch.forget)


def new_folder() -> str:
    """The name of a new folder, which is there until `remove_with` or the end of this process removes it."""
    return _scratch.new_folder()


def remove_with(owner: object, folder: str) -> None:
    """Removes a folder with its owner, but not where a process that was forked drops that owner."""
    weakref.finalize(owner, _remove, folder, os.getpid())


def _remove(folder: str, process: int) -> None:
    if os.getpid() == process:
        shutil.rmtree(folder, ignore_errors=True)

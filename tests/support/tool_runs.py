"""Runs of the tools beside the program, for tests: where they are, what they print, and what is in a folder."""

from __future__ import annotations

import os
import subprocess
import sys
import tempfile
import time
import unittest
from collections.abc import Callable, Mapping
from pathlib import Path
from typing import Optional

from tests.support.settings import SHIPPED, TOP

TOOLS = TOP / "tools"
PROGRAM = SHIPPED
YEAR = TOP / "examples" / "de405-2000.asc"
SECONDS = 120

Done = subprocess.CompletedProcess[str]


def run_tool(name: str, *words: object, cwd: Optional[Path] = None, **environment: str) -> Done:
    """A run of a tool in Python; what it wrote, with other bytes than those of UTF-8 as `surrogateescape` has them."""
    return subprocess.run(
        [sys.executable, "-B", TOOLS / name, *map(str, words)],
        capture_output=True,
        encoding="utf-8",
        errors="surrogateescape",
        check=False,
        cwd=cwd,
        stdin=subprocess.DEVNULL,
        timeout=SECONDS,
        env={**os.environ, "FINDER": str(PROGRAM), **environment},
    )


def run_program(*words: object) -> bytes:
    """What the program prints."""
    return subprocess.run([PROGRAM, *map(str, words)], capture_output=True, check=True, timeout=SECONDS).stdout


def contents(folder: Path) -> Mapping[str, bytes]:
    """The bytes of all files of a folder."""
    return {path.name: path.read_bytes() for path in folder.iterdir()}


def is_running(process: int) -> bool:
    """Whether a process runs still."""
    try:
        return Path(f"/proc/{process}/stat").read_text().rpartition(")")[2].split()[0] not in "ZX"
    except OSError:
        return False


def wait_until(holds: Callable[[], bool], seconds: float = 120) -> bool:
    """Waits until something holds, or the time is over; whether it does."""
    end = time.monotonic() + seconds
    while not holds() and time.monotonic() < end:
        time.sleep(0.02)
    return holds()


def folder_of(tests: "type[unittest.TestCase]") -> Path:
    """A new folder that the tests of a class share, which goes when they have ended."""
    folder = tempfile.TemporaryDirectory()
    tests.addClassCleanup(folder.cleanup)
    return Path(folder.name)


class InFolder(unittest.TestCase):
    """Tests in a folder of their own."""

    def setUp(self) -> None:
        folder = tempfile.TemporaryDirectory()
        self.addCleanup(folder.cleanup)
        self.folder = Path(folder.name)

"""Tests of a developers' tool over a small repository, in a folder of their own."""

from __future__ import annotations

import subprocess
import sys
import tempfile
import unittest
from pathlib import Path
from typing import Mapping

from tests.support.settings import TOP


class InSmallRepository(unittest.TestCase):
    """Each test has the files of `FILES` in a new folder, `root`, and runs the tool `TOOL` there."""

    TOOL = ""
    FILES: Mapping[str, str] = {}

    def setUp(self) -> None:
        place = tempfile.TemporaryDirectory()
        self.addCleanup(place.cleanup)
        self.root = Path(place.name)
        for name, text in self.FILES.items():
            (self.root / name).parent.mkdir(parents=True, exist_ok=True)
            (self.root / name).write_text(text, "utf-8")

    def run_tool(self, *words: str) -> tuple[int, list[str]]:
        """Runs the tool: its status, and the lines that it printed."""
        command = [sys.executable, "-B", str(TOP / self.TOOL), "--root", str(self.root), *words]
        done = subprocess.run(command, check=False, capture_output=True, text=True, encoding="utf-8", timeout=120)
        return done.returncode, (done.stdout + done.stderr).splitlines()

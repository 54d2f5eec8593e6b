"""Of the package for Python: the sessions that pages show, its types, and what its pictures show.

The sessions run in one process, since each import of astropy takes a second. A sample runs those of `SAMPLE`."""

from __future__ import annotations

import doctest
import importlib.util
import os
import subprocess
import sys
import tempfile
import unittest
import warnings
from pathlib import Path
from typing import Callable

from tests.support.settings import IS_WHOLE, TOP, of_the_whole

SAMPLE = ("README.md", "docs/start/python.md", "python/README.md")
SHOWN = "\n    >>> "
NEEDED = ("astropy", "erfa", "pandas")
GREAT_CONJUNCTION = "longitude of Saturn less that of Jupiter, degrees: above below 0"


def pages() -> list[str]:
    """The pages that show a session."""
    found = [TOP / "README.md", TOP / "python" / "README.md", *(TOP / "docs").rglob("*.md")]
    return sorted(str(page.relative_to(TOP)) for page in found if SHOWN in page.read_text("utf-8"))


def missing_for(page: str) -> list[str]:
    """The packages that the sessions of a page need, and that are not here."""
    needed = [*NEEDED, *(["sgp4"] if "from sgp4" in (TOP / page).read_text("utf-8") else [])]
    return [name for name in needed if importlib.util.find_spec(name) is None]


class Sessions(unittest.TestCase):
    """The sessions of each page, from the top of the repository."""

    def run_page(self, page: str) -> None:
        """Runs the sessions of a page, and compares what they print."""
        missing = missing_for(page)
        if missing:
            self.skipTest(f"no python3 here has all of {', '.join(missing)}")
        self.addCleanup(os.chdir, os.getcwd())
        os.chdir(TOP)
        with warnings.catch_warnings():
            warnings.simplefilter("ignore")
            options = doctest.IGNORE_EXCEPTION_DETAIL
            failed, tried = doctest.testfile(str(TOP / page), module_relative=False, optionflags=options, encoding="utf-8")
        self.assertEqual(failed, 0)
        self.assertGreater(tried, 0)


def session_of(page: str) -> Callable[[Sessions], None]:
    """The test of a page."""

    def test(self: Sessions) -> None:
        self.run_page(page)

    return test if IS_WHOLE or page in SAMPLE else of_the_whole(test)


for each in pages():
    setattr(Sessions, f"test_{each}", session_of(each))


class Package(unittest.TestCase):
    """What its types and its pictures say."""

    @of_the_whole
    @unittest.skipIf(importlib.util.find_spec("mypy") is None, "there is no mypy here")
    def test_types(self) -> None:
        with tempfile.TemporaryDirectory() as folder:
            words = ["-m", "mypy", "--config-file", "python/pyproject.toml", "--cache-dir", str(Path(folder, "types"))]
            words = [sys.executable, *words, "python/finder"]
            done = subprocess.run(words, cwd=TOP, capture_output=True, text=True, check=False)
        self.assertEqual(done.returncode, 0, done.stdout + done.stderr)

    def test_pictures_show_the_great_conjunction(self) -> None:
        words = [sys.executable, "dev/pictures.py", "--data"]
        done = subprocess.run(words, cwd=TOP, capture_output=True, text=True, check=False)
        self.assertIn(GREAT_CONJUNCTION, done.stdout.splitlines(), done.stderr)


if __name__ == "__main__":
    unittest.main()

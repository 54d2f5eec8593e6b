"""The examples in the modules of the reference show what is so."""

from __future__ import annotations

import doctest
import importlib
import os
import unittest
from pathlib import Path

FOLDER = Path(__file__).resolve().parents[1]


class Examples(unittest.TestCase):
    """Of each module."""

    def test_examples(self) -> None:
        tried = 0
        for path in sorted(FOLDER.glob("*.py")):
            name = "tests.reference" if path.stem == "__init__" else f"tests.reference.{path.stem}"
            if path.stem != "__main__":
                outcome = doctest.testmod(importlib.import_module(name))
                self.assertEqual(outcome.failed, 0, name)
                tried += outcome.attempted
        self.assertGreater(tried, 8)

    def test_readme(self) -> None:
        self.addCleanup(os.chdir, os.getcwd())
        os.chdir(FOLDER.parents[1])
        outcome = doctest.testfile(str(FOLDER / "README.md"), module_relative=False)
        self.assertEqual(outcome.failed, 0)
        self.assertGreater(outcome.attempted, 4)


if __name__ == "__main__":
    unittest.main()

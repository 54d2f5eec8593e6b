"""The reference keeps its independence: what it imports, that it computes exactly, and that it shares no line."""

from __future__ import annotations

import ast
import sys
import unittest
from pathlib import Path
from typing import Iterator

TOP = Path(__file__).resolve().parents[3]
FOLDER = TOP / "tests" / "reference"
RUNNERS = ("random_runs.py", "stored_cases.py")
"""The modules that run other programs or read stored cases, by the helpers of the tests."""
OTHERS = (TOP / "tools" / "check-certificate", *sorted((TOP / "python" / "finder").rglob("*.py")))
LONG_LINE = 30
"""A line of so many letters is one that two authors would not write alike."""
# Python 3.9 does not list the modules of its library.
LIBRARY = getattr(sys, "stdlib_module_names", None)


def imports_of(module: ast.Module) -> Iterator[str]:
    """The modules that a module imports, by their full names; one of its own package begins with a point."""
    for node in ast.walk(module):
        if isinstance(node, ast.Import):
            yield from (name.name for name in node.names)
        elif isinstance(node, ast.ImportFrom):
            yield "." * node.level + (node.module or "")


def long_lines(path: Path) -> set[str]:
    """The lines of a text that say something, but for imports."""
    lines = {line.strip() for line in path.read_text("utf-8").splitlines()}
    return {line for line in lines if len(line) >= LONG_LINE and not line.startswith(("import ", "from "))}


class Independence(unittest.TestCase):
    """Over the modules of the reference, its tests aside."""

    modules = sorted(FOLDER.glob("*.py"))

    def test_it_imports_the_library_and_itself_alone(self) -> None:
        if LIBRARY is None:
            self.skipTest("this Python does not list the modules of its library")
        for path in self.modules:
            for name in imports_of(ast.parse(path.read_text("utf-8"))):
                is_helper = name.startswith("tests.support") and path.name in RUNNERS
                self.assertTrue(name.startswith(".") or name.split(".")[0] in LIBRARY or is_helper, (path.name, name))

    def test_it_has_no_floats(self) -> None:
        # What is made at random has chances, which are floats.
        exact = [path for path in self.modules if not path.name.startswith("random_")]
        self.assertGreater(len(exact), 20)
        for path in exact:
            for node in ast.walk(ast.parse(path.read_text("utf-8"))):
                is_float = isinstance(node, ast.Constant) and isinstance(node.value, float)
                self.assertFalse(is_float or (isinstance(node, ast.Name) and node.id == "float"), path.name)

    def test_it_shares_no_line(self) -> None:
        own = {line for path in self.modules for line in long_lines(path)}
        self.assertGreater(len(own), 1000)
        for path in OTHERS:
            self.assertEqual(own & long_lines(path), set(), path)


if __name__ == "__main__":
    unittest.main()

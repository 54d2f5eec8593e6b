"""A Sphinx extension: docstrings of the package, which are written as Markdown is, become reStructuredText.

It warns of a public name of the package that no page has.
"""

from __future__ import annotations

import re
from typing import Any

import finder
from sphinx.util import logging

# Code between back quotes, and a letter that follows it, as in `Time`s.
CODE = re.compile(r"(`[^`]+`)(\w?)")


def separate(found: re.Match[str]) -> str:
    """Code, and before a letter that follows it the mark that ends it."""
    return f"{found[1]}\\ {found[2]}" if found[2] else found[1]


def convert(app: Any, what: str, name: str, thing: Any, options: Any, lines: list[str]) -> None:
    """Puts `::` before each indented block that follows a paragraph, and ends code before letters."""
    converted: list[str] = []
    last = ""
    for line in lines:
        is_first = line.startswith("    ") and converted and not converted[-1].strip()
        if is_first and last and not last.startswith((" ", "- ")):
            converted += ["::", ""]
        converted.append(line if line.startswith("    ") else CODE.sub(separate, line))
        last = line or last
    lines[:] = converted


def find_missing(app: Any, env: Any) -> None:
    """Warns of each public name that no page has."""
    for name in finder.__all__:
        if f"finder.{name}" not in env.get_domain("py").objects:
            logging.getLogger(__name__).warning("no page of docs/python/api has the public name %s", name)


def setup(app: Any) -> dict[str, bool]:
    """Called by Sphinx."""
    app.connect("env-check-consistency", find_missing)
    app.connect("autodoc-process-docstring", convert)
    return {"parallel_read_safe": True, "parallel_write_safe": True}

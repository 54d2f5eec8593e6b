"""The names that `use` lines of `.rt` files bring in, with the text that each of them serves."""

from __future__ import annotations

import re
from dataclasses import dataclass, field
from functools import lru_cache

from dev.sources.repository import Repository

QUIET = re.compile(r"//[^\n]*|\"(?:\\.|[^\"\\])*\"|b?'(?:\\.|[^'\\])'", re.S)
USE = re.compile(r"^( *)(pub(?:\(crate\))? )?(ghost )?use ([^;]*);", re.M)


@dataclass
class Ghost:
    """A `ghost use` line: its module, what each of its names is there, its number, and the text that it serves."""

    module: str
    names: dict[str, str]
    alias: str
    line: int
    text: str


@dataclass
class Code:
    """A file of code without comments and literals, also without `use` lines, and what these bring in, with its line."""

    path: str
    text: str
    body: str
    ghosts: list[Ghost] = field(default_factory=list)
    brought: dict[str, int] = field(default_factory=dict)


def scope_of(body: str, start: int, indent: str) -> str:
    """Returns the text behind a place up to the end of the block in which that place is indented so."""
    end = re.compile(rf"^(?!{indent})(?=[ }}])", re.M).search(body, start) if indent else None
    return body[start : end.start()] if end else body[start:]


def listed(text: str) -> list[tuple[str, str]]:
    """Returns the names of a list of a `use` line, each with what it is where it comes from."""
    parts = [it.strip().partition(" as ") for it in text.split(",")]
    return [((new or old).strip(), old.strip()) for old, _, new in parts if old]


def read_ghost(body: str, indent: str, what: str, line: int, end: int) -> Ghost:
    """Reads a `ghost use` line, by what stands behind these words."""
    module, is_list, names = what.partition(".{")
    text = scope_of(body, end, indent)
    if is_list:
        return Ghost(module.strip(), dict(listed(names.strip().rstrip("}"))), "", line, text)
    module, _, alias = what.partition(" as ")
    return Ghost(module.strip(), {}, alias.strip(), line, text)


@lru_cache(maxsize=None)
def code_of(house: Repository, path: str) -> Code:
    """Reads a file of code, by its path below the top."""
    text = QUIET.sub(lambda it: re.sub(r"[^\n]", " ", it[0]), house.text(path))
    code = Code(path, text, USE.sub(lambda it: re.sub(r"[^\n]", " ", it[0]), text))
    for found in USE.finditer(text):
        indent, is_public, is_ghost, what = found.groups()
        line = text.count("\n", 0, found.end()) + 1
        if is_ghost:
            code.ghosts.append(read_ghost(code.body, indent, what, line, found.end()))
        elif not is_public:
            names = re.sub(r"(\w+)::\{self\b", r"{\1", what) if "::{self" in what else what
            parts = [it.strip() for it in re.split(r"[{},]", names)]
            code.brought.update({re.split(r"::| as ", it)[-1]: line for it in parts if it and not it.endswith("::")})
    return code

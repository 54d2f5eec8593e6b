"""The definitions of `.antt` files, and the types and constants of `.rt` files that definitions cite.

A file is read once. Of each definition it has the lines as they stand, with the comment above them, and the same without
comments and without the indentation of a module. `use` lines say what a name stands for.
"""

from __future__ import annotations

import os
import re
from collections.abc import Iterator
from dataclasses import dataclass, field
from functools import lru_cache

from dev.sources.repository import Repository

USE = re.compile(r"^(pub |ghost )?use ([^\s{}]+?)(?:\.\{([^}]*)\}| as ([\w\-]+));?$")
HEAD = re.compile(r"^((?:(?:abbrev|unfoldable|opaque|pub) )*)(?:(record|data|ruleset) )?(\S+)(?: (.*))?$")
MODULE = re.compile(r"(pub )?module ")
PART = re.compile(r"  (?:pub )?([^\s:(){}]+) :")
ITEM = re.compile(r"^pub (?:struct|enum|const|trait) (\w+)")


@dataclass(frozen=True)
class Place:
    """A definition: its file, below the top, and its name."""

    path: str
    name: str


@dataclass(frozen=True)
class Use:
    """What a name of a `use` line stands for: a module, the name that it has there, and the line."""

    module: str
    name: str
    line: int


@dataclass
class Definition:
    """A definition: its first line, its kind (`record`, `data`, or nothing), its lines as they stand and bare."""

    line: int
    kind: str = ""
    shown: list[str] = field(default_factory=list)
    bare: list[str] = field(default_factory=list)


@dataclass
class DefinitionFile:
    """A file: its definitions, of which data or record a case or a field is, and what its `use` lines bring in."""

    path: str
    definitions: dict[str, Definition] = field(default_factory=dict)
    cases: dict[str, str] = field(default_factory=dict)
    fields: dict[str, str] = field(default_factory=dict)
    brought: dict[str, Use] = field(default_factory=dict)
    aliases: dict[str, Use] = field(default_factory=dict)
    goals: set[str] = field(default_factory=set)
    passed_on: set[str] = field(default_factory=set)
    loose: list[str] = field(default_factory=list)

    def home(self, part: str) -> str:
        """Returns the definition that a name of this file belongs to: itself, or that of its case or field."""
        return part if part in self.definitions else self.cases.get(part, self.fields.get(part, ""))


class Reader:
    """Reads one file of definitions, line by line."""

    def __init__(self, path: str) -> None:
        self.file = DefinitionFile(path)
        self.name = ""
        self.comment: list[str] = []
        self.waiting: list[str] = []
        self.margins = [0]
        self.is_module_head = self.is_together = False

    def read(self, text: str) -> DefinitionFile:
        """Reads all lines of a text."""
        for number, raw in enumerate(text.split("\n"), 1):
            line = re.sub(r"(^|\s)--( .*|-*)?$", "", raw).rstrip() if "--" in raw else raw.rstrip()
            if line:
                self.read_code(line, raw, number)
            elif not raw.strip():
                self.comment, self.is_together = [], False
            elif raw.lstrip().startswith("-- ----"):
                self.comment = []
            else:
                self.comment.append(raw)
        return self.file

    def read_code(self, line: str, raw: str, number: int) -> None:
        """Reads a line that holds more than a comment."""
        if self.begins_module(line):
            self.file.loose.append(line.strip())
            self.name = ""
        elif (bare := line[self.margins[-1] :]).startswith(("use ", "pub use ")):
            self.read_use(bare, number)
        elif bare.startswith("unfolding "):
            self.waiting.append(bare)
        elif bare.startswith((" ", ")", "]", "}")):
            self.read_more(bare, raw)
        elif re.match(r"infix[lr]? ", bare):
            return  # (the comment above it is of the operator that follows)
        else:
            self.read_head(bare, raw, number)
        self.comment = []

    def begins_module(self, line: str) -> bool:
        """Whether a line is of the head of a module, whose lines behind it stand farther in."""
        indent = len(line) - len(line.lstrip())
        while not self.is_module_head and indent < self.margins[-1] and line[indent] not in ")]}":
            self.margins.pop()
        if not (self.is_module_head or MODULE.match(line[self.margins[-1] :])):
            return False
        if not self.is_module_head:
            self.margins.append(self.margins[-1] + 2)
        self.is_module_head = not line.endswith("where")
        return True

    def read_use(self, line: str, number: int) -> None:
        """Notes which names a `use` line brings in."""
        found = USE.match(line)
        if not found:
            raise SystemExit(f"{self.file.path}:{number} cannot be read")
        kind, module, names, alias = found.groups()
        if alias:
            self.file.aliases[alias] = Use(module, "", number)
        for name in filter(None, re.split(r", *", names or "")):
            old, _, new = name.partition(" as ")
            self.file.brought[new or old] = Use(module, old, number)
            if module.endswith(".Goals"):
                self.file.goals.add(new or old)
            if kind == "pub ":
                self.file.passed_on.add(new or old)

    def read_more(self, bare: str, raw: str) -> None:
        """Adds a line to the definition that it is of, and notes the case or the field that it begins."""
        if not self.name:
            self.file.loose.append(bare)
            return
        now = self.file.definitions[self.name]
        now.bare.append(bare)
        now.shown += [*(self.comment if self.is_together else []), raw]
        part = PART.match(bare)
        if part and now.kind in ("record", "data"):
            (self.file.cases if now.kind == "data" else self.file.fields).setdefault(part[1], self.name)

    def read_head(self, bare: str, raw: str, number: int) -> None:
        """Reads a line at the margin: it begins a definition, or is one more equation of the last."""
        found = HEAD.match(bare)
        if found:
            marks, kind, name, rest = found.groups()
            is_new = name not in self.file.definitions and bool(marks or kind or (rest or "").startswith(":"))
            if is_new:
                self.file.definitions[name] = Definition(number, kind or "", [*self.comment])
                self.is_together = kind in ("record", "data")
            if is_new or name in self.file.definitions:
                self.name = name
                self.add(bare, raw)
                return
        if self.name and "◌" in self.name and all(it in bare for it in self.name.split("◌")):
            self.add(bare, raw)
            return
        raise SystemExit(f"{self.file.path}:{number} is of no definition")

    def add(self, bare: str, raw: str) -> None:
        """Adds a line at the margin to the definition that it is of, behind what waits for one."""
        now = self.file.definitions[self.name]
        now.bare += [*self.waiting, bare]
        now.shown += [*self.waiting, raw]
        self.waiting = []


def rows_of(lines: list[str]) -> list[str]:
    """Returns the lines of a constant with each row of its table in one line."""
    rows: list[str] = []
    depth = 0
    for line in lines:
        if depth > 1:
            rows[-1] += ("" if rows[-1].endswith(("(", "[")) else " ") + line.strip()
        else:
            rows.append(line)
        depth += sum(line.count(it) for it in "([{") - sum(line.count(it) for it in ")]}")
    return [re.sub(r",? ([)\]}])", r" \1", it) if "{" in it else it for it in rows]


def read_items(path: str, text: str) -> DefinitionFile:
    """Reads the types and constants of a file of code, and its `use` lines that proofs see."""
    file = DefinitionFile(path)
    comment: list[str] = []
    name = ""
    for number, line in enumerate(text.split("\n"), 1):
        head = ITEM.match(line)
        note_use(file, line, number)
        if head:
            name = head[1]
            file.definitions[name] = Definition(number, "", [*comment, line])
            comment = []
            name = "" if line.endswith((";", "}")) else name
        elif name:
            shown = file.definitions[name].shown
            shown.append(line)
            if line in ("}", "};", "];"):
                file.definitions[name].shown = rows_of(shown) if line == "];" else shown
                name = ""
        else:
            comment = [*comment, line] if line.startswith("///") else []
    return file


def note_use(file: DefinitionFile, line: str, number: int) -> None:
    """Notes what a `use` line of code brings in of a module of definitions."""
    found = USE.match(line)
    if not found or "::" in found[2]:
        return
    _, module, names, alias = found.groups()
    if alias:
        file.aliases[alias] = Use(module, "", number)
    for name in filter(None, re.split(r", *", names or "")):
        old, _, new = name.partition(" as ")
        file.brought[new or old] = Use(module, old, number)


@lru_cache(maxsize=None)
def definitions_in(house: Repository, path: str) -> DefinitionFile:
    """Returns the definitions of a file, by its path below the top."""
    text = house.text(path)
    return Reader(path).read(text) if path.endswith(".antt") else read_items(path, text)


@lru_cache(maxsize=None)
def path_of(house: Repository, module: str) -> tuple[str, tuple[str, ...]]:
    """Returns the file of a module of this repository and what of its name lies within it; nothing of another's.

    A module `Rattle.CRATE.specs.declared..` is a file of the crate's code, whose types and constants it has.
    """
    words = module.split(".")
    if len(words) < 4 or words[0] != "Rattle" or words[1] not in house.crates:
        return "", ()
    is_code = words[2:4] == ["specs", "declared"]
    rest, start = (["src", *words[4:]], 1) if is_code else (words[2:], 1)
    for count in range(len(rest), start, -1):
        path = f"crates/{words[1]}/{'/'.join(rest[:count])}.{'rt' if is_code else 'antt'}"
        if os.path.isfile(house.root / path):
            return path, tuple(rest[count:])
    return "", ()


def behind(alias: str, text: str) -> Iterator[str]:
    """Yields the names that stand behind the name of a module in a text."""
    yield from re.findall(rf"(?<![\w.]){re.escape(alias)}\.([\w'\-]+)", text)

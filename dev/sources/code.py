"""The functions of `.rt` files: where each stands, what it is called, its comment, its signature and its clauses.

A function ends at the brace below its first letter, as the layout of the toolchain has it.
"""

from __future__ import annotations

import os
import re
from collections.abc import Iterator
from dataclasses import dataclass
from functools import lru_cache
from pathlib import Path

QUIET = re.compile(r"//.*|\"(?:\\.|[^\"\\])*\"|b?'(?:\\.|[^'\\])'")
FUNCTION = re.compile(r"(\s*)(pub(?:\([^)]*\))? )?(?:const |unsafe )*fn (\w+)")
IMPL = re.compile(r"(?:unsafe )?impl\b(?:<[^{]*?>)? (?:([\w:]+)(?:<[^{]*>)? for )?&?(?:'\w+ )?([\w:]+)")
BLOCK = re.compile(r"^(?:unsafe )?impl\b(?:<.*?>)? (.*?) \{$")
TRAIT = re.compile(r"(?:pub(?:\([^)]*\))? )?(?:unsafe )?trait (\w+)")
TYPE = re.compile(r"(?:pub(?:\([^)]*\))? )?(?:struct|enum|trait) (\w+)", re.M)
CLAUSE = re.compile(r"\s+(requires|ensures)\*? (?:(\w+) )?\{")
HEAD_END = re.compile(r" \{$|^ *\{|;$| \{\}$|^ *(?:ensures|requires)\b", re.M)
VISIBILITY = re.compile(r"^pub(?:\([^)]*\))? ")
# The most lines that the head of a function takes, and the columns of a clause that is not long.
MAX_HEAD = 60
WIDTH = 100


@dataclass(frozen=True)
class Clause:
    """What a contract requires or ensures: its name, which may be empty, its first line, and its lines."""

    kind: str
    name: str
    line: int
    lines: tuple[str, ...]

    @property
    def text(self) -> str:
        """The clause on one line, as it stands without the breaks of a layout."""
        return " ".join(it.strip() for it in self.lines)

    @property
    def is_long(self) -> bool:
        """Whether it does not fit on one line of 100 columns."""
        return len(self.lines) > 1 or len(self.lines[0]) > WIDTH


@dataclass(frozen=True, eq=False)
class Function:
    """A function: its crate's folder, file below that, and lines; whose it is; its comment and its contract.

    `first` and `last` are its lines, from 1, and `opens` that at which its body begins. `owner` is the type or trait whose
    method it is, `trait` the trait, and `block` the type with its parameters, all empty for a free function. `names` are
    those that the checker may give it. A trait's method is public if the trait is.
    """

    folder: str
    file: str
    first: int
    opens: int
    last: int
    owner: str
    trait: str
    block: str
    name: str
    is_public: bool
    is_test: bool
    comment: tuple[str, ...]
    signature: str
    clauses: tuple[Clause, ...]
    names: frozenset[str]

    @property
    def crate(self) -> str:
        """The name of its crate."""
        return os.path.basename(self.folder)

    @property
    def is_of_a_type(self) -> bool:
        """Whether it is a method, or stands in the block of a type."""
        return bool(self.owner)

    @property
    def shown(self) -> str:
        """Its name as a reader of code writes it."""
        of = f" of {self.trait}" if self.trait and self.trait != self.owner else ""
        return f"{self.owner}::{self.name}{of}" if self.owner else self.name

    @property
    def place(self) -> str:
        """Where it stands."""
        return f"crates/{self.crate}/{self.file}:{self.first}"

    @property
    def requires(self) -> tuple[Clause, ...]:
        """What it asks of a caller."""
        return tuple(it for it in self.clauses if it.kind == "requires")

    @property
    def ensures(self) -> tuple[Clause, ...]:
        """What it promises."""
        return tuple(it for it in self.clauses if it.kind == "ensures")

    @property
    def says(self) -> str:
        """The first sentence of its comment."""
        paragraph: list[str] = []
        for line in self.comment:
            if not line:
                break
            paragraph.append(line)
        return re.sub(r":$", ".", re.split(r"(?<=\.) (?=[A-Z`])", " ".join(paragraph))[0])


def blanked(text: str) -> str:
    """Returns a text with no comments and no literals, line by line."""
    return QUIET.sub(lambda it: re.sub(r"[^\n]", " ", it[0]), text)


def module_of(file: str) -> str:
    """Returns the module that a file of src/ holds, with `::` behind it, or nothing for the root."""
    path = file[len("src/") : -len(".rt")]
    return "" if path in ("lib", "main") else path.replace("/", "::") + "::"


@lru_cache(maxsize=None)
def texts_of(folder: str) -> dict[str, str]:
    """Returns the text of each file of a crate's code, by its path in the crate's folder."""
    found = {}
    for at, _, names in os.walk(f"{folder}/src"):
        for name in names:
            if name.endswith(".rt"):
                path = os.path.join(at, name)
                found[os.path.relpath(path, folder)] = Path(path).read_text(encoding="utf-8")
    return dict(sorted(found.items()))


def sources_of(folder: str) -> dict[str, str]:
    """Returns the blanked text of each file of a crate's code."""
    return {file: blanked(text) for file, text in texts_of(folder).items()}


def owners_of(trait: str, kind: str, module: str, homes: dict[str, list[str]]) -> list[str]:
    """Returns the paths under which the checker may name the methods of an impl.

    Those of a type alone stand under its file, those of a trait may stand under the file of the impl.
    """
    kind, trait = kind.split("::")[-1], trait.split("::")[-1]
    places = [*homes.get(kind, [module]), *([module] if trait else [])]
    joins = [f"{kind}{trait}", f"{kind}+{trait}"] if trait else [kind]
    return [f"{place}{it}::" for place in places for it in joins]


def end_of_function(lines: list[str], at: int, indent: str) -> int:
    """Returns the line at which a function ends: its brace, or its own line if a trait gives it no body."""
    for end in range(at, len(lines)):
        if lines[end].rstrip() in (indent + "}", indent + "{}"):
            return end
        if end > at and (FUNCTION.match(lines[end]) or lines[end].startswith("}")):
            break
    return at


def contract_at(lines: list[str], quiet: list[str], first: int) -> tuple[tuple[Clause, ...], int]:
    """Returns the clauses of the function that begins at a line, and the line at which its body does."""
    starts: list[int] = []
    at, depth = first, 0
    while at < len(lines):
        line = lines[at]
        starts += [at] if CLAUSE.match(line) else []
        depth += line.count("{") - line.count("}")
        ends = line.endswith(";") and depth == 0
        if line.strip() in ("{", "{}") or ends or (at > first and FUNCTION.match(quiet[at])):
            break
        if line.endswith((" {", "{}")) and not starts:
            break
        at += 1
    return tuple(clauses_in(lines, starts, at)), at


def clauses_in(lines: list[str], starts: list[int], end: int) -> Iterator[Clause]:
    """Yields the clauses that begin at these lines, before the one at which the body does."""
    for start in starts:
        found = CLAUSE.match(lines[start])
        assert found
        last, depth = start, 0
        while True:
            depth += lines[last].count("{") - lines[last].count("}")
            if depth <= 0 or last + 1 >= min(end, len(lines)):
                break
            last += 1
        yield Clause(found[1], found[2] or "", start + 1, tuple(lines[start : last + 1]))


def on_one_line(text: str) -> str:
    """Returns a piece of code on one line, as it stands without the breaks that a layout makes."""
    text = re.sub(r"\s+", " ", text).strip()
    return re.sub(r", \}", " }", re.sub(r",? ([)\]>])", r"\1", re.sub(r"([(\[<]) ", r"\1", text)))


def signature_at(quiet: list[str], first: int) -> str:
    """Returns the function that begins at a line on one line, without its visibility, up to its contract or its body."""
    text = "\n".join(quiet[first : first + MAX_HEAD])
    end = HEAD_END.search(text)
    return VISIBILITY.sub("", on_one_line(text[: end.start()] if end else text))


def comment_above(lines: list[str], at: int) -> tuple[tuple[str, ...], bool]:
    """Returns the comment above a function without its marks, and whether an attribute there says that it is a test."""
    is_test = False
    found: list[str] = []
    for line in reversed(lines[:at]):
        bare = line.strip()
        if bare.startswith("#["):
            is_test = is_test or bare == "#[test]"
        elif bare.startswith("//"):
            found.append(re.sub(r"^//[/!]? ?", "", bare))
        else:
            break
    return tuple(reversed(found)), is_test


@lru_cache(maxsize=None)
def functions_of(folder: str) -> tuple[Function, ...]:
    """Returns the functions of a crate, by its folder, in the order of its files."""
    sources = sources_of(folder)
    homes: dict[str, list[str]] = {}
    for file, text in sources.items():
        for name in TYPE.findall(text):
            homes.setdefault(name, []).append(module_of(file))
    return tuple(it for file in sources for it in functions_in(folder, file, homes))


@dataclass(frozen=True)
class Block:
    """Where functions stand: at the margin, or in the block of a type or of a trait, which may be public."""

    owner: str = ""
    trait: str = ""
    shown: str = ""
    paths: tuple[str, ...] = ()
    is_open: bool = False


def block_at(line: str, now: Block, module: str, homes: dict[str, list[str]]) -> Block:
    """Returns the block in which what follows a line stands, if this one stands in the block `now`."""
    impl, declared = IMPL.match(line), TRAIT.match(line)
    if impl:
        owner, trait = impl[2].split("::")[-1], (impl[1] or "").split("::")[-1]
        shown = "" if trait else BLOCK.sub(r"\1", line)
        return Block(owner, trait, shown, tuple(owners_of(impl[1] or "", impl[2], module, homes)))
    if declared:
        return Block(declared[1], declared[1], declared[1], (module,), line.startswith("pub "))
    return Block(paths=(module,)) if line.startswith("}") else now


def functions_in(folder: str, file: str, homes: dict[str, list[str]]) -> Iterator[Function]:
    """Yields the functions of a file."""
    text = texts_of(folder)[file]
    lines, quiet = text.split("\n"), blanked(text).split("\n")
    module = module_of(file)
    outside = block = Block(paths=(module,))
    for at, line in enumerate(quiet):
        block = block_at(line, block, module, homes)
        head = FUNCTION.match(line)
        if not head:
            continue
        indent, visibility, name = head.groups()
        inside = block if indent else outside
        clauses, opens = contract_at(lines, quiet, at)
        comment, is_test = comment_above(lines, at)
        yield Function(
            folder, file, at + 1, opens + 1, end_of_function(quiet, at, indent) + 1,
            inside.owner, inside.trait, inside.shown, name,
            inside.is_open if inside.owner and inside.owner == inside.trait else visibility == "pub ", is_test,
            comment, signature_at(quiet, at), clauses, frozenset(f"{it}{name}" for it in block.paths),
        )  # fmt: skip


def is_named(function: Function, only: str) -> bool:
    """Whether a line `only:` names the function, by its path below the crate or the end of it."""
    return any(it == only or it.endswith(f"::{only}") for it in function.names)

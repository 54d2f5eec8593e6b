"""What a crate makes public: calls, types, traits and constants, each with its line as a list of them has it."""

from __future__ import annotations

import re
from collections.abc import Iterator
from dataclasses import dataclass

from dev.sources import code
from dev.sources.code import Function, on_one_line
from dev.sources.repository import Repository

COMMENT = re.compile(r"//[^\n]*")
EXPORT = re.compile(r"^pub use ([^;]*);", re.M)
TYPE = re.compile(r"^pub (?:unsafe )?(struct|enum|trait|const|type)(?! fn) (\w+)", re.M)


@dataclass(frozen=True)
class Item:
    """What a crate makes public: its name behind the crate's, and its line of the list."""

    name: str
    line: str


def block_at(text: str, start: int) -> str:
    """Returns what stands between the braces that open behind a place, up to the first `}` at the margin."""
    first = text.index("{", start) + 1
    one_line = text.find("}", first, text.index("\n", first)) if "\n" in text[first:] else len(text)
    return text[first : one_line if one_line >= 0 else text.index("\n}", first)]


def fields_of(block: str) -> str:
    """Returns the public fields of a struct, and `..` in place of those that are not."""
    fields = [it.strip() for it in block.split("\n") if it.strip() and not it.strip().startswith(("#", "ghost "))]
    shown = [it[len("pub ") :].rstrip(",") for it in fields if it.startswith("pub ")]
    return ", ".join([*shown, *([".."] if len(shown) < len(fields) else [])])


def cases_of(block: str) -> str:
    """Returns the cases of an enum."""
    return on_one_line(re.sub(r"^ *#\[.*\]$", "", block, flags=re.M)).rstrip(",")


def type_at(kind: str, text: str, start: int) -> str:
    """Returns the line of a type, a trait or a constant that begins at a place."""
    end = r";$" if kind == "type" else r" \{| =|;$"
    head = on_one_line(re.compile(end, re.M).split(text[start:], maxsplit=1)[0])
    before = re.split(r"[;{]", text[start:], maxsplit=1)[0]
    if kind not in ("struct", "enum") or text[start + len(before)] != "{":
        return head
    block = block_at(text, start)
    return f"{head} {{ {fields_of(block) if kind == 'struct' else cases_of(block)} }}"


def is_law(function: Function) -> bool:
    """Whether a function takes nothing and returns nothing, so that its contract is all that it says."""
    return not function.is_of_a_type and function.signature.endswith("()")


def call_of(function: Function) -> Iterator[Item]:
    """Yields the line of a function, if it is public and no law."""
    if function.is_public and not is_law(function):
        if not function.is_of_a_type:
            yield Item(function.name, function.signature)
        else:
            line = function.signature.replace(f"fn {function.name}", f"fn {function.block}::{function.name}", 1)
            yield Item(f"{function.owner}::{function.name}", line)


def exports_of(text: str) -> Iterator[tuple[str, str]]:
    """Yields the names that the root of a crate exports, each with the path that it stands for."""
    for what in EXPORT.findall(text):
        path, _, names = on_one_line(what).partition("::{")
        listed = [f"{path}::{it.strip()}" for it in names.rstrip("}").split(",")] if names else [path]
        for one in filter(lambda it: not it.endswith("::"), listed):
            old, _, new = one.partition(" as ")
            yield new or old.rsplit("::", 1)[-1], old


class Crate:
    """What a crate exports: names by its root, and all of its public modules."""

    def __init__(self, house: Repository, name: str) -> None:
        self.folder = f"{house.root}/crates/{name}"
        self.others = house.crates
        self.texts = {code.module_of(file)[:-2]: COMMENT.sub("", it) for file, it in code.texts_of(self.folder).items()}
        root = self.texts.get("", "")
        self.modules = {*re.findall(r"^pub mod (\w+);", root, re.M), ""}
        self.exported = dict(exports_of(root))

    def is_open(self, module: str, name: str) -> bool:
        """Whether others can name what a module calls so, or its type."""
        return module in self.modules or name.split("::")[0] in self.exported

    def calls(self) -> Iterator[tuple[Function, Item]]:
        """Yields the calls that others can make, each with its line."""
        for function in code.functions_of(self.folder):
            module = code.module_of(function.file)[:-2]
            for item in call_of(function):
                if self.is_open(module, item.name):
                    yield function, item

    def laws(self) -> Iterator[Function]:
        """Yields the laws that others can cite."""
        for function in code.functions_of(self.folder):
            if is_law(function) and function.is_public and self.is_open(code.module_of(function.file)[:-2], function.name):
                yield function

    def items(self) -> list[Item]:
        """Returns all that is public, sorted by name."""
        found = [item for _, item in self.calls()]
        for new, old in self.exported.items():
            if old.split("::")[0] in self.others:
                found.append(Item(new, f"use {old}{'' if old.endswith(f'::{new}') else f' as {new}'}"))
        for module, text in self.texts.items():
            for it in TYPE.finditer(text):
                if self.is_open(module, it[2]):
                    found.append(Item(it[2], type_at(it[1], text, it.start())[len("pub ") :]))
        return sorted(set(found), key=lambda it: (it.name, it.line))

"""Which functions may call which, by the names in their bodies.

Nothing is resolved as a compiler would: a name may be a function if its file brings that in, a method if its file names
the type. So what is found may be called, and what is named nowhere is not.
"""

from __future__ import annotations

import os
import re
from collections.abc import Iterable
from dataclasses import dataclass

from dev.sources import code
from dev.sources.code import Function
from dev.sources.public import Crate
from dev.sources.repository import Repository

CALL = re.compile(r"(\.|\b\w+(?:::<[^>]*>)?::)?\b([a-z_]\w*)(?:::<[^()]*?>)?\(")
# Names of methods that the toolchain's library has too, or another type of ours: a file that calls one names its type.
COMMON = frozenset("as_slice clone cmp get is_empty iter join last len max min new pop push take truncate write".split())


@dataclass(frozen=True)
class Body:
    """What a body names: functions, methods, and types or modules with a function."""

    free: frozenset[str]
    methods: frozenset[str]
    paths: frozenset[tuple[str, str]]


def body_of(text: str) -> Body:
    """Returns what a text names."""
    free, methods, paths = set(re.findall(r"\b[a-z_]\w*\b", text)), set(), set()
    for before, name in CALL.findall(text):
        if before == ".":
            methods.add(name)
        elif before:
            paths.add((re.split(r"::", before)[0], name))
    return Body(frozenset(free), frozenset(methods), frozenset(paths))


def changes_nothing(function: Function) -> bool:
    """Whether a function returns nothing and takes all that it takes behind a `&`, so that no call of it is seen."""
    found = re.search(r"fn \w+(?:<[^(]*>)?\((.*)\)$", function.signature)
    if not found:
        return False
    taken = [it.strip() for it in found[1].split(",") if it.strip()]
    return all(re.match(r"&(?:'\w+ )?self$|\w+: &(?!(?:'\w+ )?mut\b)", it) for it in taken)


class Calls:
    """All functions of a repository, and which may call which."""

    def __init__(self, house: Repository) -> None:
        self.house = house
        self.below = {it: house.below(it) for it in house.crates}
        self.texts = {it: code.texts_of(f"{house.root}/crates/{it}") for it in house.crates}
        self.open = {it: Crate(house, it) for it in house.crates}
        self.functions = [it for crate in house.crates for it in code.functions_of(f"{house.root}/crates/{crate}")]
        self.by_name: dict[str, list[Function]] = {}
        for function in self.functions:
            self.by_name.setdefault(function.name, []).append(function)
        self.called = {it: self.calls_of(it, body_of(self.body(it))) for it in self.functions}
        self.callers: dict[Function, list[Function]] = {}
        for function, others in self.called.items():
            for other in others:
                self.callers.setdefault(other, []).append(function)

    def body(self, function: Function) -> str:
        """Returns the body of a function, without comments and literals."""
        lines = code.blanked(self.texts[function.crate][function.file]).split("\n")
        return "\n".join(lines[function.opens - 1 : max(function.last, function.opens)])

    def is_public(self, function: Function) -> bool:
        """Whether another crate can call a function, by its name or by that of its type or trait."""
        crate, module = self.open[function.crate], os.path.splitext(os.path.basename(function.file))[0]
        named = function.owner or function.name
        is_open = crate.is_open(module, named) or bool(function.trait) and function.trait in crate.exported
        return is_open and (bool(function.trait and function.ensures) or function.is_public and not function.trait)

    def is_law(self, function: Function) -> bool:
        """Whether no call of a function is seen: its contract is all that it says."""
        has_body = self.body(function).split("\n")[0].strip() != "{}"
        return not (function.is_of_a_type or has_body) or self.is_public(function) and changes_nothing(function)

    def public(self, crate: str) -> list[Function]:
        """Returns the functions of a crate that another can call."""
        return [it for it in self.functions if it.crate == crate and self.is_public(it)]

    def calls_of(self, function: Function, body: Body) -> set[Function]:
        """Returns the functions that a body may call; a trait's method may be that of each type that has it."""
        found = {it for name in body.free for it in self.by_name.get(name, []) if self.is_free(function, it)}
        found |= {it for name in body.methods for it in self.by_name.get(name, []) if self.is_method(function, it)}
        for kind, name in body.paths:
            found |= {it for it in self.by_name.get(name, []) if self.is_path(function, it, kind)}
        if function.owner and function.owner == function.trait:
            found |= {it for it in self.by_name[function.name] if it.trait == function.trait}
        return found - {function}

    def is_free(self, function: Function, other: Function) -> bool:
        """Whether a name in a body is this function, which stands in the file or is brought in by a `use` line."""
        if other.owner or other.crate not in self.below[function.crate]:
            return False
        if (other.crate, other.file) == (function.crate, function.file):
            return True
        source = "crate" if other.crate == function.crate else other.crate
        used = re.findall(rf"\buse ({source}\b[^;]*);", self.texts[function.crate][function.file])
        return any(re.search(rf"\b{other.name}\b", it) for it in used)

    def is_method(self, function: Function, other: Function) -> bool:
        """Whether a method of this name may be this one."""
        if not other.owner or other.crate not in self.below[function.crate]:
            return False
        kinds = [it for it in (other.owner, other.trait) if it]
        if other.crate == function.crate and other.file == function.file:
            return True
        is_common = other.name in COMMON or len({it.owner for it in self.by_name[other.name]}) > 1
        texts = self.texts[function.crate]
        places = [function.file] if is_common else [*texts]
        return any(re.search(rf"\b{kind}\b", texts[place]) for kind in kinds for place in places)

    def is_path(self, function: Function, other: Function, kind: str) -> bool:
        """Whether a function behind the name of a type, of a module or of a crate is this one."""
        if other.crate not in self.below[function.crate]:
            return False
        if kind == "Self":
            return other.crate == function.crate and other.owner == function.owner
        module = os.path.splitext(os.path.basename(other.file))[0]
        return kind in ((other.owner, other.trait) if other.owner else (module, other.crate))

    def reached(self, starts: Iterable[Function]) -> set[Function]:
        """Returns the functions that these may reach, themselves among them."""
        found = set(starts)
        left = [*found]
        while left:
            new = self.called[left.pop()] - found
            found |= new
            left += new
        return found

    def named(self, crate: str, name: str) -> list[Function]:
        """Returns the free functions of this name in a crate."""
        return [it for it in self.by_name.get(name, []) if it.crate == crate and not it.owner]

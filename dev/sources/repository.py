"""The crates of a repository, by its `crates.txt`, and where their files are."""

from __future__ import annotations

import os
import re
from collections.abc import Iterable
from dataclasses import dataclass, field
from functools import cached_property
from pathlib import Path

TOP = Path(__file__).resolve().parents[2]
HEAD = re.compile(r"^(\w+)(?: staticlib)?((?: \w+=\S+)*):(.*)$")


@dataclass
class Layer:
    """A heading of `crates.txt`: its name, what it says of its crates, and these."""

    name: str
    says: str
    crates: list[Crate] = field(default_factory=list)


@dataclass(frozen=True)
class Crate:
    """A line of `crates.txt`: a crate, its layer, the libraries that it stands on, and its marks such as `may_wait=2`."""

    name: str
    layer: Layer
    libraries: tuple[str, ...]
    marks: tuple[tuple[str, str], ...]

    def mark(self, name: str) -> str:
        """Returns the value of a mark, or nothing if the line has no such mark."""
        return dict(self.marks).get(name, "")

    @property
    def is_of_tests(self) -> bool:
        """Whether the crate has tests alone, so that nothing is built on it."""
        return bool(self.mark("tests_may"))


class Repository:
    """The sources in a folder.

    Raises:
        OSError: if the folder has no `crates.txt`, when its crates are asked for.
    """

    def __init__(self, root: Path = TOP) -> None:
        self.root = root.resolve()

    def text(self, path: str) -> str:
        """Returns the text of a file, by its path below the folder."""
        return (self.root / path).read_text(encoding="utf-8")

    def lines(self, path: str) -> list[str]:
        """Returns the lines of a file, by its path below the folder."""
        return self.text(path).split("\n")

    @cached_property
    def layers(self) -> list[Layer]:
        """The headings of `crates.txt`, in order, each with its crates. What stands before the first has one without a name."""
        found = [Layer("", "")]
        for number, line in enumerate(self.lines("crates.txt"), 1):
            head = HEAD.match(line)
            if line.startswith("# "):
                name, _, says = line[2:].partition(": ")
                found.append(Layer(name, says))
            elif head:
                marks = tuple((it.partition("=")[0], it.partition("=")[2]) for it in head[2].split())
                found[-1].crates.append(Crate(head[1], found[-1], tuple(head[3].split()), marks))
            elif line:
                raise SystemExit(f"crates.txt:{number} cannot be read: {line}")
        return [it for it in found if it.name or it.crates]

    @cached_property
    def crates(self) -> dict[str, Crate]:
        """The crates by name, each after those that it stands on."""
        return {crate.name: crate for layer in self.layers for crate in layer.crates}

    def below(self, name: str) -> frozenset[str]:
        """Returns a crate and all of this repository on which it stands."""
        found: set[str] = set()
        waiting = [name]
        while waiting:
            now = waiting.pop()
            if now not in found and now in self.crates:
                found.add(now)
                waiting += self.crates[now].libraries
        return frozenset(found)

    def above(self, names: Iterable[str]) -> list[str]:
        """Returns these crates and all that stand on one of them, in the order of `crates.txt`."""
        found = {*names}
        for crate in self.crates.values():
            if found.intersection(crate.libraries):
                found.add(crate.name)
        return [it for it in self.crates if it in found]

    def files(self, crate: str, ending: str, folders: Iterable[str] = ("src", "specs", "proofs")) -> list[str]:
        """Returns the files of a crate with this ending, as paths below the folder of the repository."""
        found = []
        for folder in folders:
            for at, _, names in os.walk(self.root / "crates" / crate / folder):
                found += [os.path.relpath(os.path.join(at, it), self.root) for it in names if it.endswith(ending)]
        return sorted(found)

    def first_file(self, crate: str) -> str:
        """Returns the file with which a crate begins: that of its library, or of its program."""
        library = f"crates/{crate}/src/lib.rt"
        return library if (self.root / library).is_file() else f"crates/{crate}/src/main.rt"

    def opening(self, crate: str) -> list[str]:
        """Returns the sentences of the first paragraph with which a crate says what it is for."""
        told: list[str] = []
        for line in self.lines(self.first_file(crate)):
            if not line.startswith("//! "):
                break
            told.append(line[4:])
        return re.split(r"(?<=\.) (?=[A-Z])", " ".join(told))

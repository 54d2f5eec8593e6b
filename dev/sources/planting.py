"""Edits that plant a bug: what such a file says, the texts that it makes, and the functions that it strikes.

An edit has lines `file: PATH`, `old: TEXT` and `new: TEXT`, as `rt` reads them, and `only: MODULE::FUNCTION`, once for
each function of which the proof has to be refused. If no contract can refuse it, it has in place of these one line
`run: CRATE MODULE::TEST`, of a test of that crate that has to fail, or `run: CRATE FILE ..`, of a program that has to
fail over these files of its data. It stands in crates/CRATE/must-fail, tests/edits/gate/CRATE or tests/edits/more/CRATE.

A text of `old:` stands once in its file. In tests/edits/ it may also stand elsewhere in the file, if it stands once in
the lines of the functions that `only:` names; `rt`, which reads must-fail/, takes no such edit.

All paths are below the top of the repository, which is the current folder.
"""

from __future__ import annotations

import os
import re
from collections.abc import Sequence
from dataclasses import dataclass
from glob import glob

from dev.sources.code import Function, functions_of, is_named

# The folders of edits: those that `rt ci` tries, that the gate tries besides, and the others.
FOLDERS = ("crates/{}/must-fail", "tests/edits/gate/{}", "tests/edits/more/{}")
READ = ("src/", "specs/", "proofs/")


class BadEdit(Exception):
    """Says why an edit cannot be made."""


def paths_of(crate: str = "*") -> list[str]:
    """Returns the files of the edits of a crate, or of all crates."""
    return sorted(path for folder in FOLDERS for path in glob(f"{folder.format(crate)}/*.edit"))


@dataclass(frozen=True)
class Pair:
    """One line of a file, and what stands in its place."""

    file: str
    old: str
    new: str


@dataclass(frozen=True)
class Edit:
    """A planted bug, and the functions whose proofs have to be refused, or the words of the run that has to fail."""

    path: str
    crate: str
    pairs: tuple[Pair, ...]
    only: tuple[str, ...]
    run: tuple[str, ...] = ()

    @property
    def name(self) -> str:
        """The crate and the file's name without its ending."""
        return f"{self.crate}/{os.path.basename(self.path)[: -len('.edit')]}"

    @property
    def is_of_rt(self) -> bool:
        """Whether `rt` tries it, in must-fail/."""
        return os.path.basename(os.path.dirname(self.path)) == "must-fail"


def crate_of(path: str) -> str:
    """Returns the crate of an edit, by where it stands."""
    parts = ["", "", *path.split("/")]
    crate = parts[-3] if parts[-2] == "must-fail" else parts[-2]
    if not crate or not os.path.isdir(f"crates/{crate}"):
        raise BadEdit(f"it stands in no folder of a crate's name, and {crate!r} is no crate")
    return crate


def read_edit(path: str) -> Edit:
    """Reads an edit.

    Raises:
        BadEdit: what is wrong with its lines, or with where it stands.
    """
    crate, file, old = crate_of(path), "", ""
    pairs: list[Pair] = []
    only: list[str] = []
    run: tuple[str, ...] = ()
    for line in text_of(path).splitlines():
        word, _, rest = line.partition(":")
        rest = rest[1:] if rest.startswith(" ") else rest
        if word == "file":
            file = rest.strip()
            if os.path.normpath(file) != file or not file.startswith(READ):
                raise BadEdit(f"{file} is no file below {', '.join(READ)}")
        elif word == "only":
            only.append(rest.strip())
        elif word == "run":
            run = tuple(rest.split())
        elif word == "old":
            old = rest
        elif word == "new":
            if not file or not old:
                raise BadEdit("a new: stands before a file: or an old:")
            pairs.append(Pair(file, old, rest))
            old = ""
        elif line.strip():
            raise BadEdit(f"the line {line!r} begins with none of file:, old:, new:, only:, run:")
    if not pairs:
        raise BadEdit("it has no old: and new:")
    if run and (only or len(run) < 2 or not os.path.isdir(f"crates/{run[0]}")):
        raise BadEdit("its run: names no crate and what is run of it, or an only: stands beside it")
    return Edit(path, crate, tuple(pairs), tuple(only), run)


def text_of(path: str) -> str:
    """Returns the text of a file."""
    try:
        with open(path, encoding="utf-8") as it:
            return it.read()
    except OSError as error:
        raise BadEdit(f"{path} cannot be read: {error.strerror}") from error


def planted(edit: Edit, folder: str, texts: dict[str, str]) -> dict[str, str]:
    """Returns the changed files of the crate in a folder, over the texts that other edits have changed already."""
    made = dict(texts)
    for pair in edit.pairs:
        text = made[pair.file] if pair.file in made else text_of(f"{folder}/{pair.file}")
        at = place_of(edit, pair, folder, text)
        made[pair.file] = text[:at] + pair.new + text[at + len(pair.old) :]
    if made == texts:
        raise BadEdit("it changes nothing")
    return made


def place_of(edit: Edit, pair: Pair, folder: str, text: str) -> int:
    """Returns where the `old:` text stands: once in the text, or once in the lines of the functions that the edit names.

    An edit changes no number of lines, so these lines are those of the file as it stands.
    """
    places = [it.start() for it in re.finditer(re.escape(pair.old), text)]
    if len(places) > 1 and not edit.is_of_rt:
        named = [it for it in functions_of(folder) if it.file == pair.file and any(is_named(it, only) for only in edit.only)]
        lines = [text.count("\n", 0, at) + 1 for at in places]
        places = [at for at, line in zip(places, lines) if any(it.first <= line <= it.last for it in named)]
    if len(places) != 1:
        raise BadEdit(f"its old: text stands {text.count(pair.old)} times in {pair.file}")
    return places[0]


def lines_of(edit: Edit, folder: str) -> list[tuple[str, int]]:
    """Returns the file and the line of each `old:` text in the crate as it stands."""
    found = []
    for pair in edit.pairs:
        text = text_of(f"{folder}/{pair.file}")
        found.append((pair.file, text.count("\n", 0, place_in_file(edit, pair, folder, text)) + 1))
    return found


def place_in_file(edit: Edit, pair: Pair, folder: str, text: str) -> int:
    """Returns where the `old:` text stands in the file as it is; its start, if only the pairs before it write it."""
    try:
        return place_of(edit, pair, folder, text)
    except BadEdit:
        return max(text.find(pair.old), 0)


def struck(edit: Edit, folder: str, functions: Sequence[Function]) -> list[Function]:
    """Returns the functions in whose lines the `old:` texts stand; none if one stands outside of all functions."""
    found: list[Function] = []
    for file, line in lines_of(edit, folder):
        inside = [it for it in functions if it.file == file and it.first <= line <= it.last]
        if not inside:
            return []
        found += [it for it in inside if it not in found]
    return found

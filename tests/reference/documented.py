"""`python3 -m tests.reference.documented [--section TITLE].. [DOCUMENT ..]`: commands of documents by the reference.

A document shows a command as an indented line `$ ..`, and what it prints as the lines up to the next command or to the
end of the block. Each command is run in a folder in which `./finder` is the reference, and what it prints is compared.
Commands that start the shipped program by its own path are skipped.

Status: 0; 1 a command prints something else; 2 the words.
"""

from __future__ import annotations

import argparse
import os
import subprocess
import sys
import tempfile
from pathlib import Path
from typing import Iterator, NamedTuple, Optional, Sequence

TOP = Path(__file__).resolve().parents[2]
DOCUMENTS = (
    "docs/start/command.md",
    "docs/guide/usage.md",
    "docs/guide/formats.md",
    "docs/guide/windows.md",
    "docs/guide/recipes.md",
    "docs/guide/trouble.md",
)
INDENT = "    "
PROMPT = INDENT + "$ "
LINKED = ("crates", "dev", "docs", "examples", "python", "tools")
"""What the commands find in their folder, besides `./finder`."""
SHIPPED = "release/finder"


class Example(NamedTuple):
    """A command of a document: the title of its section, the number of its line, and what it prints."""

    section: str
    line: int
    command: str
    output: str


def examples_of(document: str) -> Iterator[Example]:
    """The commands of a document, in order."""
    found: list[Example] = []
    section, is_in_block = "", False
    for number, line in enumerate(document.splitlines(), 1):
        if line.startswith("#"):
            section = line.lstrip("# ")
        if line.startswith(PROMPT):
            found.append(Example(section, number, line[len(PROMPT) :], ""))
            is_in_block = True
        elif line.startswith(INDENT) and is_in_block:
            found[-1] = found[-1]._replace(output=f"{found[-1].output}{line[len(INDENT):]}\n")
        else:
            is_in_block = False
    return iter(found)


def make_folder(folder: Path) -> None:
    """Makes `./finder` the reference in a folder."""
    for name in LINKED:
        (folder / name).symlink_to(TOP / name)
    finder = folder / "finder"
    finder.write_text(f'#!/bin/sh\nexec "{sys.executable}" -m tests.reference "$@"\n')
    finder.chmod(0o755)


def printed(command: str, folder: Path) -> str:
    """What a command prints to standard output and standard error, in the order in which it does."""
    done = subprocess.run(
        ["sh", "-c", command],
        cwd=folder,
        env={**os.environ, "PYTHONPATH": str(TOP), "PYTHONDONTWRITEBYTECODE": "1", "LC_ALL": "C"},
        stdin=subprocess.DEVNULL,
        stdout=subprocess.PIPE,
        stderr=subprocess.STDOUT,
        check=False,
    )
    return done.stdout.decode("utf-8", "surrogateescape")


def compare_document(document: Path, sections: Sequence[str]) -> int:
    """Runs the commands of some sections or of all, prints each that differs, and returns how many do."""
    examples = [example for example in examples_of(document.read_text("utf-8")) if SHIPPED not in example.command]
    chosen = [example for example in examples if not sections or example.section in sections]
    differing = 0
    with tempfile.TemporaryDirectory(prefix="finder-documents-") as place:
        folder = Path(place)
        make_folder(folder)
        for example in chosen:
            output = printed(example.command, folder)
            if output != example.output:
                differing += 1
                print(f"{document.name}: line {example.line}: {example.command}\n  prints: {output}")
    print(f"{document.name}: {len(chosen) - differing} of {len(chosen)} commands print what they show", flush=True)
    return differing


def main(words: Optional[Sequence[str]] = None) -> int:
    """Runs the command."""
    parser = argparse.ArgumentParser(prog="python3 -m tests.reference.documented", description=__doc__)
    parser.formatter_class = argparse.RawDescriptionHelpFormatter
    parser.add_argument("--section", action="append", default=[], metavar="TITLE", help="run this section alone")
    parser.add_argument("documents", nargs="*", metavar="DOCUMENT", help="without them those that show runs of it")
    chosen = parser.parse_args(words)
    documents = [TOP / name for name in chosen.documents or DOCUMENTS]
    return 1 if any([compare_document(document, chosen.section) for document in documents]) else 0


if __name__ == "__main__":
    sys.exit(main())

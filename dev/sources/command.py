"""What all commands of developers share: `--root`, `--help`, and the exit statuses.

A command ends with 0 if all is well, with 1 if something that it looks at is not, and with 2 if its words are wrong. Its
answer goes to standard output, and what is wrong to standard error.
"""

from __future__ import annotations

import argparse
import os
import signal
import sys
from collections.abc import Callable
from pathlib import Path
from typing import NoReturn

from dev.sources.repository import TOP, Repository


class Parser(argparse.ArgumentParser):
    """A parser of a command line that says in one line what is wrong, and ends with status 2."""

    def error(self, message: str) -> NoReturn:
        self.exit(2, f"{self.prog}: {message}\n")


def parser(name: str, doc: str | None) -> Parser:
    """Returns a parser of the command line of `dev/NAME`, with the option `--root` and the module's text as its help."""
    made = Parser(prog=f"dev/{name}", description=doc, formatter_class=argparse.RawDescriptionHelpFormatter)
    made.add_argument("--root", type=Path, default=TOP, metavar="FOLDER", help="the repository, in place of this command's own")
    return made


def repository(options: argparse.Namespace) -> Repository:
    """Returns the repository that `--root` names."""
    return Repository(options.root)


def known_crates(asked: argparse.ArgumentParser, house: Repository, names: list[str]) -> list[str]:
    """Returns these names of crates, or ends the command with status 2 if one is none."""
    for name in names:
        if name not in house.crates:
            asked.error(f"there is no crate {name}")
    return names


def run(main: Callable[[list[str]], int]) -> None:
    """Runs a command with the words that it was given, and ends with its status.

    A reader of its output that has gone ends it with status 1, and an interrupt with 130.
    """
    try:
        sys.exit(main(sys.argv[1:]))
    except BrokenPipeError:
        # (what is still to be written goes nowhere)
        os.dup2(os.open(os.devnull, os.O_WRONLY), sys.stdout.fileno())
        sys.exit(1)
    except KeyboardInterrupt:
        sys.exit(128 + signal.SIGINT)

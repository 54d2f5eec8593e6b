"""Parsers of words, and the refusals of a command."""

from __future__ import annotations

import argparse
import os

from .streams import write


class OutputFailed(Exception):
    """Standard output did not take what was printed."""

    def __init__(self, error: OSError) -> None:
        super().__init__(f"standard output: {error.strerror}")


def print_bytes(text: bytes) -> None:
    """Writes to standard output, whole: `OutputFailed` where it does not take all."""
    try:
        write(text)
    except OSError as error:
        raise OutputFailed(error) from None


class Parser(argparse.ArgumentParser):
    """A parser of the words of one command."""

    def __init__(self, word: str, program: str, description: str, epilog: str) -> None:
        super().__init__(
            prog=f"{program} {word}",
            description=description,
            epilog=epilog,
            allow_abbrev=False,
            formatter_class=argparse.RawDescriptionHelpFormatter,
        )
        self.set_defaults(refuse=self.error)

    def print_help(self, file: object = None) -> None:
        """Writes the help to standard output."""
        print_bytes(os.fsencode(self.format_help()))

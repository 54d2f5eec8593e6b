"""The command `finder cache`: the texts that are kept, listed or removed."""

from __future__ import annotations

import argparse

from ..ephemeris import cache
from ..ephemeris.cache import Kept
from ..ephemeris.text import span_text

DESCRIPTION = """\
Lists or removes the texts that the package keeps: kernels, clipped files and skies, made ready for the program.

They are in the folder $FINDER_CACHE, or $XDG_CACHE_HOME/finder, or ~/.cache/finder. Each is made again where it is
missing, so that nothing is lost with them."""
EXAMPLES = """\
examples:
  finder cache
  finder cache clear"""
MEGABYTE = 1_000_000
SHOWN = 12


def add_words(command: argparse.ArgumentParser) -> None:
    """Adds what the command takes: what to do."""
    command.add_argument("what", nargs="?", choices=("list", "clear"), default="list", help="list without it")


def run(words: argparse.Namespace) -> str:
    """The texts, each on a line, and their sum; or how much was removed."""
    if words.what == "clear":
        count, size = cache.clear()
        return f"removed {count} texts, {size / MEGABYTE:.1f} MB, from {cache.cache_folder()}\n"
    found = cache.texts()
    lines = [_line(text) for text in found]
    total = sum(text.bytes for text in found)
    return "".join([*lines, f"{len(found)} texts, {total / MEGABYTE:.1f} MB, in {cache.cache_folder()}\n"])


def _line(text: Kept) -> str:
    """A text on a line: the first letters of its SHA-256, its length, its span and the first line of its title."""
    about = text.about
    span = span_text(about["start"], about["end"])
    return f"{about['sha256'][:SHOWN]}  {text.bytes / MEGABYTE:8.1f} MB  {span}  {about['titles'][0]}\n"

"""The words of the shell command: those of the program go to it, and the others to a module each."""

from __future__ import annotations

import difflib
import gc
import importlib
import os
import sys
from collections.abc import Callable, Sequence
from typing import Optional, Union

from ..ephemeris.order import refuse_lost
from ..process.path import NoProgram
from .program import TABLED, files_of, help_of, pass_on, split_format, tabled
from .words import OutputFailed, Parser, print_bytes

# The words of the program, which are passed on, and what each does.
OF_PROGRAM = {
    "find": "searches files for an event, and prints its windows",
    "cert": "searches in the same way, and writes a certificate",
    "verify": "checks a certificate, and prints its windows",
    "set": "prints the times at which a function has a relation to a number",
    "scalar": "searches a quadratic polynomial for its turns about 0",
    "check": "reads files, and prints a summary of them",
    "gen": "makes a text of blocks from a number, and searches it",
}
# The words of the package, each the name of a module of this folder, and what each does.
WORDS = {
    "almanac": "an almanac of a year: text, a page, a table or a calendar",
    "tonight": "one night at a place",
    "report": "reports of searches as a table, CSV, JSON or Parquet",
    "cache": "the texts that the package keeps: listed, or removed",
    "text": "a kernel, a binary file or the sky of a place as text files for the program",
}
STATUS = "status: 0; 1 refused, and standard error says why; 2 the words; 3 standard output failed"
REFUSED, WRONG_WORDS, UNWRITTEN, INTERRUPTED = 1, 2, 3, 130


def program_name() -> str:
    """The command as its user calls it."""
    name = os.path.basename(sys.argv[0])
    return "finder" if name == "finder" else "python -m finder"


def help_text() -> str:
    """What `finder --help` prints."""
    width = max(map(len, [*OF_PROGRAM, *WORDS]))
    rows = {kind: [f"  {word:<{width}}  {what}\n" for word, what in words.items()] for kind, words in GROUPS.items()}
    lists = "".join(f"{kind}:\n{''.join(lines)}\n" for kind, lines in rows.items())
    return f"""\
usage: {program_name()} WORD ..
       {program_name()} WORD --help
       {program_name()} --version

Finds events in JPL ephemerides, as windows of time that are proved to miss none.

{lists}{STATUS}; of searches it is that of the program
"""


# As many more objects are made than are gone before garbage is looked for.
GARBAGE = 100_000
GROUPS = {"searches, which the program makes": OF_PROGRAM, "more, which is made in Python": WORDS}


def main(arguments: Optional[Sequence[str]] = None) -> int:
    """Runs the command, and returns its status."""
    if arguments is None:
        # (what a command makes lives until its end: to look for what does not takes a tenth of its time)
        gc.set_threshold(GARBAGE)
    words = list(sys.argv[1:] if arguments is None else arguments)
    try:
        return _main(words)
    except OutputFailed as error:
        print(f"finder: {error}", file=sys.stderr)
        return UNWRITTEN
    except KeyboardInterrupt:
        return INTERRUPTED


def _main(words: list[str]) -> int:
    first = words[0] if words else ""
    if first in ("-h", "--help", "help"):
        print_bytes(help_text().encode())
        return 0
    if first in ("-V", "--version"):
        from .. import __version__

        print_bytes(f"finder {__version__}\n".encode())
        return 0
    if first in OF_PROGRAM:
        return _of_program(words)
    if first in WORDS:
        return _run(first, words[1:])
    near = difflib.get_close_matches(first, [*OF_PROGRAM, *WORDS], 1)
    hint = f"did you mean {near[0]!r}?" if near else f"`{program_name()} --help` lists them"
    print(f"finder: {f'no word is {first!r}' if words else 'a word is missing'}: {hint}", file=sys.stderr)
    return WRONG_WORDS


def _of_program(words: list[str]) -> int:
    """Prints the help of a word of the program, or its report in another form, or becomes the program."""
    word, *rest = words
    if set(rest) & {"-h", "--help"}:
        print_bytes(help_of(word, program_name(), OF_PROGRAM[word]).encode())
        return 0
    left, form = split_format(rest) if word in TABLED else (rest, "")
    try:
        # (the program passes over blocks that come too late, without a word)
        refuse_lost(files_of(left))
        return _printed(lambda: tabled([word, *left], form)) if form else pass_on(words)
    except (OSError, ValueError) as error:
        print(f"finder: {error}", file=sys.stderr)
        return REFUSED


def _run(word: str, rest: list[str]) -> int:
    """Runs a word of the package, and prints what it returns."""
    module = importlib.import_module(f"{__package__}.{word}")
    parser = Parser(word, program_name(), module.DESCRIPTION, f"{module.EXAMPLES}\n\n{STATUS}")
    module.add_words(parser)
    parsed = parser.parse_args(rest)
    run: Callable[..., Union[str, bytes]] = module.run
    return _printed(lambda: run(parsed))


def _printed(make: Callable[[], Union[str, bytes]]) -> int:
    """Prints what is made, or says why it is not, and returns the status."""
    from ..process.program import FinderError

    try:
        text = make()
    except OutputFailed:
        raise
    except FinderError as error:
        print(f"finder: {error.line.removeprefix('finder: ')}\nfinder: likely: {error.hint}", file=sys.stderr)
        return REFUSED
    except (NoProgram, ImportError, ValueError, OSError) as error:
        print(f"finder: {error}", file=sys.stderr)
        return REFUSED
    print_bytes(text.encode() if isinstance(text, str) else text)
    return 0

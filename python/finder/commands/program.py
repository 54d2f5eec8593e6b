"""The words of the program: their help, and what they print as a table."""

from __future__ import annotations

import os
import sys
from collections.abc import Sequence

from ..process.path import find_program
from ..searches.kinds import BODIES, COVERS, ROWS, SET_KINDS, kinds_with, listed

# The words whose reports can be printed as tables.
TABLED = ("find", "set", "verify")
FILES = "\nFILE.. are a header and files of blocks, from early to late; the manual is docs/guide/usage.md."
TIMES = "a time of TDB, as 2000-05-01T00:00:00, or whole seconds since J2000"
NUMBER = "a decimal: km; of sep the cosine of an angle"
OPTIONS = {
    "--kind": ("KIND", "what is searched for, one of those below"),
    "--target": ("BODY", f"of {', '.join(BODIES)}"),
    "--second": ("BODY", f"the second body, of {listed(kinds_with('second'))}"),
    "--observer": ("BODY", "from where it is seen: a body, or ssb, which is the default"),
    "--frame": ("eq|ecl", f"equator or ecliptic of J2000, of {listed(kinds_with('frame'))}: eq"),
    "--axis": ("x|y|z", f"of {listed(kinds_with('axis'))}"),
    "--ref": ("NUMBER", f"{NUMBER}; of {listed(kinds_with('ref'))}"),
    "--radius1": ("KM", f"the radius of the target, of {listed(COVERS)}"),
    "--radius2": ("KM", f"the radius of the second body, of {listed(COVERS)}"),
    "--dir": ("DIR", "any, rise or fall: any"),
    "--relation": ("RELATION", "less, atleast, within or outside"),
    "--ref2": ("NUMBER", f"{NUMBER}; of within and outside"),
    "--cert": ("NAME", "the certificate's file"),
    "--tick": ("1|1000", "seconds or milliseconds: 1"),
    "--from": ("TIME", TIMES),
    "--to": ("TIME", TIMES),
    "--width": ("TICKS", "1 to 1000000, how wide a certain window may be: 1"),
    "--depth": ("N", "0 to 40, how many cuts may lead to a piece: 40"),
    "--workers": ("N", "1 to 64 threads: 1"),
    "--cut": ("half|third", "where a piece is cut: half"),
    "--format": ("FORM", "table, csv, json or parquet in place of the report; made in Python, which needs pandas"),
}
OF_SETS = ("--relation", "--ref2")
OTHERS = {
    "check": ("FILE..", "Reads files by all rules of their format, and prints their span, blocks and columns."),
    "gen": ("405 BLOCKS SEED", "Makes a text of so many blocks from a number, and searches it."),
    "scalar": (
        "--quad P,Q,R --from T --to T [--dir DIR] [--width N] [--depth N] [--workers N] [--cut CUT]",
        "Searches a quadratic polynomial for its turns about 0.",
    ),
}


def help_of(word: str, program: str, what: str) -> str:
    """The help of a word of the program."""
    if word in OTHERS:
        usage, text = OTHERS[word]
        return f"usage: {program} {word} {usage}\n\n{text}\n"
    names = [name for name in OPTIONS if _has(word, name)]
    width = max(len(f"{name} {OPTIONS[name][0]}") for name in names)
    options = "".join(f"  {f'{name} {OPTIONS[name][0]}':<{width}}  {OPTIONS[name][1]}\n" for name in names)
    kinds = "".join(
        f"  {row.word:<8}  {row.what.replace('`', '')}; rises where {row.rises.replace('`', '')}\n"
        for row in ROWS
        if word != "set" or row.word in SET_KINDS
    )
    title = f"{what[0].upper()}{what[1:]}."
    return f"usage: {program} {word} OPTIONS FILE..\n\n{title}\n\noptions:\n{options}\nkinds:\n{kinds}{FILES}\n"


def _has(word: str, option: str) -> bool:
    """Whether a word of the program has an option."""
    if option == "--format":
        return word in TABLED
    if option == "--cert":
        return word == "verify"
    if word == "set":
        return option != "--dir"
    return option not in OF_SETS


def split_format(words: Sequence[str]) -> tuple[list[str], str]:
    """The words without `--format` and its value, and the value; the empty text if there is none."""
    left, form = list(words), ""
    end = left.index("--") if "--" in left else len(left)
    for place, word in enumerate(left[:end]):
        name, equals, value = word.partition("=")
        if name == "--format":
            form = value if equals else left[place + 1] if place + 1 < end else ""
            del left[place : place + (1 if equals else 2)]
            return left, form or "?"
    return left, form


def files_of(words: Sequence[str]) -> list[str]:
    """The files among the words after one of the program."""
    files: list[str] = []
    is_value = False
    for place, word in enumerate(words):
        if word == "--" and not is_value:
            return [*files, *words[place + 1 :]]
        if is_value or not word.startswith("--"):
            files += [] if is_value else [word]
            is_value = False
        else:
            is_value = "=" not in word
    return files


def pass_on(words: Sequence[str]) -> int:
    """Becomes the program, which has the words, the streams and the status."""
    sys.stdout.flush()
    program = find_program()
    os.execv(program, [program, *words])


def tabled(words: Sequence[str], form: str) -> bytes:
    """What the program prints, in another form. Its refusals are exceptions, as in Python."""
    from ..process.program import runs_of
    from .report import formatted

    return formatted(runs_of(None, None).run(words), form)

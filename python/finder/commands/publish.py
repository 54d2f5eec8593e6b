"""Publishes a catalogue of searches: for each its report and its certificate, verified, and a manifest of all.

    tools/publish [--jobs N] CATALOGUE FOLDER FILE..
    tools/publish --check --seal SUM [--independent] FOLDER FILE..

CATALOGUE has a line for each search: a name of small letters, digits and hyphens, and options of `finder find`. What
comes after `#` is not read. Each search reads FILE... FOLDER gets

    NAME.cert, NAME.report    a search's certificate, as `finder cert` prints it, and its report, as `finder find` does
    catalogue                 the catalogue
    INPUTS, PROGRAM           the SHA-256 sums of FILE.., by their last names, and of the program
    SUMS                      those of all these files
    MANIFEST                  the date, the toolchain, and what each search found
    SEAL                      the sums of SUMS and MANIFEST

SUMS, MANIFEST and SEAL are written once each certificate was verified: if one is not, or a search is refused, there
are none. Files in an order in which the program would pass over blocks are refused. A run that was ended is started
again by the same words: what is there is verified, and what is missing is made. A second run in the same folder is
refused while the first one works. N searches run side by side. The date is that of $SOURCE_DATE_EPOCH if it is set,
and else today's. The program is $FINDER, or the one that this clone ships, or `finder` on the path. Printed is the sum
of SEAL, to be published elsewhere too.

With --check a folder is checked, whoever made it. All that is in it is read as data, and nothing of it is run. SUM is
the sum of SEAL that was published elsewhere, or `unknown`: then the folder is checked for being right, and not for
being the one that was published. Refused is a folder whose sums are not those of its files, whose FILE.. or program are
others, whose manifest says anything else than what was found, or in which a certificate does not verify: each is
verified by the program, or with --independent by `tools/check-certificate`, which shares nothing with it.

Status: 0; 1 refused, and standard error says why; 2 the words; 3 a file could not be read or written.
"""

from __future__ import annotations

import argparse
import os
import re
import signal
import sys
from collections.abc import Callable

from ..process.messages import fault_of, shown, shown_lines
from ..process.path import NoProgram
from ..publishing.catalogue import Refused
from ..publishing.checking import SEAL, UNKNOWN, Check
from ..publishing.folder import Found
from ..publishing.publication import Publication
from .streams import write


def jobs_of(text: str) -> int:
    """How many searches run side by side."""
    if not re.fullmatch("[0-9]{1,2}", text) or not 1 <= int(text) <= 64:
        raise argparse.ArgumentTypeError(f"it is from 1 to 64: {shown(text)}")
    return int(text)


def seal_of(text: str) -> str:
    """The sum of SEAL that was published."""
    if not SEAL.fullmatch(text):
        raise argparse.ArgumentTypeError(f"it is a SHA-256 sum of 64 digits and letters a to f, or `unknown`: {shown(text)}")
    return text


class Words(argparse.ArgumentParser):
    """Words whose help is written as all else is."""

    def print_help(self, file: object = None) -> None:
        """Writes the help to standard output."""
        write(os.fsencode(self.format_help()))


def parser(is_check: bool) -> argparse.ArgumentParser:
    """The words of a publication, or of a check."""
    words = Words(
        prog="publish", description=__doc__, allow_abbrev=False, formatter_class=argparse.RawDescriptionHelpFormatter
    )
    if is_check:
        words.add_argument("--check", action="store_true", required=True)
        words.add_argument("--seal", type=seal_of, required=True, metavar="SUM")
        words.add_argument("--independent", action="store_true")
    else:
        words.add_argument("--jobs", type=jobs_of, default=1, metavar="N")
        words.add_argument("catalogue", metavar="CATALOGUE")
    words.add_argument("folder", metavar="FOLDER")
    words.add_argument("files", nargs="+", metavar="FILE")
    return words


def checked(words: argparse.Namespace) -> str:
    """Checks a folder; what is printed of it."""
    lines: list[str] = []

    def tell(found: Found) -> None:
        lines.append(f"{found.search.name}: {found.counts}, {found.leaves} pieces verified\n")

    seal = Check(words.folder, words.files, words.seal, words.independent).run(tell)
    named = "not compared with one that was published" if words.seal == UNKNOWN else "as published"
    return "".join([*lines, f"SEAL {seal}, {named}\n", f"CHECKED {len(lines)} searches\n"])


def published(words: argparse.Namespace) -> str:
    """Publishes a catalogue; what is printed of it."""
    return f"SEAL {Publication(words.catalogue, words.folder, words.files).publish(words.jobs)}\n"


def main() -> int:
    """Does what the words ask for, and returns the status."""
    # (an interrupt ends it as a kill does, and the same words start it again)
    signal.signal(signal.SIGINT, signal.SIG_DFL)
    is_check = "--check" in sys.argv[1:]
    words = parser(is_check).parse_args()
    run: Callable[[argparse.Namespace], str] = checked if is_check else published
    try:
        write(os.fsencode(run(words)))
    except (Refused, ValueError, NoProgram) as error:
        print(f"publish: {shown_lines(error)}", file=sys.stderr)
        return 1
    except OSError as error:
        print(f"publish: {fault_of(error)}", file=sys.stderr)
        return 3
    return 0

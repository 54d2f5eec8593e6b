"""What a published folder has: the names of its files, their sums, and what its manifest says."""

from __future__ import annotations

import hashlib
import os
import re
import shutil
import stat
from collections.abc import Sequence
from pathlib import Path
from typing import NamedTuple, Union

from ..process.messages import shown
from ..process.path import PROGRAM
from .catalogue import Refused, Search

SHIPPED = Path(__file__).resolve().parents[3] / "release" / PROGRAM
SEALED = ("SUMS", "MANIFEST")
OWN = ("catalogue", "INPUTS", "PROGRAM")
VERIFIED = re.compile(r"(FIND .*\n(?:[CU] .*\n)*(END .*)\n)VERIFIED leaves ([0-9]+)\n")
PUBLISHED = re.compile(r"Searches by finder, published ([0-9]{4}-[0-9]{2}-[0-9]{2})\.")
TOOLCHAIN = re.compile(r"Toolchain: (.*)")
A_READ = 1 << 20


class Found(NamedTuple):
    """A search whose certificate was verified: its report, the last line of that, and the number of pieces."""

    search: Search
    report: str
    counts: str
    leaves: str


class Head(NamedTuple):
    """What a manifest says of itself, and nothing can show: the day, and the toolchain of the program."""

    date: str
    toolchain: str


def found_of(search: Search, said: str) -> Found:
    """What a verification said of the certificate of a search."""
    found = VERIFIED.fullmatch(said)
    if not found:
        raise Refused(f"{search.name}.cert: no verification: {shown(said[-100:])}")
    return Found(search, *found.groups())


def find_program() -> str:
    """The program: $FINDER, or the shipped one, or the one on the path."""
    named = os.environ.get("FINDER")
    if named:
        return shutil.which(named) or named
    found = str(SHIPPED) if SHIPPED.is_file() else shutil.which("finder")
    if not found:
        raise Refused("there is no command finder: name it by $FINDER, or put it on the path")
    return found


def sum_of(name: Union[Path, str]) -> str:
    """The SHA-256 sum of a file."""
    digest = hashlib.sha256()
    with open(name, "rb") as file:
        for part in iter(lambda: file.read(A_READ), b""):
            digest.update(part)
    return digest.hexdigest()


def sums_of(names: Sequence[Union[Path, str]]) -> str:
    """The lines of `sha256sum` for files, by their last names."""
    return "".join(f"{sum_of(name)}  {Path(name).name}\n" for name in names)


def program_line(program: str) -> str:
    """The line of `sha256sum` for the program."""
    return f"{sum_of(program)}  -\n"


def names_of(searches: Sequence[Search]) -> list[str]:
    """The names of the files that SUMS has."""
    return [*OWN, *(name for search in searches for name in search.files)]


def refuse_names(files: Sequence[str]) -> None:
    """Refuses files that a line of `sha256sum` cannot tell apart, or that no word of a command names."""
    for name in files:
        last = Path(name).name
        if name == "-" or last == "-":
            raise Refused("a file is named -, which commands take for standard input: name it ./- and give it another name")
        if not last.isprintable() or "\\" in last:
            raise Refused(f"{shown(name)} has a letter in its name that a list of sums cannot have: give it another name")
    if len({Path(name).name for name in files}) < len(files):
        raise Refused("two files have one last name, by which the manifest tells them apart")


def read_plain(folder: Path, name: str) -> bytes:
    """The bytes of a file of the folder, which is no link, pipe or device."""
    path = folder / name
    if not stat.S_ISREG(os.lstat(path).st_mode):
        raise Refused(f"{shown(path)} is no plain file")
    return path.read_bytes()


def manifest_of(head: Head, sums: str, program: str, found: Sequence[Found]) -> str:
    """The text of the manifest: the sums of the files, the sum of the program, and what was found."""
    lines = [f"Searches by finder, published {head.date}.", ""]
    lines += [f"Program: {program}", f"Toolchain: {head.toolchain}", "Files:"]
    lines += [f"    {line}" for line in sums.splitlines()]
    lines.append("Searches:")
    for each in found:
        lines.append(f"    {each.search.name}: {each.counts}, {each.leaves} pieces")
        lines.append(f"        {each.report.splitlines()[0]}")
    names = " ".join(line.split("  ", 1)[1] for line in sums.splitlines())
    lines += ["", "To check all of it, with these files, and with the sum of SEAL that was published elsewhere:", ""]
    lines += [f"    publish --check --seal SUM FOLDER {names}", ""]
    lines += ["`publish` is `tools/publish` of the sources of finder, or `finder-publish` of its Debian package.", ""]
    return "\n".join(lines)

"""Checks a published folder. All that is in it is read as data, and nothing of it is run or believed."""

from __future__ import annotations

import os
import re
import shutil
from collections.abc import Callable, Sequence
from pathlib import Path
from typing import Optional

from ..process.guard import Outcome, run_guarded
from ..process.messages import shown, shown_lines
from .catalogue import Refused, Search, searches_of
from .folder import (
    PUBLISHED,
    SEALED,
    TOOLCHAIN,
    Found,
    Head,
    find_program,
    found_of,
    manifest_of,
    names_of,
    program_line,
    read_plain,
    refuse_names,
    sum_of,
    sums_of,
)
from .request import request_of

UNKNOWN = "unknown"
SEAL = re.compile(f"[0-9a-f]{{64}}|{UNKNOWN}")
CHECKER = Path(__file__).resolve().parents[3] / "tools" / "check-certificate"


def find_checker() -> str:
    """The tool that verifies without the program: the clone's, or the one of the Debian package."""
    found = str(CHECKER) if CHECKER.is_file() else shutil.which("finder-check-certificate")
    if not found:
        raise Refused("there is no tools/check-certificate beside this tool, and no finder-check-certificate on the path")
    return found


class Check:
    """A folder that is checked against the files that it is said to be of."""

    def __init__(self, folder: str, files: Sequence[str], seal: str, independent: bool) -> None:
        self._folder, self._files, self._seal = Path(folder), list(files), seal
        refuse_names(self._files)
        self._program = None if independent else find_program()
        self._checker = find_checker() if independent else None

    def run(self, tell: Callable[[Found], None]) -> str:
        """Checks all of it, and tells of each certificate that was verified; the sum of the seal."""
        seal = self._sealed()
        searches = searches_of(read_plain(self._folder, "catalogue"))
        self._sums(searches)
        sums = self._inputs()
        found = []
        for search in searches:
            found.append(self._verify(search))
            tell(found[-1])
        self._manifest(sums, found)
        if self._sealed() != seal:
            raise Refused("the folder was changed while it was checked")
        return seal

    def _sealed(self) -> str:
        """The sum of SEAL, once SEAL and what it is of are what they have to be."""
        seal = read_plain(self._folder, "SEAL")
        for name in SEALED:
            read_plain(self._folder, name)
        if seal != sums_of([self._folder / name for name in SEALED]).encode():
            raise Refused("SEAL is not that of SUMS and MANIFEST")
        made = sum_of(self._folder / "SEAL")
        if self._seal not in (UNKNOWN, made):
            raise Refused(f"the sum of SEAL is {made}, and not the one that was named: it is another publication")
        return made

    def _sums(self, searches: Sequence[Search]) -> None:
        """Refuses a folder whose files are not those of its catalogue, or not those of SUMS."""
        names = names_of(searches)
        for name in names:
            read_plain(self._folder, name)
        sums = sums_of([self._folder / name for name in names]).encode().splitlines()
        for name, wanted, line in zip(names, sums, read_plain(self._folder, "SUMS").splitlines()):
            if line != wanted:
                raise Refused(f"{name} is not that of SUMS")
        if len(read_plain(self._folder, "SUMS").splitlines()) != len(sums):
            raise Refused("SUMS has other files than the catalogue has searches")
        for other in sorted(set(os.listdir(self._folder)) - {*names, *SEALED, "SEAL"}):
            if other.endswith((".cert", ".report")):
                raise Refused(f"{shown(other)} is of no search of the catalogue")

    def _inputs(self) -> str:
        """The sums of the files, once they and the program are those of the folder."""
        said = read_plain(self._folder, "INPUTS").decode("utf-8", "replace").splitlines()
        names = [line.partition("  ")[2] for line in said]
        given = [Path(name).name for name in self._files]
        if names != given:
            raise Refused(f"the folder is of the files {shown(' '.join(names))}, in this order")
        sums = sums_of(self._files)
        for name, wanted, line in zip(self._files, sums.splitlines(), said):
            if line != wanted:
                raise Refused(f"{shown(name)} is not the file of INPUTS")
        wanted = "" if self._program is None else program_line(self._program)
        if wanted and read_plain(self._folder, "PROGRAM") != wanted.encode():
            raise Refused(
                "the program is another one than that of PROGRAM: name that one by $FINDER, or check by --independent"
            )
        return sums

    def _verify(self, search: Search) -> Found:
        """Verifies a certificate, and compares its report."""
        certificate, report = (self._folder / name for name in search.files)
        done = self._verified(search, certificate)
        if done.status:
            said = shown_lines(os.fsdecode(done.err).strip())
            raise Refused(f"{certificate.name}: {said or f'the program ended with status {done.status}'}")
        found = found_of(search, done.out.decode("ascii"))
        if read_plain(self._folder, report.name) != found.report.encode():
            raise Refused(f"{report.name} is not the report of its certificate")
        return found

    def _verified(self, search: Search, certificate: Path) -> Outcome:
        """How the verification of a certificate ended, by the program or without it."""
        if self._checker:
            request = request_of(search, self._files)
            return run_guarded(self._checker, ["--request", request, "--", str(certificate), *self._files])
        words = ["verify", *search.options, f"--cert={certificate}", "--", *self._files]
        return run_guarded(str(self._program), words)

    def _manifest(self, sums: str, found: Sequence[Found]) -> None:
        """Refuses a manifest that says anything else than what was verified."""
        said = read_plain(self._folder, "MANIFEST").decode("utf-8", "replace")
        program = read_plain(self._folder, "PROGRAM").decode("ascii", "replace").split(" ")[0]
        wanted = manifest_of(_head_of(said), sums, program, found)
        if said == wanted:
            return
        lines = zip(said.splitlines() + [""], wanted.splitlines() + [""])
        number = next((at for at, (one, other) in enumerate(lines, 1) if one != other), 1)
        raise Refused(f"MANIFEST line {number} says something else than what was verified")


def _head_of(manifest: str) -> Head:
    """What a manifest says of itself."""
    lines = manifest.splitlines()
    date = PUBLISHED.fullmatch(lines[0]) if lines else None
    toolchain: Optional[re.Match[str]] = TOOLCHAIN.fullmatch(lines[3]) if len(lines) > 3 else None
    if date is None or toolchain is None:
        raise Refused("MANIFEST does not begin as a manifest does")
    return Head(date[1], toolchain[1])

"""A folder that is made of the searches of a catalogue."""

from __future__ import annotations

import concurrent.futures
import contextlib
import os
import re
import sys
import time
from collections.abc import Iterator, Sequence
from pathlib import Path

from ..ephemeris.order import refuse_lost
from ..process.guard import run_guarded
from ..process.messages import shown, shown_lines
from ..process.whole_files import OF_FOLDER, is_locked, named, sweep, write_whole
from .catalogue import Refused, Search, searches_of
from .folder import (
    OWN,
    SEALED,
    Found,
    Head,
    find_program,
    found_of,
    manifest_of,
    names_of,
    program_line,
    read_plain,
    refuse_names,
    sum_of,
    sums_of,
)

TOOLCHAIN = re.compile(r"^# toolchain: (.*)$", re.MULTILINE)


class Publication:
    """A folder that is being made of the searches of a catalogue."""

    def __init__(self, catalogue: str, folder: str, files: Sequence[str]) -> None:
        self._catalogue = Path(catalogue).read_bytes()
        self.searches = searches_of(self._catalogue)
        self._folder, self._files = Path(folder), list(files)
        refuse_names(self._files)
        self._program = find_program()
        refuse_lost(self._files)

    def _inputs(self) -> dict[str, bytes]:
        """The texts of the files that say of what the folder is: what is searched for, where, and by which program."""
        sums, program = sums_of(self._files), program_line(self._program)
        return dict(zip(OWN, (self._catalogue, sums.encode(), program.encode())))

    @contextlib.contextmanager
    def _alone(self) -> Iterator[None]:
        """Locks the folder, which is made where it is not there: a second run is told."""
        with named(self._folder):
            self._folder.mkdir(exist_ok=True)
            opened = os.open(self._folder, OF_FOLDER)
        try:
            if is_locked(opened):
                raise Refused(f"{shown(self._folder)} is being published by another run: wait for its end")
            yield
        finally:
            os.close(opened)

    def _begin(self) -> None:
        """Begins in a new folder, or goes on in one that was begun with the same catalogue, files and program."""
        shown_folder = shown(self._folder)
        inputs = self._inputs()
        if (self._folder / "SEAL").exists():
            raise Refused(f"{shown_folder} is published: `publish --check` checks it")
        sweep(self._folder)
        for name, text in inputs.items():
            path = self._folder / name
            if path.exists() and read_plain(self._folder, name) != text:
                raise Refused(f"{shown_folder} was begun with another {name}: name a new folder")
            if not path.exists() and any(self._folder.glob("*.cert")):
                raise Refused(f"{shown_folder} has certificates of another origin: name a new folder")
            write_whole(path, text)

    def _run(self, words: Sequence[str], name: str) -> str:
        """What the program prints."""
        done = run_guarded(self._program, [*words, "--", *self._files])
        if done.status:
            said = shown_lines(os.fsdecode(done.err).strip())
            raise Refused(f"{name}: {said or f'the program ended with status {done.status}'}")
        return done.out.decode("ascii")

    def _search(self, search: Search) -> Found:
        """The certificate of a search is made, where it is not there, and verified, and its report written."""
        certificate, report = (self._folder / name for name in search.files)
        if not certificate.exists():
            write_whole(certificate, self._run(["cert", *search.options], search.name).encode())
        words = ["verify", *search.options, f"--cert={certificate}"]
        found = found_of(search, self._run(words, certificate.name))
        if report.exists() and read_plain(self._folder, report.name) != found.report.encode():
            raise Refused(f"{report.name} is not the report of its certificate: remove it, to have it made again")
        write_whole(report, found.report.encode())
        return found

    def _end(self, found: Sequence[Found]) -> None:
        """Writes sums, manifest and seal, each once what it is of is on the disk."""
        inputs = self._inputs()
        for name, text in inputs.items():
            if read_plain(self._folder, name) != text:
                raise Refused(f"{name} is not what it was when the run began: a file or the program was changed in it")
        names = names_of([each.search for each in found])
        write_whole(self._folder / "SUMS", sums_of([self._folder / name for name in names]).encode())
        manifest = manifest_of(self._head(), inputs["INPUTS"].decode(), sum_of(self._program), found)
        write_whole(self._folder / "MANIFEST", manifest.encode())
        write_whole(self._folder / "SEAL", sums_of([self._folder / name for name in SEALED]).encode())

    def _head(self) -> Head:
        """What the manifest says of itself."""
        seconds = int(os.environ.get("SOURCE_DATE_EPOCH") or time.time())
        text = Path(f"{self._program}.txt")
        toolchain = TOOLCHAIN.search(text.read_text(encoding="utf-8")) if text.is_file() else None
        return Head(time.strftime("%Y-%m-%d", time.gmtime(seconds)), toolchain[1] if toolchain else "not known")

    def publish(self, jobs: int) -> str:
        """Runs the searches, so many at once, and says how far it is; the sum of the seal."""
        count = len(self.searches)
        with self._alone(), concurrent.futures.ThreadPoolExecutor(jobs) as pool:
            self._begin()
            futures = [pool.submit(self._search, search) for search in self.searches]
            try:
                for done, future in enumerate(concurrent.futures.as_completed(futures), 1):
                    found = future.result()
                    line = f"publish: {done} of {count}: {found.search.name}: {found.counts}"
                    print(line, file=sys.stderr, flush=True)
            except BaseException:
                for future in futures:
                    future.cancel()
                raise
            self._end([future.result() for future in futures])
            return sum_of(self._folder / "SEAL")

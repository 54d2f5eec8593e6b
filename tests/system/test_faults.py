"""One call of the system after the other fails, in each tool and in the package: there is no wrong result with status 0, what
was good before is whole, nothing half-written is left, and standard error names the file and the cause.

A sample tries one call of each kind, and the gate two. With FINDER_FAULTS=whole in the environment each call fails once
with each error, which takes tens of minutes. tests/support/faults.c counts the calls; it needs a C compiler and Linux 4.8
or later."""

from __future__ import annotations

import errno
import os
import shutil
import subprocess
import sys
import tempfile
import unittest
from collections.abc import Callable, Iterator
from dataclasses import dataclass, field
from pathlib import Path
from typing import Optional

from tests.support.launcher_repository import EXAMPLE, make_small_repository
from tests.support.settings import IS_WHOLE
from tests.support.tool_runs import PROGRAM, TOOLS, TOP, YEAR, contents, run_program, run_tool

SOURCE = TOP / "tests" / "support" / "faults.c"
COMPILERS = ("cc", "gcc", "clang")
FAILS_ALL = os.environ.get("FINDER_FAULTS") == "whole"
SECONDS = 600 if FAILS_ALL else 120
CANNOT = 125
# The errors with which each kind of call fails, as systems do.
ERRORS = {
    "open": (errno.EMFILE, errno.EIO, errno.ENOMEM, errno.EINTR, errno.ENOSPC),
    "write": (errno.ENOSPC, errno.EIO, errno.EINTR),
    "rename": (errno.EIO, errno.ENOSPC, errno.ENOMEM),
    "fsync": (errno.EIO, errno.ENOSPC, errno.EINTR),
    "fork": (errno.EAGAIN, errno.ENOMEM),
    "exec": (errno.ENOMEM, errno.EIO, errno.EMFILE),
}
# What says the cause besides the system's words: the program has texts of its own, and shells one for each fork and file.
CAUSES = {
    "open": ("read fault", "not whole", "cannot be read", "can't open", "cannot open", "cannot create"),
    "write": ("write fault", "cannot be written", "cannot be kept"),
    "fork": ("Cannot fork", "annot be run", "fork:"),
    "exec": ("annot be run", "not found", "exec:", "failed"),
}
CATALOGUE = "mercury --kind coord --target mercury --axis x\n"
SMALL = TOP / "examples" / "mercury-crossing.asc"
APSIS = "--kind apsis --target moon --observer earth"
PARTS = 2
# A shell whose children end while it makes the next one; and one that opens three files.
CHILDREN = 200
FORKS = f"n=0; while [ $n -lt {CHILDREN} ]; do (:) & n=$((n + 1)); done; wait"
OPENS = ": >opened; : >opened; : <opened"
SEARCH = """\
import sys, finder
from finder.process.messages import fault_of
try:
    made = finder.certificate("year", "coord", "mercury", axis="x")
    made.save("mercury.cert")
    print(len(finder.verify("year", "mercury.cert").windows), flush=True)
except finder.FinderError as error:
    sys.exit(error.line)
except OSError as error:
    sys.exit(fault_of(error))
"""


@dataclass
class Subject:
    """What is tried: how its folder is made, its words, the files that have to stay, and those that it makes."""

    name: str
    prepare: Callable[[Path], None]
    words: "list[str]"
    stays: "tuple[str, ...]" = ()
    makes: "tuple[str, ...]" = ()
    # Whether the files that it makes are there together or not at all.
    is_one: bool = False
    environment: "dict[str, str]" = field(default_factory=dict)


@dataclass
class Ended:
    """How a run ended: its status, its outputs, the files of its folder, and how many calls of each kind it made."""

    status: int
    out: bytes
    err: str
    files: "dict[str, bytes]"
    calls: "dict[str, int]"


def numpy_python() -> Optional[str]:
    """A Python that has numpy."""
    for python in (sys.executable, "/usr/bin/python3"):
        if Path(python).exists():
            if not subprocess.run([python, "-c", "import numpy"], capture_output=True, check=False).returncode:
                return python
    return None


def place(*files: "tuple[Path, str]") -> Callable[[Path], None]:
    """Copies files into a folder."""

    def prepare(folder: Path) -> None:
        for file, name in files:
            shutil.copytree(file, folder / name) if file.is_dir() else shutil.copy(file, folder / name)

    return prepare


class Faults(unittest.TestCase):
    """A machine whose calls fail."""

    room: Path
    faults: Path
    tried = 0

    @classmethod
    def setUpClass(cls) -> None:
        folder = tempfile.TemporaryDirectory()
        cls.addClassCleanup(folder.cleanup)
        cls.room = Path(os.path.realpath(folder.name))
        cls.faults = cls.room / "faults"
        compiler = next((found for found in map(shutil.which, COMPILERS) if found), None)
        if compiler is None:
            raise unittest.SkipTest(f"there is no C compiler here ({', '.join(COMPILERS)})")
        built = subprocess.run([compiler, "-O1", "-o", cls.faults, SOURCE], capture_output=True, check=False)
        if b"No such file" in built.stderr or b"file not found" in built.stderr:
            raise unittest.SkipTest(f"{compiler} has no headers of seccomp here")
        assert built.returncode == 0, built.stderr.decode()
        (cls.room / "empty").mkdir()
        words = [cls.faults, "open", "5", "0", "/none", cls.room / "count", shutil.which("true")]
        if subprocess.run(words, check=False).returncode == CANNOT:
            raise unittest.SkipTest("this system lets no process stop another at its calls (seccomp and ptrace, Linux 4.8)")

    @classmethod
    def tearDownClass(cls) -> None:
        if FAILS_ALL:
            print(f"faults: {cls.tried} runs", file=sys.stderr)

    def run_once(self, subject: Subject, call: str, error: int, failing: int) -> Ended:
        """A run of a subject in a new folder, in which a call fails."""
        type(self).tried += 1
        folder = self.room / "run"
        shutil.rmtree(folder, ignore_errors=True)
        folder.mkdir()
        subject.prepare(folder)
        count = self.room / "count"
        words = [self.faults, call, str(error), str(failing), folder, count, *subject.words]
        with open(folder / "stdout", "wb") as out:
            done = subprocess.run(
                list(map(str, words)),
                cwd=folder,
                stdin=subprocess.DEVNULL,
                stdout=out,
                stderr=subprocess.PIPE,
                timeout=SECONDS,
                check=False,
                env={**os.environ, "FINDER": str(PROGRAM), "PYTHONDONTWRITEBYTECODE": "1", **subject.environment},
            )
        files = {str(path.relative_to(folder)): path.read_bytes() for path in folder.rglob("*") if path.is_file()}
        out_text = files.pop("stdout")
        return Ended(done.returncode, out_text, done.stderr.decode(errors="replace"), files, self.read_calls())

    def read_calls(self) -> "dict[str, int]":
        """How many calls of each kind the last run made."""
        return {call: int(made) for call, made in map(str.split, (self.room / "count").read_text().splitlines())}

    def check_run(self, subject: Subject, whole: Ended, ended: Ended, call: str, error: int) -> None:
        """What holds of each run."""
        for name in subject.stays:
            self.assertEqual(ended.files.get(name), whole.files[name], name)
        made = {name: ended.files[name] for name in subject.makes if name in ended.files}
        for name, text in made.items():
            self.assertEqual(text, whole.files[name], name)
        left = [name for name in ended.files if name.endswith(".new") or ".finder-" in name]
        if ended.status == 0:
            self.assertEqual((ended.out, len(made)), (whole.out, len(subject.makes)))
            self.assertEqual(left, [])
            return
        self.assertNotIn("Traceback", ended.err)
        causes = (os.strerror(error), *CAUSES.get(call, ()))
        self.assertTrue(any(cause in ended.err for cause in causes), ended.err)
        if subject.is_one and ended.status != 0:
            self.assertIn(len(made), (0, len(subject.makes)))
        if call not in ("fork", "exec"):
            self.assertEqual(left, [])

    def chosen(self, subject: Subject, call: str, count: int) -> "Iterator[tuple[int, int]]":
        """Which calls fail, and with which errors."""
        errors = ERRORS[call]
        if FAILS_ALL:
            yield from ((failing, error) for failing in range(1, count + 1) for error in errors)
            return
        for at, failing in enumerate(sorted({(count + 1) // 2, count} - {0})[not IS_WHOLE :]):
            yield failing, errors[(at + len(subject.name)) % len(errors)]

    def try_all(self, subject: Subject, calls: "tuple[str, ...]" = tuple(ERRORS)) -> None:
        """Tries a subject with each kind of call."""
        whole = self.run_once(subject, "all", 0, 0)
        self.assertEqual(whole.status, 0, whole.err)
        self.assertEqual([name for name in subject.makes if name not in whole.files], [])
        for call in calls:
            for failing, error in self.chosen(subject, call, whole.calls[call]):
                with self.subTest(subject.name, call=call, failing=failing, error=errno.errorcode[error]):
                    self.check_run(subject, whole, self.run_once(subject, call, error, failing), call, error)

    def run_shell(self, call: str, error: int, failing: int, text: str) -> "tuple[int, str, int]":
        """The status of a shell in which a call fails, what it said, and how many calls there were."""
        words = map(str, (self.faults, call, error, failing, self.room, self.room / "count", "/bin/sh", "-c", text))
        done = subprocess.run(list(words), cwd=self.room, capture_output=True, text=True, timeout=SECONDS, check=False)
        return done.returncode, done.stderr, self.read_calls()[call]

    def test_the_call_that_is_named_fails_and_no_other(self) -> None:
        self.assertEqual(self.run_shell("fork", 0, 0, FORKS), (0, "", CHILDREN))
        self.assertEqual(self.run_shell("open", 0, 0, OPENS), (0, "", 3))
        for failing, called in ((1, 1), (2, 2), (3, 3), (4, 3)):
            status, said, count = self.run_shell("open", errno.EMFILE, failing, OPENS)
            self.assertEqual((status == 0, count), (failing > 3, called))
            self.assertEqual(os.strerror(errno.EMFILE) in said, failing <= 3)

    def tool(self, name: str, *words: str) -> "list[str]":
        """The words of a run of a tool in Python."""
        return [sys.executable, "-B", str(TOOLS / name), *words]

    def test_cut(self) -> None:
        parts = tuple(f"part-000{number}.asc" for number in (1, 2, 3))
        subject = Subject(
            "cut",
            place((YEAR, "year")),
            self.tool("cut.py", "--blocks", "5", "part", "year"),
            stays=("year",),
            makes=parts,
            is_one=True,
        )
        self.try_all(subject)

    def test_publish(self) -> None:
        (self.room / "catalogue").write_text(CATALOGUE)
        names = ("catalogue", "INPUTS", "PROGRAM", "mercury.cert", "mercury.report", "SUMS", "MANIFEST", "SEAL")
        subject = Subject(
            "publish",
            place((self.room / "catalogue", "catalogue"), (SMALL, "year")),
            self.tool("publish", "catalogue", "made", "year"),
            stays=("year", "catalogue"),
            makes=tuple(f"made/{name}" for name in names),
            environment={"SOURCE_DATE_EPOCH": "951782400"},
        )
        self.try_all(subject)

    def test_check_of_a_published_folder(self) -> None:
        (self.room / "catalogue").write_text(CATALOGUE)
        made = self.room / "published"
        shutil.rmtree(made, ignore_errors=True)
        self.assertEqual(run_tool("publish", self.room / "catalogue", made, SMALL).returncode, 0)
        subject = Subject(
            "check",
            place((made, "made"), (SMALL, SMALL.name)),
            self.tool("publish", "--check", "--seal", "unknown", "made", SMALL.name),
            stays=tuple(f"made/{name}" for name in contents(made)),
        )
        self.try_all(subject, ("open", "write", "fork", "exec"))

    def prepare_parts(self) -> Callable[[Path], None]:
        """A plan, and the reports of its parts."""
        parts = self.room / "parts"
        if not parts.exists():
            parts.mkdir()
            (parts / "plan").write_text(run_tool("spans", "cut", PARTS, YEAR).stdout)
            for number, line in enumerate((parts / "plan").read_text().splitlines(), 1):
                start, end = line.split()
                text = run_program("find", *APSIS.split(), f"--from={start}", f"--to={end}", YEAR)
                (parts / str(number)).write_bytes(text)
        return place((parts, "parts"), (SMALL, "year"))

    def test_spans(self) -> None:
        prepare = self.prepare_parts()
        join = Subject("join", prepare, self.tool("spans", "join", "parts/plan", "parts/1", "parts/2"), stays=("parts/1",))
        self.try_all(join, ("open", "write"))
        cut = Subject("spans cut", prepare, self.tool("spans", "cut", "2", "year"), stays=("year",))
        self.try_all(cut, ("open", "write", "fork", "exec"))

    def test_slurm(self) -> None:
        path = f"{TOP / 'tests' / 'system' / 'stand-ins'}:{os.environ['PATH']}"
        self.prepare_parts()
        subject = Subject(
            "slurm",
            place((self.room / "parts" / "plan", "plan"), (YEAR, "year")),
            [str(TOOLS / "slurm"), "plan", "moons", *APSIS.split(), "year"],
            stays=("plan", "year"),
            makes=("moons/1", "moons/2", "moons/report"),
            environment={"PATH": path},
        )
        self.try_jobs(subject)

    def try_jobs(self, subject: Subject) -> None:
        """The same of jobs: what failed stands in files, and there is a report only where all is right."""
        whole = self.run_once(subject, "all", 0, 0)
        self.assertIn("moons/report", whole.files, whole.err)
        for call in ERRORS:
            for failing, error in self.chosen(subject, call, whole.calls[call]):
                with self.subTest("slurm", call=call, failing=failing, error=errno.errorcode[error]):
                    ended = self.run_once(subject, call, error, failing)
                    for name in (*subject.stays, *subject.makes):
                        self.assertIn(ended.files.get(name), (None, whole.files[name]), name)
                    if "moons/report" not in ended.files:
                        said = ended.err + "".join(
                            text.decode(errors="replace") for name, text in ended.files.items() if name.endswith(".err")
                        )
                        causes = (os.strerror(error), *CAUSES.get(call, ()))
                        self.assertTrue(any(cause in said for cause in causes), said)

    def test_launcher(self) -> None:
        repository = self.room / "repository"
        make_small_repository(repository)
        first = Subject(
            "launcher",
            place((repository, "copy")),
            [str(self.room / "run" / "copy" / "finder"), "check", f"copy/{EXAMPLE}"],
            stays=("copy/finder", "copy/crates.txt", "copy/release/common", f"copy/{EXAMPLE}"),
        )
        self.try_all(first)
        subprocess.run([repository / "finder", "check", repository / EXAMPLE], capture_output=True, check=True)
        self.try_all(Subject("later", first.prepare, first.words, first.stays), ("open", "fork", "exec"))

    def script(self) -> str:
        """A text that searches, outside of the folder whose calls fail."""
        script = self.room / "search.py"
        script.write_text(SEARCH)
        return str(script)

    def test_package(self) -> None:
        python = numpy_python()
        if python is None:
            self.skipTest("no python3 here has numpy")
        subject = Subject(
            "package",
            place((SMALL, "year")),
            [python, "-B", self.script()],
            stays=("year",),
            makes=("mercury.cert",),
            environment={"PYTHONPATH": str(TOP / "python")},
        )
        self.try_all(subject)

    def test_package_over_a_file_that_was_good(self) -> None:
        python = numpy_python()
        if python is None:
            self.skipTest("no python3 here has numpy")
        before = run_program("cert", *"--kind coord --target mercury --axis x".split(), SMALL)
        (self.room / "good").write_bytes(before)
        subject = Subject(
            "save",
            place((SMALL, "year"), (self.room / "good", "mercury.cert")),
            [python, "-B", self.script()],
            stays=("year", "mercury.cert"),
            environment={"PYTHONPATH": str(TOP / "python")},
        )
        self.try_all(subject, ("open", "write", "rename", "fsync"))


if __name__ == "__main__":
    unittest.main()

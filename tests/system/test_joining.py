"""`tools/spans join` names the part that is damaged, its file and its line; `missing` and `tools/slurm --again` search again
what is not whole."""

from __future__ import annotations

import os
import re
import shutil
import subprocess
import unittest
from collections.abc import Callable
from pathlib import Path
from typing import Optional

from tests.support.settings import sample
from tests.support.tool_runs import PROGRAM, TOOLS, TOP, YEAR, InFolder, folder_of, run_program, run_tool

SEARCHES = {
    "find": "--kind apsis --target moon --observer earth",
    "set": "--kind station --target mercury --observer earth --frame ecl --relation less",
    "cert": "--kind apsis --target earth --observer sun",
}
PARTS = 3


def without_line(text: bytes, place: int) -> bytes:
    """A text without one of its lines."""
    lines = text.splitlines(keepends=True)
    return b"".join(lines[:place] + lines[place + 1 :])


def with_line(text: bytes, place: int, line: bytes) -> bytes:
    """A text with one more line."""
    lines = text.splitlines(keepends=True)
    return b"".join([*lines[:place], line, *lines[place:]])


# What becomes of a part, and the line that is named; None where the file as a whole is.
DAMAGE: "dict[str, tuple[Callable[[bytes], bytes], Optional[Callable[[bytes], int]]]]" = {
    "empty": (lambda text: b"", None),
    "cut within a line": (lambda text: text[:-5], lambda text: text.count(b"\n")),
    "its last byte lost": (lambda text: text[:-1], lambda text: text.count(b"\n")),
    "its last line lost": (lambda text: without_line(text, text.count(b"\n") - 1), lambda text: text.count(b"\n") - 1),
    "a line more": (lambda text: with_line(text, 2, b"junk\n"), lambda text: 3),
    "a line behind it": (lambda text: text + b"junk\n", lambda text: text.count(b"\n") + 1),
    "not ASCII": (lambda text: with_line(text, 2, b"\xff\n"), lambda text: 3),
    "a letter of a terminal": (lambda text: with_line(text, 2, b"\x1b[31m\n"), lambda text: 3),
    "twice": (lambda text: text + text, lambda text: text.count(b"\n") + 1),
    "counts": (lambda text: re.sub(rb"END (\w+) ", rb"END \1 1", text), lambda text: text.count(b"\n")),
    "NUL bytes": (lambda text: with_line(text, 2, b"\0\0\0\n"), lambda text: 3),
}


class Joining(InFolder):
    """Parts of a plan of each command, which are damaged one after the other."""

    whole: Path

    @classmethod
    def setUpClass(cls) -> None:
        cls.whole = folder_of(cls)
        (cls.whole / "plan").write_text(run_tool("spans", "cut", PARTS, YEAR).stdout)
        for command, words in SEARCHES.items():
            for number, line in enumerate((cls.whole / "plan").read_text().splitlines(), 1):
                start, end = line.split()
                text = run_program(command, *words.split(), f"--from={start}", f"--to={end}", YEAR)
                (cls.whole / f"{command}-{number}").write_bytes(text)

    def setUp(self) -> None:
        super().setUp()
        shutil.copytree(self.whole, self.folder, dirs_exist_ok=True)

    def join(self, command: str) -> "subprocess.CompletedProcess[str]":
        """Joins the parts of a command."""
        files = [f"{command}-{number}" for number in range(1, PARTS + 1)]
        return run_tool("spans", "join", "--file", YEAR, "plan", *files, cwd=self.folder)

    def assert_named(self, command: str, number: int, line: Optional[int]) -> None:
        """The part is refused with nothing on standard output, and named, with its file and its line."""
        done = self.join(command)
        self.assertEqual((done.returncode, done.stdout, done.stderr.count("\n")), (1, "", 1), done.stderr)
        place = f"{command}-{number} line {line}: " if line else f"{command}-{number} has no report"
        self.assertRegex(done.stderr, f"^spans: part {number} of the plan, [^ ]+ [^ ]+: {place}")
        self.assertTrue(done.stderr[:-1].isprintable(), done.stderr)

    def test_what_is_whole(self) -> None:
        for command, words in SEARCHES.items():
            self.assertEqual(self.join(command).stdout.encode(), run_program(command, *words.split(), YEAR))

    def test_each_damage_of_each_part(self) -> None:
        for place, (name, (change, line)) in sample(enumerate(DAMAGE.items()), 4):
            command = list(SEARCHES)[place % len(SEARCHES)]
            number = place % PARTS + 1
            part = self.folder / f"{command}-{number}"
            text = part.read_bytes()
            part.write_bytes(change(text))
            with self.subTest(name, command=command, number=number):
                self.assert_named(command, number, line(text) if line else None)
            part.write_bytes(text)

    def test_another_request(self) -> None:
        part = self.folder / "find-2"
        part.write_bytes(part.read_bytes().replace(b"depth 40", b"depth 39"))
        self.assert_named("find", 2, 1)
        shutil.copy(self.folder / "set-2", part)
        self.assert_named("find", 2, 1)

    def test_another_span(self) -> None:
        shutil.copy(self.folder / "find-1", self.folder / "find-3")
        self.assert_named("find", 3, 1)

    def test_a_part_that_is_gone(self) -> None:
        (self.folder / "find-2").unlink()
        done = self.join("find")
        self.assertEqual((done.returncode, done.stdout), (3, ""))
        self.assertRegex(done.stderr, r"^spans: find-2: No such file or directory \(part 2 of the plan, [^ ]+ [^ ]+\)\n$")

    def test_parts_that_are_missing(self) -> None:
        files = [f"find-{number}" for number in range(1, PARTS + 1)]
        self.assertEqual(run_tool("spans", "missing", "plan", *files, cwd=self.folder).stdout, "")
        (self.folder / "find-1").unlink()
        (self.folder / "find-2").write_bytes((self.folder / "find-2").read_bytes()[:-7])
        shutil.copy(self.whole / "find-1", self.folder / "find-3")
        self.assertEqual(run_tool("spans", "missing", "plan", *files, cwd=self.folder).stdout, "1\n2\n3\n")
        done = run_tool("spans", "missing", "plan", *files[1:], cwd=self.folder)
        self.assertEqual((done.returncode, done.stderr), (1, "spans: 2 files for 3 parts of the plan\n"))


class Slurm(InFolder):
    """A search in parts, some of which are not whole."""

    def slurm(self, *words: str) -> "subprocess.CompletedProcess[str]":
        """A run of the tool, with a stand-in of Slurm's command."""
        path = f"{TOP / 'tests' / 'system' / 'stand-ins'}:{os.environ['PATH']}"
        return subprocess.run(
            [TOOLS / "slurm", *words],
            cwd=self.folder,
            capture_output=True,
            text=True,
            check=False,
            stdin=subprocess.DEVNULL,
            env={**os.environ, "PATH": path, "FINDER": str(PROGRAM), "PYTHONDONTWRITEBYTECODE": "1"},
        )

    def test_what_is_not_whole_is_searched_again(self) -> None:
        (self.folder / "plan").write_text(run_tool("spans", "cut", PARTS, YEAR).stdout)
        words = SEARCHES["find"].split()
        self.assertEqual(self.slurm("plan", "moons", *words, str(YEAR)).returncode, 0)
        whole = run_program("find", *words, YEAR)
        moons = self.folder / "moons"
        self.assertEqual((moons / "report").read_bytes(), whole)
        for damaged, left in ((("2",), "0002"), (("1", "3"), "")):
            shutil.rmtree(self.folder / ".sbatch")
            (moons / "report").unlink()
            for number in damaged:
                (moons / number).write_bytes((moons / number).read_bytes()[:300])
            (moons / "2.9.new").write_text("left by a job that was killed")
            done = self.slurm("--again", "moons")
            self.assertEqual(done.returncode, 0, done.stderr)
            self.assertEqual((moons / "report").read_bytes(), whole, left)
            ran = "".join(file.read_text() for file in (self.folder / ".sbatch").iterdir())
            self.assertEqual(sorted(ran.split("\n")[:-1]), sorted([f"{number} 0" for number in damaged] + ["1 0"]))
            self.assertEqual(list(moons.glob("*.new")), [])


if __name__ == "__main__":
    unittest.main()

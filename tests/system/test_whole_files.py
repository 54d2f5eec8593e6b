"""What killed runs have left blocks nothing and is removed; names are shown without what a terminal takes; and a folder that
is not there is made, or told."""

from __future__ import annotations

import os
import subprocess
import sys
import unittest

from tests.support.tool_runs import TOP, YEAR, InFolder, contents, run_tool

sys.path.insert(0, str(TOP / "python"))
from finder.process.messages import shown  # noqa: E402
from finder.process.whole_files import new_folder, sweep, whole_file, write_whole  # noqa: E402

RED = "\x1b[31mred"


class Files(InFolder):
    """Files that are written whole or not at all."""

    def test_a_file_that_is_not_finished(self) -> None:
        write_whole(self.folder / "good", b"good")
        with self.assertRaises(ZeroDivisionError), whole_file(self.folder / "good") as file:
            file.write(b"half")
            raise ZeroDivisionError
        self.assertEqual(contents(self.folder), {"good": b"good"})

    def test_rights_and_links_stay(self) -> None:
        write_whole(self.folder / "file", b"1")
        os.chmod(self.folder / "file", 0o640)
        (self.folder / "link").symlink_to("file")
        write_whole(self.folder / "link", b"2")
        self.assertTrue((self.folder / "link").is_symlink())
        self.assertEqual((self.folder / "file").read_bytes(), b"2")
        self.assertEqual((self.folder / "file").stat().st_mode & 0o777, 0o640)

    def test_a_pipe_is_written_to(self) -> None:
        words = [sys.executable, "-B", "-c", "from finder.process.whole_files import *; write_whole('/dev/stdout', b'text')"]
        environment = {**os.environ, "PYTHONPATH": str(TOP / "python")}
        with open(self.folder / "out", "wb") as out:
            subprocess.run(words, stdout=out, env=environment, check=True)
        self.assertEqual(contents(self.folder), {"out": b"text"})
        self.assertEqual(subprocess.run(words, capture_output=True, env=environment, check=True).stdout, b"text")

    def test_what_is_written_is_not_swept_away(self) -> None:
        (self.folder / ".finder-0.new").write_bytes(b"left by a run that was killed")
        (self.folder / ".finder-1.new").mkdir()
        (self.folder / ".finder-1.new" / "part").write_bytes(b"left too")
        with new_folder(self.folder) as folder, whole_file(self.folder / "file") as file:
            file.write(b"whole")
            sweep(self.folder)
            self.assertTrue(folder.is_dir())
            self.assertEqual(len(list(self.folder.iterdir())), 2)
        self.assertEqual(contents(self.folder), {"file": b"whole"})


class Cut(InFolder):
    """tools/cut.py beside what is there already."""

    def test_leftovers_block_nothing(self) -> None:
        (self.folder / "part-0001.asc.new").write_bytes(b"of another release")
        (self.folder / ".finder-0.new").mkdir()
        (self.folder / ".finder-0.new" / "part-0001.asc").write_bytes(b"left")
        done = run_tool("cut.py", "--blocks", 5, self.folder / "part", YEAR)
        self.assertEqual(done.returncode, 0, done.stderr)
        names = [f"part-000{number}.asc" for number in (1, 2, 3)]
        self.assertEqual(sorted(contents(self.folder)), sorted([*names, "part-0001.asc.new"]))
        again = run_tool("cut.py", "--blocks", 5, self.folder / "part", YEAR)
        self.assertEqual((again.returncode, again.stderr), (3, f"cut: {self.folder}/part-0001.asc: it is there already\n"))

    def test_a_full_disk_names_the_part(self) -> None:
        limited = f"trap '' XFSZ; ulimit -f 200; exec {sys.executable} -B {TOP}/tools/cut.py --blocks 5 part {YEAR}"
        done = subprocess.run(["sh", "-c", limited], cwd=self.folder, capture_output=True, text=True, check=False)
        self.assertEqual((done.returncode, done.stdout), (3, ""))
        self.assertEqual(done.stderr, "cut: part-0001.asc: File too large\n")
        self.assertEqual(contents(self.folder), {})


class Names(InFolder):
    """Names with letters that a terminal takes."""

    def test_tools_show_them_escaped(self) -> None:
        name = shown(RED)
        for words in (
            ("cut.py", "part", RED),
            ("spans", "join", RED),
            ("spans", "cut", "2", RED),
            ("publish", RED, "made", YEAR),
            ("publish", "--check", "--seal", "unknown", RED, YEAR),
        ):
            with self.subTest(words):
                done = run_tool(*words, cwd=self.folder)
                self.assertNotEqual(done.returncode, 0)
                self.assertIn(name, done.stderr)
                self.assertNotIn("\x1b", done.stderr)


class Package(InFolder):
    """packaging/make of a folder that cannot be made."""

    def test_a_folder_that_cannot_be_made(self) -> None:
        (self.folder / "file").write_bytes(b"")
        done = subprocess.run(
            [TOP / "packaging" / "make", self.folder / "file" / "under"], capture_output=True, text=True, check=False
        )
        self.assertEqual((done.returncode, done.stdout), (1, ""))
        self.assertIn(f"packaging/make: the folder {self.folder}/file/under cannot be made or entered\n", done.stderr)


if __name__ == "__main__":
    unittest.main()

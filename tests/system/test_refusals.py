"""./test over copies of the repository in which something is wrong: it fails, and says what.

A sample tries the right copy, a changed byte of the program, a changed case, a missing check, and wrong words."""

import os
import re
import shutil
import subprocess
import time
import unittest

from tests.support.case_runs import COMPILERS, needs_devices
from tests.support.records import listed_counts, read_cases
from tests.support.settings import TOP, of_the_whole
from tests.support.tool_runs import folder_of

COPIED = ("VERSION", "test", "tests", ".ci", "release", "crates.txt", "crates", "dev", "docs", "finder", "examples")
PROGRAM = "release/finder-x86_64-linux"
COUNTS = listed_counts()
WORDS, LAYOUTS = COUNTS["words.cases"], COUNTS["layouts.cases"]


def path_without(folder, names):
    """A folder with the commands of the path, but without those of these names."""
    folder.mkdir()
    for place in os.get_exec_path():
        for command in os.scandir(place) if os.path.isdir(place) else ():
            link = folder / command.name
            if command.name not in names and not os.path.lexists(link):
                link.symlink_to(command.path)
    return str(folder)


class Refusals(unittest.TestCase):
    """Tries in a copy, in which each puts back what it changed."""

    @classmethod
    def setUpClass(cls):
        cls.room = folder_of(cls)
        cls.copy = cls.room / "copy"
        cls.copy.mkdir()
        for name in COPIED:
            if (TOP / name).is_dir():
                unused = shutil.ignore_patterns("out", "must-fail", "__pycache__")
                shutil.copytree(TOP / name, cls.copy / name, ignore=unused)
            else:
                shutil.copy2(TOP / name, cls.copy / name)
        # (without rt, so that nothing is proved where ./finder is started though it may not be)
        cls.path = path_without(cls.room / "path", {"rt"})

    def change(self, name, changed):
        """Puts what a function makes of a file's bytes into their place, and puts them back when the test ends."""
        path = self.copy / name
        text, mode = path.read_bytes(), path.stat().st_mode

        def put_back():
            path.write_bytes(text)
            path.chmod(mode)

        self.addCleanup(put_back)
        self.assertNotEqual(text, changed(text))
        path.write_bytes(changed(text))

    def run_test(self, *words, **variables):
        """Runs ./test in the copy: its status, and what it printed, with one blank for blanks and line feeds."""
        environment = {name: value for name, value in os.environ.items() if name != "FINDER_TESTS"}
        environment.update({"PATH": self.path, **variables})
        how = {"cwd": self.copy, "env": environment, "capture_output": True, "text": True, "timeout": 300}
        done = subprocess.run(["./test", *words], check=False, **how)
        self.last = (done.stdout.splitlines() or [""])[-1]
        return done.returncode, " ".join((done.stdout + done.stderr).split())

    def test_nothing_is_wrong(self):
        status, said = self.run_test("cases/words", "launcher")
        self.assertEqual(status, 0, said)
        self.assertRegex(self.last, r"^\d+ passed, 0 failed$")
        for part in ("commands", "program", "cases/words", "launcher"):
            self.assertRegex(said, rf"{part} +[1-9]\d* passed, 0 failed [\d.]+ s")
        self.assertIn("Not shown here: that the program is the one that the proofs are of", said)
        self.assertIn("`.ci/run` shows both", said)
        self.assertIn("This was a sample: `FINDER_TESTS=whole ./test` runs all of it", said)

    @of_the_whole
    def test_the_whole_is_no_sample(self):
        status, said = self.run_test("cases/words", FINDER_TESTS="whole")
        self.assertEqual((status, self.last), (0, f"{WORDS} passed, 0 failed"), said)
        self.assertNotIn("sample", said)

    def test_a_changed_byte_of_the_program(self):
        self.change(PROGRAM, lambda text: text[: len(text) // 2] + b"?" + text[len(text) // 2 + 1 :])
        status, said = self.run_test("launcher", "cases/layouts")
        self.assertEqual(status, 1, said)
        self.assertIn(f"not ok 1 - {PROGRAM} has the bytes that {PROGRAM}.txt says", said)
        self.assertRegex(said, r"launcher +0 passed, 0 failed, 1 skipped .* skipped, as it stands on program, which failed")
        self.assertRegex(self.last, r"^\d+ passed, \d+ failed, 1 skipped$")

    @of_the_whole
    def test_a_changed_source(self):
        """The launcher has no program of it, and what reads the sources alone is checked."""
        self.change("crates/gf_find/src/lib.rt", lambda text: text + b"\n")
        status, said = self.run_test("launcher", "public-calls", "cases/layouts")
        self.assertEqual((status, self.last), (1, f"{LAYOUTS + 6} passed, 2 failed, 1 skipped"), said)
        self.assertIn(f"not ok 3 - {PROGRAM} is that of the sources here", said)
        self.assertRegex(said, r"launcher +0 passed, 0 failed, 1 skipped .* skipped, as it stands on program, which failed")
        self.assertRegex(said, r"public-calls +1 passed, 0 failed")

    @of_the_whole
    def test_a_lint_that_fails(self):
        self.change("dev/public-calls.md", lambda text: text.replace(b"fn ", b"fn no_", 1))
        status, said = self.run_test("public-calls")
        self.assertEqual((status, self.last), (1, "1 passed, 1 failed"), said)
        self.assertIn("it ended with status 1", said)

    def test_a_changed_case(self):
        self.change("tests/cases/words.cases", lambda text: text.replace(b"status 2\n", b"status 3\n", 1))
        status, said = self.run_test("cases/words")
        self.assertEqual((status, self.last), (1, f"{WORDS - 1} passed, 1 failed"), said)
        self.assertRegex(said, r"words-\d+ differs # finder # status 2, where 3 is right")

    @of_the_whole
    def test_a_case_is_left_out(self):
        self.change("tests/cases/words.cases", lambda text: text[: text.rindex(b"case ")])
        status, said = self.run_test("cases/words")
        self.assertEqual(status, 1, said)
        self.assertIn(f"words.cases has {WORDS - 1} cases, and the table of tests/cases/README.md says {WORDS}", said)

    @of_the_whole
    def test_a_file_of_cases_is_cut_off(self):
        self.change("tests/cases/words.cases", lambda text: text[:-3])
        status, said = self.run_test("cases/words")
        self.assertEqual(status, 1, said)
        self.assertRegex(said, r"words.cases: the record at byte \d+ is not in the format of cases")

    @of_the_whole
    def test_a_missing_command(self):
        status, said = self.run_test("launcher", "cases/layouts", PATH=path_without(self.room / "no-sums", {"rt", "sha256sum"}))
        self.assertEqual(status, 1, said)
        self.assertIn("these commands are not on the path: sha256sum", said)
        self.assertIn("launcher 0 passed, 0 failed, 1 skipped", said)
        self.assertIn(f"cases/layouts {LAYOUTS} passed, 0 failed", said)

    @of_the_whole
    def test_no_compiler(self):
        status, said = self.run_test("cases/failing", PATH=path_without(self.room / "no-compiler", {"rt", *COMPILERS}))
        devices = sum(map(needs_devices, read_cases("failing.cases")))
        plain = COUNTS["failing.cases"] - devices
        self.assertEqual((status, self.last), (0, f"{plain} passed, 0 failed, {devices} skipped"), said)
        self.assertIn(f"{devices} skipped, as there is no C compiler here (cc, gcc, clang): ", said)

    def test_a_check_is_missing(self):
        self.change("tests/system/launcher", lambda text: b"#!/missing\n" + text)
        status, said = self.run_test("launcher")
        self.assertEqual(status, 1, said)
        self.assertIn("tests/system/launcher cannot be started: No such file or directory", said)

    @of_the_whole
    def test_other_programs(self):
        wrong = self.copy / "wrong"
        wrong.write_text("#!/bin/sh\nexec ./right-no-more\n", "ascii")
        wrong.chmod(0o755)
        status, said = self.run_test("--program", str(wrong), "cases/layouts")
        self.assertEqual((status, self.last), (1, f"0 passed, {LAYOUTS} failed"), said)
        status, said = self.run_test("--program", PROGRAM, "cases/layouts")
        self.assertEqual((status, self.last), (0, f"{LAYOUTS} passed, 0 failed"), said)

    @of_the_whole
    def test_an_end_by_a_signal(self):
        room = self.room / "temporary"
        room.mkdir()
        environment = {**os.environ, "TMPDIR": str(room)}
        process = subprocess.Popen(["./test", "cases"], cwd=self.copy, env=environment, stdout=subprocess.DEVNULL)
        while not list(room.glob("*/finder-cases-*/*")) and process.poll() is None:
            time.sleep(0.01)
        process.terminate()
        self.assertEqual(process.wait(120), 143)
        self.assertEqual(list(room.iterdir()), [])

    def test_words(self):
        for words, said in (
            (["nothing"], "test: there is no part nothing: ./test --list prints the names"),
            (["--program", PROGRAM, "launcher"], "test: launcher is a part that takes no program"),
            (["--program", "nothing", "cases"], "test: nothing is no program"),
            (["--program", "tests", "cases"], "test: tests is no program"),
        ):
            self.assertEqual(self.run_test(*words), (2, said))


class Lists(unittest.TestCase):
    """Nothing that tests is forgotten."""

    def test_each_check_is_called(self):
        folders = (".ci", "tests/edits", "tests/system")
        files = (file for folder in folders for file in (TOP / folder).iterdir())
        checks = [file for file in files if file.is_file() and os.access(file, os.X_OK) and file.suffix != ".py"]
        texts = {file: file.read_text("utf-8") for file in (*checks, TOP / "test")}
        for check in checks:
            others = "".join(text for file, text in texts.items() if file != check)
            name = re.escape(str(check.relative_to(TOP)))
            is_called = re.search(rf'{name}\b|shell\("{check.name}"', others) or check.name == "run"
            self.assertTrue(is_called, f"{check} is called by nothing")

    def test_each_test_of_unittest_is_of_a_part(self):
        text = (TOP / "test").read_text("utf-8")
        for file in sorted((TOP / "tests").rglob("test_*.py")):
            name = str(file.relative_to(TOP))
            module = name[: -len(".py")].replace("/", ".")
            places = (name, f"--discover {file.parent.relative_to(TOP)}")
            self.assertTrue(any(place.replace("tests/", "", 1) in text for place in places) or module in text, name)

    def test_each_file_of_cases_is_a_part(self):
        listed = re.findall(r'^    cases\("([\w-]+)"', (TOP / "test").read_text("utf-8"), re.MULTILINE)
        self.assertEqual(sorted(listed), sorted(file.stem for file in (TOP / "tests" / "cases").glob("*.cases")))


if __name__ == "__main__":
    unittest.main()

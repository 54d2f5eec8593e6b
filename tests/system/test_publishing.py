"""`tools/publish` over JPL's year: twelve searches are published, also by a run that was killed and started again, with the
same bytes; `--check` refuses each folder that is not what it says; and what does not verify is not published."""

from __future__ import annotations

import fcntl
import hashlib
import os
import shutil
import signal
import subprocess
import sys
import unittest
from pathlib import Path
from unittest import mock

from tests.support.settings import of_the_whole, sample
from tests.support.tool_runs import PROGRAM, TOOLS, TOP, YEAR, Done, InFolder, contents, folder_of, run_tool

sys.path.insert(0, str(TOP / "python"))
from finder.publishing.catalogue import Refused  # noqa: E402
from finder.publishing.checking import Check  # noqa: E402
from finder.publishing.folder import Found  # noqa: E402

CATALOGUE = """\
# Twelve searches of the year 2000.
mercury-x       --kind coord --target mercury --axis x
moon-distance   --kind radius --target moon --observer earth --ref 384400
moon-apsides    --kind apsis --target moon --observer earth
new-moons       --kind conj --target moon --second sun --observer earth --frame ecl --dir fall
great           --kind conj --target jupiter --second saturn --observer earth --frame ecl
full-moons      --kind oppo --target moon --second sun --observer earth --frame ecl   # in longitude
stations        --kind station --target mercury --observer earth --frame ecl
venus-jupiter   --kind sep --target venus --second jupiter --observer earth --ref 0.9998476951563913
venus-sun       --kind sepext --target venus --second sun --observer earth
touches         --kind any --target sun --second venus --observer earth --radius1 696000 --radius2 6051.8
hidden          --kind full --target sun --second venus --observer earth --radius1 696000 --radius2 6051.8
transit         --kind annular --target mercury --second sun --observer jupiter --radius1 2440 --radius2 7e5 --depth 9
"""
TWO = """\
moon-apsides --kind apsis --target moon --observer earth
great --kind conj --target jupiter --second saturn --observer earth --frame ecl
"""
DATE = {"SOURCE_DATE_EPOCH": "951782400"}


def published(*words: object, **environment: str) -> Done:
    """A run that publishes."""
    return run_tool("publish", *words, **{**DATE, **environment})


def checked(folder: Path, *words: object, seal: str = "unknown", files: tuple[Path, ...] = (YEAR,), **how: str) -> Done:
    """A run that checks a folder."""
    return run_tool("publish", "--check", "--seal", seal, *words, folder, *files, **how)


def sum_of(path: Path) -> str:
    """The SHA-256 sum of a file."""
    return hashlib.sha256(path.read_bytes()).hexdigest()


def seal_anew(folder: Path, names: "list[str] | None" = None) -> None:
    """Makes the sums of a folder anew, as whoever changes it can."""
    if names is None:
        names = [line.split("  ")[1] for line in (folder / "SUMS").read_text().splitlines()]
    (folder / "SUMS").write_text("".join(f"{sum_of(folder / name)}  {name}\n" for name in names))
    (folder / "SEAL").write_text("".join(f"{sum_of(folder / name)}  {name}\n" for name in ("SUMS", "MANIFEST")))


def killed(*words: object) -> bool:
    """Whether a run of the tool was killed, with all that it started, once three searches were done."""
    with subprocess.Popen(
        [sys.executable, "-B", TOOLS / "publish", *map(str, words)],
        stdout=subprocess.DEVNULL,
        stderr=subprocess.PIPE,
        text=True,
        env={**os.environ, "FINDER": str(PROGRAM), **DATE},
        start_new_session=True,
    ) as process:
        assert process.stderr
        for line in process.stderr:
            if line.startswith("publish: 3 of 12"):
                os.killpg(process.pid, signal.SIGKILL)
                break
    return process.returncode == -signal.SIGKILL


class Published(InFolder):
    """Folders that are made."""

    def setUp(self) -> None:
        super().setUp()
        self.catalogue = self.folder / "catalogue"
        self.catalogue.write_text(CATALOGUE)

    def test_undisturbed_and_killed(self) -> None:
        made = self.folder / "made"
        done = published("--jobs", 2, self.catalogue, made, YEAR)
        self.assertEqual((done.returncode, done.stderr.count("\n")), (0, 12), done.stderr)
        self.assertEqual(done.stdout, f"SEAL {sum_of(made / 'SEAL')}\n")
        files = contents(made)
        self.assertEqual(len(files), 30)
        self.assertIn(b"published 2000-02-29.", files["MANIFEST"])
        check = checked(made, seal=sum_of(made / "SEAL"))
        self.assertEqual((check.returncode, check.stdout.count(" verified\n")), (0, 12), check.stderr)
        self.assertTrue(check.stdout.endswith("CHECKED 12 searches\n"))
        again = self.folder / "again"
        self.assertTrue(killed(self.catalogue, again, YEAR))
        self.assertFalse((again / "SEAL").exists())
        (again / ".finder-0123456789abcdef.new").write_text("left by a run that was killed")
        self.assertEqual(published(self.catalogue, again, YEAR).returncode, 0)
        self.assertEqual(contents(again), files)
        self.assertIn("is published", published(self.catalogue, again, YEAR).stderr)

    @of_the_whole
    def test_a_false_certificate_is_not_published(self) -> None:
        begun = self.folder / "begun"
        killed(self.catalogue, begun, YEAR)
        # A search that was under way when the run was killed has a certificate without a report.
        certificate = next(it for it in sorted(begun.glob("*.cert")) if it.with_suffix(".report").exists())
        text = certificate.read_text()
        certificate.write_text(text.replace(" N\n", " R\n", 1))
        done = published(self.catalogue, begun, YEAR)
        self.assertEqual(done.returncode, 1)
        self.assertIn("73 CertMark", done.stderr)
        self.assertFalse((begun / "SEAL").exists() or (begun / "MANIFEST").exists())
        certificate.write_text(text)
        report = certificate.with_suffix(".report")
        report.write_text(report.read_text().replace("END", "END "))
        self.assertIn("is not the report", published(self.catalogue, begun, YEAR).stderr)
        other = self.folder / "other"
        other.write_text(CATALOGUE.replace("384400", "384401"))
        self.assertIn("another catalogue", published(other, begun, YEAR).stderr)

    def test_catalogues_that_are_refused(self) -> None:
        rows = (
            (b"", "has no search"),
            (b"Moon --kind apsis", "small letters"),
            (b"\x1b[31m --kind apsis", "hyphens: \\x1b[31m\n"),
            (b"moon --kind apsis --target moon\nmoon --kind apsis --target moon", "stands there twice"),
            (b"moon --kind apsis --target moon --cert=x", "options of `finder find` alone"),
            (b"moon --kind apsis --cert x --target moon", "options of `finder find` alone"),
            (b"moon --kind=apsis header.405 --target moon", "options of `finder find` alone"),
            (b"moon --kind apsis --target moon --depth", "options of `finder find` alone"),
            (b"moon --kind apsis --target moon\nsun --kind 'apsis", "catalogue line 2: No closing quotation"),
            (b"moon --kind apses --target moon", "moon: finder: words: 63 BadValue kind"),
            (b"moon --kind apsis --target moon --observer earth\r", "catalogue line 1: it has a carriage return"),
            (b"moon --kind apsis --target m\0oon", "catalogue line 1: it has a NUL"),
            (b"moon --kind apsis --target \xff", "is no UTF-8"),
        )
        for line, why in sample(rows, 4):
            with self.subTest(line):
                self.catalogue.write_bytes(line + b"\n")
                done = published(self.catalogue, self.folder / "none", YEAR)
                self.assertEqual(done.returncode, 1, done.stderr)
                self.assertIn(why, done.stderr)
                shutil.rmtree(self.folder / "none", ignore_errors=True)

    def test_files_that_are_refused(self) -> None:
        for name in sample(("-", "a\nb", "a\rb", "a\\b", "\x1b[31mred"), 4):
            with self.subTest(name):
                shutil.copy(YEAR, self.folder / name)
                done = published("catalogue", "none", "--", name, cwd=self.folder)
                self.assertEqual((done.returncode, done.stderr.count("\n")), (1, 1), done.stderr)
                self.assertTrue("in its name" in done.stderr or "is named -" in done.stderr, done.stderr)
                self.assertTrue(done.stderr[:-1].isprintable(), done.stderr)
                self.assertFalse((self.folder / "none").exists())
        missing = published(self.catalogue, self.folder / "none", self.folder / "missing")
        self.assertEqual(missing.returncode, 3)
        self.assertEqual(missing.stderr, f"publish: {self.folder}/missing: No such file or directory\n")

    def test_words(self) -> None:
        self.catalogue.write_text(TWO)
        on_path = {"FINDER": PROGRAM.name, "PATH": f"{PROGRAM.parent}:/usr/bin:/bin"}
        self.assertEqual(published(self.catalogue, self.folder / "path", YEAR, **on_path).returncode, 0)
        for jobs in sample(("0", "65", "many"), 3):
            done = published("--jobs", jobs, self.catalogue, self.folder / "none", YEAR)
            self.assertEqual(done.returncode, 2)
            self.assertIn(f"from 1 to 64: {jobs}\n", done.stderr)
        for seal in sample(((), ("--seal", "0" * 63), ("--seal", "f" * 63 + "F")), 3):
            done = run_tool("publish", "--check", *seal, self.folder / "path", YEAR)
            self.assertEqual((done.returncode, done.stdout), (2, ""), done.stderr)

    @of_the_whole
    def test_a_file_that_is_changed_while_it_is_searched(self) -> None:
        self.catalogue.write_text(TWO)
        data = self.folder / "year"
        shutil.copy(YEAR, data)
        program = self.folder / "changing"
        program.write_text(f'#!/bin/sh\n{PROGRAM} "$@" || exit\n[ "$1" = cert ] || echo >>"{data}"\n')
        program.chmod(0o755)
        done = published(self.catalogue, self.folder / "unsure", data, FINDER=str(program))
        self.assertEqual(done.returncode, 1)
        self.assertIn("INPUTS is not what it was", done.stderr)
        self.assertFalse((self.folder / "unsure" / "SEAL").exists())

    @of_the_whole
    def test_two_runs_in_one_folder(self) -> None:
        made = self.folder / "made"
        made.mkdir()
        opened = os.open(made, os.O_RDONLY)
        self.addCleanup(os.close, opened)
        fcntl.flock(opened, fcntl.LOCK_EX)
        done = published(self.catalogue, made, YEAR)
        self.assertEqual((done.returncode, contents(made)), (1, {}))
        self.assertEqual(done.stderr, f"publish: {made} is being published by another run: wait for its end\n")


class Checked(InFolder):
    """A folder of two searches, which others have changed."""

    whole: Path

    @classmethod
    def setUpClass(cls) -> None:
        folder = folder_of(cls)
        cls.whole = folder / "whole"
        catalogue = folder / "catalogue"
        catalogue.write_text(TWO)
        done = published(catalogue, cls.whole, YEAR)
        assert done.returncode == 0, done.stderr

    def setUp(self) -> None:
        super().setUp()
        self.made = self.folder / "made"
        shutil.copytree(self.whole, self.made)

    def fault(self, seal: str = "unknown", files: "tuple[Path, ...]" = (YEAR,), independent: bool = False) -> str:
        """Why the folder is refused, or nothing."""
        told: list[Found] = []
        try:
            with mock.patch.dict(os.environ, FINDER=str(PROGRAM)):
                Check(str(self.made), list(map(str, files)), seal, independent).run(told.append)
        except (Refused, OSError) as error:
            return str(error)
        self.assertEqual(len(told), 2)
        return ""

    def assert_refused(self, why: str, **how: "object") -> None:
        """The folder is refused for this."""
        self.assertIn(why, self.fault(**how))

    def test_what_is_right(self) -> None:
        self.assertEqual(self.fault(), "")
        done = checked(self.made, "--independent", seal=sum_of(self.made / "SEAL"))
        self.assertEqual(done.returncode, 0, done.stderr)
        self.assertIn("as published\nCHECKED 2 searches\n", done.stdout)

    def test_no_manifest(self) -> None:
        whole = (self.made / "MANIFEST").read_bytes()
        (self.made / "MANIFEST").unlink()
        for more in ((), ("--independent",)):
            done = checked(self.made, *more)
            self.assertEqual((done.returncode, done.stdout), (3, ""))
            self.assertEqual(done.stderr, f"publish: {self.made}/MANIFEST: No such file or directory\n")
        for text in (b"", b"\n", whole[: whole.index(b"Searches:")], whole[:-1], b"    $ touch ran\n" + whole):
            (self.made / "MANIFEST").write_bytes(text)
            self.assert_refused("SEAL is not that of SUMS and MANIFEST")
            seal_anew(self.made)
            self.assert_refused("MANIFEST ")
            self.assertFalse((self.made / "ran").exists())

    def test_junk_in_a_certificate_under_new_sums(self) -> None:
        certificate, report = self.made / "great.cert", self.made / "great.report"
        whole = certificate.read_bytes()
        texts = (b"", b"junk\n", whole + b"junk\n", whole[:-10], whole.replace(b" N\n", b" R\n", 1))
        for text in sample(texts, 4):
            certificate.write_bytes(text)
            for said in (b"", report.read_bytes()):
                report.write_bytes(said)
                seal_anew(self.made)
                self.assert_refused("great.cert: ")
        self.assert_refused("great.cert: ", independent=True)
        done = checked(self.made, "--independent")
        self.assertEqual((done.returncode, done.stdout), (1, ""))

    @of_the_whole
    def test_one_more_search_than_verified(self) -> None:
        whole = contents(self.made)
        (self.made / "catalogue").write_text(f"{TWO}mars --kind apsis --target mars --observer sun\n")
        seal_anew(self.made)
        self.assert_refused("No such file")
        done = checked(self.made)
        self.assertEqual((done.returncode, done.stdout), (3, ""))
        self.assertIn("mars.cert: No such file", done.stderr)
        (self.made / "catalogue").write_bytes(whole["catalogue"])
        (self.made / "MANIFEST").write_bytes(
            whole["MANIFEST"].replace(b"Searches:\n", b"Searches:\n    mars: END certain 7 undecided 0, 3 pieces\n")
        )
        seal_anew(self.made)
        self.assert_refused("MANIFEST line 8 says something else")
        (self.made / "MANIFEST").write_bytes(whole["MANIFEST"])
        seal_anew(self.made)
        shutil.copy(self.made / "great.cert", self.made / "mars.cert")
        self.assert_refused("mars.cert is of no search of the catalogue")

    def test_one_search_less(self) -> None:
        (self.made / "catalogue").write_text(TWO.splitlines(keepends=True)[0])
        seal_anew(self.made)
        self.assert_refused("SUMS has other files")
        for text, why in (("", "has no search"), ("# great\n", "has no search")):
            (self.made / "catalogue").write_text(text)
            seal_anew(self.made, ["catalogue", "INPUTS", "PROGRAM"])
            self.assert_refused(why)

    def test_a_certificate_of_another_search(self) -> None:
        (self.made / "catalogue").write_text(TWO.replace("--target moon", "--target sun"))
        seal_anew(self.made)
        for independent in (False, True):
            self.assert_refused("moon-apsides.cert: ", independent=independent)

    @of_the_whole
    def test_changed_inputs(self) -> None:
        other = self.folder / YEAR.name
        other.write_bytes(YEAR.read_bytes() + b"\n")
        self.assert_refused("is not the file of INPUTS", files=(other,))
        other.rename(self.folder / "other")
        self.assert_refused("the folder is of the files de405-2000.asc", files=(self.folder / "other",))
        program = self.folder / "finder"
        shutil.copy(PROGRAM, program)
        with open(program, "ab") as file:
            file.write(b"\n")
        done = checked(self.made, FINDER=str(program))
        self.assertEqual((done.returncode, done.stdout), (1, ""))
        self.assertIn("the program is another one", done.stderr)
        # (without the program it does not matter which one is there)
        self.assertEqual(checked(self.made, "--independent", FINDER=str(program)).returncode, 0)

    def test_another_seal(self) -> None:
        self.assert_refused("and not the one that was named", seal="0" * 64)

    def test_each_changed_byte(self) -> None:
        for name, text in sample(sorted(contents(self.made).items()), 4):
            for place in sorted({0, len(text) // 2, len(text) - 1}):
                (self.made / name).write_bytes(text[:place] + bytes([text[place] ^ 1]) + text[place + 1 :])
                self.assertTrue(self.fault(), f"byte {place} of {name}")
            (self.made / name).write_bytes(text)
        self.assertEqual(self.fault(), "")

    def test_what_is_no_plain_file(self) -> None:
        names = ("SEAL", "MANIFEST", "SUMS", "catalogue", "INPUTS", "PROGRAM", "great.cert", "great.report")
        for name in sample(names, 4):
            text = (self.made / name).read_bytes()
            (self.made / name).unlink()
            os.mkfifo(self.made / name)
            self.assert_refused("is no plain file")
            (self.made / name).unlink()
            (self.made / name).symlink_to("/dev/zero")
            self.assert_refused("is no plain file")
            (self.made / name).unlink()
            (self.made / name).write_bytes(text)


if __name__ == "__main__":
    unittest.main()

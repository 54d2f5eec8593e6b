"""`tools/check-certificate` over the shipped program: on certificates of all kinds it prints what `verify` does, and
changed ones are refused; of each 25th change the line and the rule are those of `verify`.

What is right is not taken from the checker: a certificate that `verify` accepts is a true one, and each change here
makes it say what is not so, since the events of a span are what they are.
"""

from __future__ import annotations

import functools
import importlib.machinery
import importlib.util
import random
import subprocess
import sys
import tempfile
import unittest
import unittest.mock
from pathlib import Path
from typing import Any, Optional

from tests.support.settings import IS_WHOLE, SHIPPED, TOP

YEAR = str(TOP / "examples" / "de405-2000.asc")
TOOL = TOP / "tools" / "check-certificate"
# Words, and the days of 2000 at which the span begins and ends: some event of most lies in it.
SEARCHES = [
    ("--kind coord --target mercury --axis x", 3, 30),
    ("--kind coord --target moon --observer earth --axis z --frame ecl --ref 1e4", 40, 60),
    ("--kind radius --target moon --observer earth --ref 384400", 0, 20),
    ("--kind radius --target mercury --observer earth --ref 100000000", 50, 80),
    ("--kind apsis --target moon --observer earth", 10, 40),
    ("--kind apsis --target earth --observer moon --dir rise", 30, 60),
    ("--kind conj --target moon --second sun --observer earth", 20, 50),
    ("--kind conj --target jupiter --second saturn --observer earth --frame ecl", 140, 155),
    ("--kind oppo --target moon --second sun --observer earth --frame ecl", 20, 50),
    ("--kind station --target mercury --observer earth --frame ecl", 45, 80),
    ("--kind sep --target venus --second jupiter --observer earth --ref 0.9998476951563913", 135, 140),
    ("--kind sep --target moon --second sun --observer earth --ref=-0.5", 60, 80),
    ("--kind sepext --target moon --second jupiter --observer earth", 90, 110),
    ("--kind any --target moon --second sun --observer earth --radius1 1737.4 --radius2 696000", 30, 40),
    ("--kind full --target sun --second venus --observer earth --radius1 696000 --radius2 6051.8", 158, 166),
    ("--kind annular --target mercury --second sun --observer jupiter --radius1 2439.7 --radius2 696000", 36, 44),
]
# Of each search four certificates: both cuts, seconds and milliseconds, and limits that leave something undecided.
LIMITS = ["", "--cut third --width 60", "--tick 1000", "--tick 1000 --cut third --width 1000 --depth 12"]
# In a sample each search has one of these, in its turn.
PAIRS = [(search, limits) for at, search in enumerate(SEARCHES) for limits in (LIMITS if IS_WHOLE else [LIMITS[at % 4]])]
CHANGES = 200 if IS_WHOLE else 50


@functools.lru_cache(None)
def checker() -> Any:
    """The tool as a module, which reads the files once for all certificates."""
    loader = importlib.machinery.SourceFileLoader("check_certificate", str(TOOL))
    spec = importlib.util.spec_from_loader(loader.name, loader)
    assert spec
    module: Any = importlib.util.module_from_spec(spec)
    loader.exec_module(module)
    read = functools.lru_cache(None)(module.Ephemeris)
    module.Ephemeris = lambda names: read(tuple(names))
    return module


def count_leaves(text: str) -> int:
    """How many leaves a certificate has."""
    return text.count("\nL ")


def program(*words: str) -> subprocess.CompletedProcess[str]:
    """A run of the program."""
    return subprocess.run([SHIPPED, *words], capture_output=True, text=True, check=False)


def words_of(search: tuple[str, int, int], limits: str) -> list[str]:
    """The words of a search, with its span."""
    words, first, last = search
    second = (first - 1) * 86_400 + 43_200
    return [*words.split(), *limits.split(), f"--from={second}", f"--to={second + (last - first) * 86_400}"]


def refused(text: str, folder: Path, request: Optional[str]) -> str:
    """What the tool says of a text that is no certificate of a request, and the empty text where it is one."""
    (folder / "changed").write_text(text)
    try:
        checker().said(request, str(folder / "changed"), [YEAR])
    except ValueError as error:
        return str(error)
    return ""


def changed(lines: list[str], chance: random.Random) -> list[str]:
    """A certificate that claims what is not so, of the lines of one that is true."""
    made, place = list(lines), chance.randrange(2, len(lines) - 1)
    _, first, last, depth, mark = made[place].split()
    turned = [at for at in range(2, len(lines) - 1) if made[at][-1] in "RF"]
    way = chance.randrange(9)
    if way == 0:
        # (what is undecided may be anything)
        at = place if mark != "U" else 2
        made[at] = made[at][:-1] + chance.choice([other for other in "NRF" if other != made[at][-1]])
    elif way == 1 and turned:
        at = chance.choice(turned)
        made[at] = made[at][:-1] + chance.choice("NRF".replace(made[at][-1], ""))
    elif way == 2:
        step = chance.choice([-1, 1, 60, -3_600])
        made[place] = " ".join(["L", first, str(int(last) + step), depth, mark])
    elif way == 3:
        made[place] = " ".join(["L", str(int(first) + chance.choice([-1, 1])), last, depth, mark])
    elif way == 4:
        made[place] = " ".join(["L", first, last, str(int(depth) + 1), mark])
    elif way == 5:
        del made[place]
    elif way == 6:
        made.insert(place, made[place])
    elif way == 7:
        made[-1] = f"END leaves {len(lines) - 3 + chance.choice([-1, 1])}"
    else:
        del made[place:]
    return made


@functools.lru_cache(None)
def certificate(search: tuple[str, int, int], limits: str) -> str:
    """The certificate of a search."""
    return program("cert", *words_of(search, limits), YEAR).stdout


def merged(lines: list[str], place: int) -> list[str]:
    """Two leaves as one, a cut less deep."""
    (_, first, *_), (_, _, last, depth, _) = (lines[at].split() for at in (place, place + 1))
    leaf = f"L {first} {last} {int(depth) - 1} N"
    return [*lines[:place], leaf, *lines[place + 2 : -1], f"END leaves {len(lines) - 4}"]


class Certificates(unittest.TestCase):
    """Certificates of the program, good and changed."""

    def setUp(self) -> None:
        place = tempfile.TemporaryDirectory()
        self.addCleanup(place.cleanup)
        self.folder = Path(place.name)

    def test_it_prints_what_verify_prints(self) -> None:
        path = self.folder / "cert"
        for search, limits in PAIRS:
            with self.subTest(search=search, limits=limits):
                text = certificate(search, limits)
                path.write_text(text)
                expected = program("verify", *words_of(search, limits), "--cert", str(path), YEAR).stdout
                self.assertTrue(expected.endswith(f"VERIFIED leaves {count_leaves(text)}\n"))
                self.assertEqual(checker().said(None, str(path), [YEAR]), expected)

    def written(self, path: Path, text: str) -> str:
        """Writes a file, and returns its path."""
        path.write_text(text)
        return str(path)

    def test_changed_certificates_are_refused(self) -> None:
        chance = random.Random(2_000)
        for number in range(CHANGES):
            search, limits = PAIRS[number % len(PAIRS)]
            with self.subTest(number=number, search=search, limits=limits):
                self.assert_refused(search, limits, chance, number % 25 == 0)

    def assert_refused(self, search: tuple[str, int, int], limits: str, chance: random.Random, compares: bool) -> None:
        """A change is refused, and at the line and by the rule of `verify` where these are compared."""
        lines = certificate(search, limits).split("\n")[:-1]
        new = changed(lines, chance)
        self.assertNotEqual(new, lines)
        said = refused("\n".join(new) + "\n", self.folder, lines[1])
        self.assertTrue(said.startswith("line "), said)
        if compares:
            words = words_of(search, limits)
            line = program("verify", *words, "--cert", str(self.folder / "changed"), YEAR).stderr
            self.assertTrue(f"{line.strip()}: ".startswith(f"finder: certificate {said[: said.index(':', 10) + 1]}"), said)

    def test_another_request_is_refused(self) -> None:
        lines = certificate(SEARCHES[4], "").split("\n")[:-1]
        for old, new in ((" dir any", " dir rise"), (" width 1 ", " width 2 "), ("moon", "mars"), (" apsis ", " axis ")):
            with self.subTest(new=new):
                other = "\n".join([lines[0], lines[1].replace(old, new, 1), *lines[2:]])
                self.assertTrue(refused(other, self.folder, lines[1]).startswith("line 2: 71"))

    def test_a_request_that_no_search_has_is_refused(self) -> None:
        lines = certificate(SEARCHES[4], "").split("\n")[:-1]
        for old, new in (("observer earth", "observer moon"), ("second -", "second sun"), ("values -", "values 1")):
            with self.subTest(new=new):
                other = "\n".join([lines[0], lines[1].replace(old, new, 1), *lines[2:]])
                self.assertTrue(refused(other, self.folder, None).startswith("line 2: 71"))

    def test_true_marks_that_are_not_those_of_the_judge_are_accepted_here_and_refused_by_verify(self) -> None:
        lines = certificate(SEARCHES[4], "").split("\n")[:-1]
        at = next(place for place, line in enumerate(lines) if line.endswith(("R", "F")))
        undecided = [*lines[:at], lines[at][:-1] + "U", *lines[at + 1 :]]
        pairs = (place for place in range(2, at) if lines[place][-1] + lines[place + 1][-1] == "NN")
        clear = (merged(lines, place) for place in pairs)
        for other in (undecided, next(other for other in clear if not refused("\n".join(other), self.folder, None))):
            said = refused("\n".join(other), self.folder, lines[1])
            words = words_of(SEARCHES[4], "")
            line = program("verify", *words, "--cert", str(self.folder / "changed"), YEAR).stderr
            self.assertEqual(said, "")
            self.assertIn(": 73 CertMark", line)

    def test_a_frame_that_turns_x_too(self) -> None:
        """A quarter about z: its x is the y of the files, and its events are those."""
        text = certificate(("--kind coord --target mercury --axis y --ref=-1e7", 3, 30), "")
        self.assertRegex(text, " [RF]\n")
        turned = {**checker().AXES, "eq": (1, ((0, 1, 0), (-1, 0, 0), (0, 0, 1)))}
        with unittest.mock.patch.object(checker(), "AXES", turned):
            self.assertEqual(refused(text.replace(" axis y ", " axis x ", 1), self.folder, None), "")

    def test_other_files_are_refused(self) -> None:
        """By another ratio of the masses the Earth is some km elsewhere, and its events are at other seconds."""
        cert = self.written(self.folder / "cert", certificate(SEARCHES[3], ""))
        text = Path(YEAR).read_text().replace("0.813005600000000044D+02", "0.613005600000000044D+02")
        other = self.written(self.folder / "other.asc", text)
        for name, file, status, said in ((cert, other, 1, "73 CertMark"), (cert, YEAR, 0, ""), (f"{cert}s", YEAR, 3, "")):
            with self.subTest(name=name, file=file):
                done = subprocess.run([sys.executable, TOOL, name, file], capture_output=True, text=True, check=False)
                self.assertEqual(done.returncode, status)
                self.assertIn(said, done.stderr)
                self.assertEqual(done.stdout.endswith("\n"), status == 0)


if __name__ == "__main__":
    unittest.main()

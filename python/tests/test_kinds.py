"""What a kind is has one home: it is compared with the program's own refusals, the manual, the completion and the
checker of certificates, each of which has rows of its own."""

import importlib.machinery
import importlib.util
import subprocess
import typing
import unittest

from finder.ephemeris.series import BODIES as COLUMNS
from finder.reports.report import SET_REQUEST
from finder.searches import kinds
from finder.searches.kinds import KINDS, ROWS, SET_KINDS
from tests.common import PROGRAM, TOP, YEAR, InFolder

USAGE = (TOP / "docs/guide/usage.md").read_text()
# What each option is where it is given; a body, a frame, an axis or a number that every kind with it takes.
GIVEN = {"second": "sun", "frame": "ecl", "axis": "x", "ref": "0.5", "radius1": "1000", "radius2": "2000"}


def table(head):
    """The rows of a table of the manual that has this head, as cells."""
    rows = USAGE.partition(head)[2].partition("\n\n")[0].splitlines()[2:]
    return [[cell.strip() for cell in row.strip("|").split("|")] for row in rows]


def refused(*words):
    """What the program says of words, with a file that is not there: the words are refused first."""
    done = subprocess.run([PROGRAM, *words, "no-file"], capture_output=True, text=True, check=False)
    return done.stderr.strip()


class Rows(InFolder):
    def test_literals(self):
        self.assertEqual(typing.get_args(kinds.Kind), tuple(KINDS))
        self.assertEqual(typing.get_args(kinds.SetKind), SET_KINDS)
        self.assertEqual(typing.get_args(kinds.Cover), kinds.COVERS)
        self.assertEqual({*kinds.BODIES, "ssb"}, set(COLUMNS))
        self.assertIn(f"(?P<kind>{'|'.join(SET_KINDS)})", SET_REQUEST.pattern)

    def test_the_program_refuses_what_the_rows_do(self):
        """An option that a kind needs and has not, or has and does not use, is the one that the program names."""
        bodies = ["--target", "mars", "--observer", "earth"]
        tried = 0
        for row in ROWS:
            has = row.options()
            words = [f"--{name}={GIVEN[name]}" for name in has]
            self.assertEqual(refused("find", "--kind", row.word, *bodies, *words), "finder: read fault no-file", row.word)
            for name in GIVEN:
                given = [word for word in words if not word.startswith(f"--{name}=")]
                if name not in has:
                    given.append(f"--{name}={GIVEN[name]}")
                need = row.radii if name.startswith("radius") else getattr(row, name)
                expected = "finder: read fault no-file" if need == "may" else f"finder: words: 63 BadValue {name}"
                self.assertEqual(refused("find", "--kind", row.word, *bodies, *given), expected, (row.word, name))
                tried += 1
            said = refused("set", "--kind", row.word, *bodies, *words, "--relation", "less")
            self.assertEqual(said, f"finder: {'read fault no-file' if row.sets else 'words: 63 BadValue kind'}", row.word)
        self.assertEqual(tried, len(ROWS) * len(GIVEN))

    def test_the_manual(self):
        rows = table("| Kind | What it is | Rises where |")
        said = [(cells[0].strip("`"), *cells[1:]) for cells in rows]
        self.assertEqual([(row.word, row.what, row.rises) for row in ROWS], said)
        for name, _, _, used_by, _ in table("| Option | Value | Unit | Used by | Default |"):
            option = name.split(",")[0].strip("`-")
            if option in GIVEN:
                words = tuple(word.strip(",") for word in used_by.replace("`", " ").replace(";", " ").split())
                used = tuple(word for word in KINDS if word in words)
                self.assertEqual(used, kinds.kinds_with(option), option)
        sets = [cells[0].strip("`") for cells in table("| Kind | `atleast` | `less` |")]
        self.assertEqual(tuple(sets), SET_KINDS)

    def test_the_checker_of_certificates(self):
        """How many bodies and numbers each kind has there: the checker shares no code with the package."""
        loader = importlib.machinery.SourceFileLoader("check_certificate", str(TOP / "tools/check-certificate"))
        checker = importlib.util.module_from_spec(importlib.util.spec_from_loader("check_certificate", loader))
        loader.exec_module(checker)
        numbers = {row.word: (2 if row.radii else 1 if row.ref else 0) for row in ROWS}
        self.assertEqual(checker.KINDS, {row.word: (2 if row.second else 1, numbers[row.word]) for row in ROWS})

    def test_the_completion(self):
        """The options that bash offers after a kind, and the kinds that it offers."""
        asked = ". packaging/completion; for kind; do echo $(_finder_options find $kind); done"
        asked += "; echo $(_finder_values --kind set)"
        words = ["bash", "-c", asked, "bash", *KINDS]
        lines = subprocess.run(words, cwd=TOP, capture_output=True, text=True, check=True).stdout.splitlines()
        for row, line in zip(ROWS, lines):
            offered = {word[2:] for word in line.split()} & set(GIVEN)
            self.assertEqual(offered, set(row.options()), row.word)
        self.assertEqual(tuple(lines[-1].split()), SET_KINDS)

    def test_rows_are_of_the_files_that_are_shipped(self):
        """Each kind finds what it says in JPL's year: a row that no search answers would be a mistake."""
        for row in ROWS:
            words = [f"--{name}={GIVEN[name]}" for name in row.options()]
            done = subprocess.run(
                [PROGRAM, "find", "--kind", row.word, "--target", "mars", "--observer", "earth", *words, YEAR],
                capture_output=True,
                check=False,
            )
            self.assertEqual(done.returncode, 0, row.word)


if __name__ == "__main__":
    unittest.main()

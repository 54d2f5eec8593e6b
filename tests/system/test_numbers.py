#!/usr/bin/env python3
"""The numbers that documents give are counted anew, and README and the pages of docs/proved say what was counted: of stored
cases, of rows of values, of functions that may wait or have no clause, of definitions
that a clause rests on, and of runs with memory refused. Each file that a document names is there. The C functions that
they name are those to which the shipped program is linked.

    tests/system/test_numbers.py [--write] [Numbers.TEST ..]

With --write the numbers are written into the documents as they are counted, where a document gives them in digits.
Requests of memory depend on the C library too, so they are counted only where there is the command rt, which proves and
builds the program. C functions are compared where there is nm."""

from __future__ import annotations

import re
import shutil
import subprocess
import sys
import unittest
from pathlib import Path
from typing import Iterator

sys.dont_write_bytecode = True
sys.path.insert(0, str(Path(__file__).resolve().parents[2]))
from dev.sources.code import functions_of  # noqa: E402
from dev.sources.repository import Crate, Repository  # noqa: E402
from tests.support.case_runs import command_lines  # noqa: E402
from tests.support.records import CASES, listed_counts, read_cases  # noqa: E402
from tests.support.settings import SHIPPED, TOP  # noqa: E402

VALUES = TOP / "crates/value_cases/data"
README = TOP / "README.md"
PROVED = (README, *sorted((TOP / "docs/proved").glob("*.md")))
MEMORY = TOP / "bench/README.md"
ON_JPL_YEAR = ("real.cases", "real-certificates.cases")
# The tables of values in three groups, and how the documents count these.
GROUPS = (
    (("dates", "decimals", "generated", "granules", "lines", "texts", "times"), r"([0-9,]+) of words, lines"),
    (("arguments", "bases", "intervals", "ranges"), r"([0-9,]+) of intervals, arguments"),
    (("asks", "coordinates", "formulas", "verdicts"), r"([0-9,]+) of coordinates of bodies"),
)
# A file, a folder, or an edit without its ending, that a document names; a reader puts a name for NAME or CRATE.
PLACE = re.compile(r"`((?:crates|dev|docs|tools|python|packaging|bench|release|examples|tests|\.ci)/[\w./+-]+)`")
WORDS = "no one two three four five six seven eight nine ten eleven twelve thirteen fourteen".split()
REFUSED = re.compile(r"(.+): ([0-9]+) runs with a request refused, ([0-9]+) of them whole")
# A row on functions that may wait.
WAITING_ROW = re.compile(r"^\| `(\w+)` \| ([0-9]+)[^|]*\|([^|]*)\|$", re.MULTILINE)
IS_WRITING = False


def rows_of(name: str) -> int:
    """How many rows a table of values has."""
    lines = (VALUES / f"{name}.rows").read_text().splitlines()
    return sum(bool(line.strip()) and not line.startswith("#") for line in lines)


def is_there(name: str) -> bool:
    """Whether what a document names is there, or stands for any crate."""
    return bool(re.search("NAME|CRATE", name)) or any((TOP / f"{name}{ending}").exists() for ending in ("", ".edit"))


def bound_functions(crate: str, bound: str) -> list[str]:
    """The functions of a crate that may do what this bound allows, by name: the program's has the whole runtime."""
    may = re.compile(rf"fn main\(rt: HostRuntime|[^(]*\b{bound}\b")
    return [it.name for it in functions_of(f"{TOP}/crates/{crate}") if may.match(it.signature)]


def public_with(bound: str) -> set[tuple[str, str]]:
    """The public calls with this bound, each behind its crate."""
    sections = re.split(r"^## `(\w+)`$", (TOP / "dev/public-calls.md").read_text(), flags=re.MULTILINE)[1:]
    lines = [(crate, line) for crate, text in zip(sections[::2], sections[1::2]) for line in text.splitlines()]
    named = [(crate, re.search(r"(\w+)(?:<[^>]*>)?\(", line), line) for crate, line in lines if line.startswith("fn ")]
    return {(crate, name[1]) for crate, name, line in named if name and re.search(rf"\b{bound}\b", line.split("(")[0])}


def crates() -> dict[str, Crate]:
    """The crates of the program."""
    found = Repository(TOP).crates
    return {name: crate for name, crate in found.items() if not crate.is_of_tests and name != VALUES.parent.name}


def section(start: str, end: str = "\n## ") -> str:
    """What follows a text in the page that has it, up to another text."""
    found = [text.partition(start)[2].partition(end)[0] for text in map(Path.read_text, PROVED) if start in text]
    return found[0] if found else ""


def bare_functions(crate: str) -> int:
    """How many functions of a crate have no clause: neither an `ensures` nor a trait that gives them one."""
    functions = functions_of(f"{TOP}/crates/{crate}")
    return sum(not it.ensures and it.trait in ("", it.owner) for it in functions)


def refused_runs() -> Iterator[tuple[str, str, str]]:
    """The words of each run of one worker, how many runs had a request of memory refused, and how many were whole."""
    done = subprocess.run([TOP / "bench/memory.sh", SHIPPED], capture_output=True, text=True, check=True)
    for line in done.stdout.splitlines():
        found = REFUSED.fullmatch(line)
        if found and "--workers" not in line:
            yield found[1], found[2], found[3]


class Numbers(unittest.TestCase):
    """The numbers of the documents."""

    def assert_say(self, form: str, number: int) -> None:
        """The documents say a number, each time that they have this form; with --write they are made to."""
        form = form.replace(" ", r"\s+")
        shown = (WORDS[number] if number < len(WORDS) else f"{number:,}", f"{number:,}")
        found: list[str] = []
        for page in PROVED:
            text = page.read_text()
            new = re.sub(form, lambda it: it[0].replace(it[1], shown[1], 1) if re.fullmatch("[0-9,]+", it[1]) else it[0], text)
            if IS_WRITING and new != text:
                page.write_text(new)
                text = new
            found += re.findall(form, text)
        self.assertTrue(found, f"no document says {form}")
        self.assertLessEqual(set(found), set(shown), f"{form}; tests/system/test_numbers.py --write writes it")

    def test_stored_cases(self) -> None:
        cases = {name: read_cases(name) for name in listed_counts()}
        self.assertEqual(sorted(cases), sorted(path.name for path in CASES.glob("*.cases")))
        every = [case for name in cases for case in cases[name]]
        self.assert_say(r"([0-9,]+) cases\b", len(every))
        self.assert_say("([0-9,]+) of them on JPL's year", sum(len(cases[name]) for name in ON_JPL_YEAR))
        self.assert_say("In ([0-9,]+) of the cases calls", sum(bool(case.devices) for case in every))
        self.assert_say("in all ([0-9,]+) runs", sum(len(list(command_lines(case))) for case in every))

    def test_rows_of_values(self) -> None:
        tables = {path.stem for path in VALUES.glob("*.rows")}
        self.assertEqual(tables, {name for names, _ in GROUPS for name in names})
        for names, form in GROUPS:
            self.assert_say(form, sum(map(rows_of, names)))
        self.assert_say("([0-9,]+) rows (?:of values|with the values)", sum(map(rows_of, tables)))

    def test_files_that_documents_name_are_there(self) -> None:
        for document in (README, TOP / "CONTRIBUTING.md", *sorted((TOP / "docs").rglob("*.md"))):
            lacking = [name for name in PLACE.findall(document.read_text()) if not is_there(name)]
            self.assertEqual(lacking, [], f"{document.relative_to(TOP)} names what is not there")

    def test_functions_that_may_wait(self) -> None:
        text = section("## Every call returns")
        told = {crate: (int(number), set(re.findall(r"(\w+)`", calls))) for crate, number, calls in WAITING_ROW.findall(text)}
        waiting = public_with("Wait")
        for crate, line in crates().items():
            with self.subTest(crate=crate):
                number = len(bound_functions(crate, "Wait"))
                self.assertEqual(int(line.mark("may_wait") or 0), number, "crates.txt")
                calls = {name for it, name in waiting if it == crate}
                self.assertEqual(told.get(crate, (0, set())), (number, calls), "docs/proved")
        joining = sorted(f"`{name}` of `{crate}`" for crate, name in public_with("Threads") - waiting)
        self.assertIn(" and ".join(joining), " ".join(text.split()))

    def test_functions_with_no_clause(self) -> None:
        rows = re.findall(r"^\| `(\w+)` \| ([0-9]+) \|", section("## Functions with no clause"), re.MULTILINE)
        told = {crate: int(number) for crate, number in rows}
        counted = {crate: number for crate, number in ((crate, bare_functions(crate)) for crate in crates()) if number}
        self.assertEqual(told, counted)
        self.assert_say("([0-9,]+) functions of the program have no clause", sum(counted.values()))

    def test_definitions_of_a_clause(self) -> None:
        """Of the clause `events`; docs/proved/statement.md or one of its pages prints each of them whole, once."""
        command = [str(TOP / "dev/statement"), "--count", "gf_find", "finder", "events"]
        whole = int(subprocess.run(command, capture_output=True, text=True, check=True).stdout.split()[0])
        self.assert_say("each of the ([0-9,]+) definitions", whole)
        texts = [path.read_text() for path in sorted((TOP / "docs/proved").glob("statement*.md"))]
        ends = [found[1].split(",") for found in (re.search(r"--to (\S+) ", text) for text in texts) if found]
        printed = [int(found[1]) for found in (re.search(r"^([0-9]+) definitions,", text, re.M) for text in texts) if found]
        self.assertTrue(texts and len(ends) == len(printed) == len(texts))
        self.assertTrue(all(it == ends[0] for it in ends), "the pages end at different definitions")
        self.assertEqual(sum(printed) - len(ends[0]), whole)

    @unittest.skipUnless(shutil.which("nm"), "there is no nm here")
    def test_functions_of_the_c_library(self) -> None:
        done = subprocess.run(["nm", "-D", "-u", SHIPPED], capture_output=True, text=True, check=True)
        symbols = (line.split() for line in done.stdout.splitlines())
        linked = {name.split("@")[0] for kind, name in symbols if kind == "U"}
        self.assertEqual(set(re.findall(r"`(\w+)`", section("**The C functions**", "\n\n"))), linked)

    @unittest.skipUnless(shutil.which("cc") and shutil.which("rt"), "there is no cc or no rt here")
    def test_runs_with_memory_refused(self) -> None:
        """The rows of one worker, which are the same each time."""
        for words, number, whole in refused_runs():
            row = re.compile(rf"^\| `{re.escape(words)}` \| [0-9,]+ \| [0-9,]+ \|", re.MULTILINE)
            counted = f"| `{words}` | {number} | {whole} |"
            if IS_WRITING:
                MEMORY.write_text(row.sub(counted, MEMORY.read_text()))
            self.assertEqual(row.findall(MEMORY.read_text()), [counted])


def main() -> int:
    """The command."""
    global IS_WRITING
    IS_WRITING = sys.argv[1:2] == ["--write"]
    words = [sys.argv[0], *sys.argv[2 if IS_WRITING else 1 :]]
    return not unittest.main(argv=words, exit=False).result.wasSuccessful()


if __name__ == "__main__":
    sys.exit(main())

"""Large inputs, and searches that run out of memory or have too many leaves.

Mercury's x goes from -1,382,400 km to 1,382,400 km in each block of 32 days, 1 km a second, so that every time of the
answers is known by adding up: it is at least 0 from the 17th day of a block to the second before the next one."""

from __future__ import annotations

import resource
import subprocess
import tempfile
import unittest
from datetime import datetime, timedelta
from pathlib import Path
from typing import Iterable, Optional

from tests.support.settings import IS_WHOLE, PROGRAM, TOP, of_the_whole

BLOCKS = 5000 if IS_WHOLE else 1000
DAYS = 32
START = datetime(2000, 1, 1)
HEADER = (TOP / "examples" / "mercury-crossing.asc").read_text("ascii").partition("1 26\n")[0]
X = ("--kind", "coord", "--target", "mercury", "--axis", "x")
# The y is 0 km throughout, and a number so near to it keeps every piece undecided.
NEAR = ("--kind", "coord", "--target", "mercury", "--axis", "y", "--ref", "1e-30")
WORDS = "coord target mercury second - observer ssb frame eq axis x values 0"
SMALL_MEMORY = 20_000 * 1024  # bytes


def blocks(first: int, last: int) -> str:
    """The text of blocks, from a number to one before another."""
    lines = []
    for number in range(first, last):
        day = 2451544 + DAYS * number
        lines += ["1 26", f"{day}.5 {day + DAYS}.5 0.0", "1382400 0.0 0.0", *["0.0 0.0 0.0"] * 7]
    return "\n".join(lines) + "\n"


def moment(days: float, seconds: int = 0) -> str:
    """A time as reports print it, by days and seconds after the start of the first block."""
    return (START + timedelta(days=days, seconds=seconds)).isoformat()


def windows(count: int) -> list[str]:
    """The windows of so many blocks: a rise in the middle of each, and a fall where the next one begins."""
    lines = []
    for number in range(count):
        begin, middle = moment(DAYS * number), moment(DAYS * number + DAYS / 2)
        lines += [] if number == 0 else [f"C {begin} {begin} fall"]
        lines.append(f"C {middle} {middle} rise")
    return [*lines, f"END certain {2 * count - 1} undecided 0"]


def report(count: int) -> list[str]:
    """The report of so many blocks."""
    return [f"FIND {WORDS} dir any width 1 depth 40 cut half span {moment(0)} {moment(DAYS * count)}", *windows(count)]


def spans(count: int) -> list[str]:
    """The set of the times at which x is at least 0: each sure time is a possible one."""
    ends = [moment(DAYS * (number + 1), 0 if number + 1 == count else -1) for number in range(count)]
    lines = [f"{moment(DAYS * number + DAYS / 2)} {end}" for number, end in enumerate(ends)]
    head = f"SET {WORDS} relation atleast width 1 depth 40 cut half span {moment(0)} {moment(DAYS * count)}"
    return [head, *[f"S {it}" for it in lines], *[f"P {it}" for it in lines], f"END sure {count} possible {count}"]


class Sizes(unittest.TestCase):
    """Runs of the program in a folder of their own."""

    def setUp(self) -> None:
        place = tempfile.TemporaryDirectory()
        self.addCleanup(place.cleanup)
        self.folder = Path(place.name)

    def put(self, name: str, text: str) -> None:
        """Writes a file."""
        (self.folder / name).write_text(text, encoding="ascii")

    def run_program(self, words: Iterable[str], memory: Optional[int] = None) -> tuple[int, str, str]:
        """Runs the program, with at most so many bytes of memory: its status, its output and its error output."""

        def limit() -> None:
            resource.setrlimit(resource.RLIMIT_AS, (memory or 0, memory or 0))

        done = subprocess.run(
            [PROGRAM, *words],
            cwd=self.folder,
            capture_output=True,
            text=True,
            check=False,
            preexec_fn=limit if memory else None,
        )
        return done.returncode, done.stdout, done.stderr

    def assert_prints(self, words: Iterable[str], lines: list[str]) -> None:
        """Compares what a run prints."""
        status, output, error = self.run_program(words)
        self.assertEqual((status, error), (0, ""))
        self.assertEqual(output.split("\n"), [*lines, ""])

    def test_six_files_after_a_header_are_the_one_that_they_were_cut_from(self) -> None:
        self.put("header", HEADER)
        names = [f"blocks-{number}" for number in range(6)]
        for number, name in enumerate(names):
            self.put(name, blocks(20 * number, 20 * (number + 1)))
        self.assert_prints(["find", *X, "header", *names], report(120))

    def test_of_two_names_the_one_that_is_given_is_opened(self) -> None:
        for count in (1, 2):
            self.put(f"name-{count}", HEADER + blocks(0, count))
        for count in (1, 2):
            self.assert_prints(["find", *X, f"name-{count}"], report(count))

    def test_a_report_of_thousands_of_windows(self) -> None:
        self.put("long", HEADER + blocks(0, BLOCKS))
        self.assert_prints(["find", *X, "long"], report(BLOCKS))

    def test_a_set_of_thousands_of_spans(self) -> None:
        self.put("long", HEADER + blocks(0, BLOCKS))
        self.assert_prints(["set", *X, "--relation", "atleast", "long"], spans(BLOCKS))

    def test_a_certificate_of_many_leaves(self) -> None:
        self.put("long", HEADER + blocks(0, BLOCKS))
        status, output, error = self.run_program(["cert", *X, "long"])
        leaves = output.count("\nL ")
        self.assertEqual((status, error, leaves > 20 * BLOCKS), (0, "", True))
        self.assertEqual(output.split("\n")[-2:], [f"END leaves {leaves}", ""])
        self.put("long.cert", output)
        verified = [*report(BLOCKS), f"VERIFIED leaves {leaves}"]
        self.assert_prints(["verify", *X, "--cert", "long.cert", "long"], verified)

    def test_a_search_in_20_mb_is_out_of_memory(self) -> None:
        self.put("three", HEADER + blocks(0, 3))
        self.assertEqual(self.run_program(["find", *NEAR, "three"], SMALL_MEMORY), (8, "", "finder: out of memory\n"))

    @of_the_whole
    def test_a_certificate_of_too_many_leaves_is_refused(self) -> None:
        self.put("three", HEADER + blocks(0, 3))
        refusal = (9, "", "finder: more than 4194304 leaves\n")
        self.assertEqual(self.run_program(["cert", *NEAR, "three"]), refusal)


if __name__ == "__main__":
    unittest.main()

"""`python3 -m tests.reference.stored_cases [--sample] [--processes N] [FILE.cases ..]`: stored cases, answered again.

Compares status, output and error output of each case with what the reference answers, and names each that differs.

Status: 0; 1 a case differs, or a file of cases cannot be read; 2 the words.
"""

from __future__ import annotations

import argparse
import os
import sys
from concurrent.futures import ProcessPoolExecutor
from typing import Iterable, Iterator, Optional, Sequence

from tests.support.case_runs import Answer, differences
from tests.support.records import Case, CasesError, listed_counts, read_cases

from . import answer

SMALL_BYTES = 6_000
"""A case is small if its files have at most so many bytes together."""
SMALL_STEP, LARGE_STEP = 16, 80
"""The sample has the first case of each file, each 16th after it if it is small, and each 80th if it is not."""


def exact_answer(case: Case) -> Answer:
    """What the reference answers to a case."""
    return Answer(*answer(case.words, case.files, case.devices))


def sample_of(cases: Sequence[Case]) -> list[Case]:
    """Each 16th case of a file if it is small, and each 80th, from the first on."""
    sizes = [sum(map(len, case.files.values())) for case in cases]
    steps = [SMALL_STEP if size <= SMALL_BYTES else LARGE_STEP for size in sizes]
    return [case for number, (case, step) in enumerate(zip(cases, steps)) if number % step == 0]


def exact_answers(cases: Iterable[Case], processes: int) -> Iterator[Answer]:
    """What the reference answers to cases, in their order, computed in so many processes."""
    if processes == 1:
        yield from map(exact_answer, cases)
        return
    with ProcessPoolExecutor(processes) as pool:
        # (neighbours are often of one file, which a process reads once)
        yield from pool.map(exact_answer, cases, chunksize=10)


def compare_file(name: str, is_sample: bool, processes: int) -> int:
    """Answers the cases of a file, prints each that differs and how many there were, and returns how many differ."""
    cases = read_cases(name)
    chosen = sample_of(cases) if is_sample else cases
    differing = 0
    for case, found in zip(chosen, exact_answers(chosen, processes)):
        lines = differences(case, found)
        if lines:
            differing += 1
            print(f"{name}: {case.name}: {'; '.join(lines)}")
    print(f"{name}: {len(chosen) - differing} of {len(chosen)} cases are answered as they are stored", flush=True)
    return differing


def arguments(words: Optional[Sequence[str]]) -> argparse.Namespace:
    """The words of the command line."""
    parser = argparse.ArgumentParser(prog="python3 -m tests.reference.stored_cases", description=__doc__)
    parser.formatter_class = argparse.RawDescriptionHelpFormatter
    parser.add_argument("--sample", action="store_true", help="answer one of 16 small cases and one of 80 others")
    parser.add_argument("--processes", type=int, default=len(os.sched_getaffinity(0)), metavar="N")
    parser.add_argument("files", nargs="*", metavar="FILE.cases", help="files of tests/cases; without them all")
    return parser.parse_args(words)


def main(words: Optional[Sequence[str]] = None) -> int:
    """Runs the command."""
    chosen = arguments(words)
    try:
        counts = [compare_file(name, chosen.sample, chosen.processes) for name in chosen.files or listed_counts()]
    except CasesError as error:
        print(f"stored_cases: {error}", file=sys.stderr)
        return 1
    return 1 if any(counts) else 0


if __name__ == "__main__":
    sys.exit(main())

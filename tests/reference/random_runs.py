"""`python3 -m tests.reference.random_runs --seed N --count M [--program PATH]`: program and reference compared.

Makes runs at random: searches over small ephemerides, certificates good and changed, sets, polynomials, generated
texts, files with faults, command lines with faults, and devices that fail. Each is run by the program as it stands, and
a search also by several numbers of workers. What the program returns and writes is compared with the reference. Each
run that differs is printed, and how many there were by command and status.

Run I of a seed is always the same, with the same `--sorts`, and `--first I --count 1` makes it alone.

Status: 0; 1 a run differs; 2 the words.
"""

from __future__ import annotations

import argparse
import os
import shlex
import sys
import tempfile
from collections import Counter
from concurrent.futures import ProcessPoolExecutor
from functools import partial
from pathlib import Path
from random import Random
from typing import Callable, NamedTuple, Optional, Sequence

from tests.support.case_runs import CaseRunner, NoDevices, build_devices
from tests.support.records import TOP, Case
from tests.support.settings import SHIPPED

from . import Outcome, answer
from .blocks import read_ephemeris
from .kinds import KINDS, SHADOWS, WITH_SECOND
from .random_changes import change_certificate, change_files, change_options, change_words, edge_of_header, mixed_blocks
from .random_files import Draft, Files, made_draft
from .random_searches import as_words, scalar_options, search_options, set_options
from .requests import OPTIONS, TWO_REFERENCES

EXAMPLE = TOP / "examples" / "mercury-crossing.asc"
ODD_NAMES = (b"-", b"with blank", b"\xff", "\u00e9".encode(), b"--")


class Run(NamedTuple):
    """A run: its words, the files that are there, and what its devices can do, as in a stored case."""

    words: list[bytes]
    files: Files
    devices: dict[str, str]


def made_files(rng: Random) -> tuple[Draft, Files]:
    """A small ephemeris, and what it was made from."""
    draft = made_draft(rng)
    return draft, draft.files(rng)


def search_run(rng: Random) -> Run:
    """A search for windows."""
    _, files = made_files(rng)
    return Run(as_words("find", search_options(rng, read_ephemeris(files.items())), list(files), rng), files, {})


def set_run(rng: Random) -> Run:
    """A search for sets."""
    _, files = made_files(rng)
    return Run(as_words("set", set_options(rng, read_ephemeris(files.items())), list(files), rng), files, {})


def certificate_run(rng: Random) -> Run:
    """A certificate, or the verification of one that may be changed."""
    _, files = made_files(rng)
    options = search_options(rng, read_ephemeris(files.items()), 200)
    words = as_words("cert", options, list(files))
    outcome = answer(words, files)
    if outcome.status or rng.random() < 0.3:
        return Run(words, files, {})
    text = change_certificate(rng, outcome.output) if rng.random() < 0.7 else outcome.output
    return Run(as_words("verify", {**options, "cert": "c"}, list(files)), {**files, b"c": text}, {})


def scalar_run(rng: Random) -> Run:
    """A search of a polynomial."""
    return Run(as_words("scalar", scalar_options(rng), (), rng), {}, {})


def generate_run(rng: Random) -> Run:
    """A generated text, most often refused, since a search of one takes long."""
    blocks, seeds = [b"0", b"41", b"x", b"", b"001", b"-1"], [b"0", b"7", b"18446744073709551616"]
    words = [b"405", rng.choice(blocks), rng.choice(seeds)]
    if rng.random() < 0.1:
        words = [b"405", b"01", b"%d" % rng.randrange(2**64)]
    if rng.random() < 0.3:
        words.insert(rng.randrange(4), rng.choice([b"--workers=0", b"--workers=x", b"--workers", b"--kind=x", b"406"]))
    return Run([b"gen", *words], {}, {})


def files_run(rng: Random) -> Run:
    """Files with faults, or at the edges of the rules of the format."""
    draft, files = made_files(rng)
    how = rng.randrange(4)
    if how == 0:
        files = edge_of_header(rng, draft, files)
    elif how == 1:
        files = mixed_blocks(rng, draft)
    elif how == 2:
        files = change_files(rng, files)
    names = list(files) + ([b"missing"] if rng.random() < 0.05 else [])
    if rng.random() < 0.3:
        words = "find --kind coord --target mercury --axis x --to 0 --depth 3"
        return Run([*words.encode().split(), *names], files, {})
    return Run([b"check", *names], files, {})


def words_run(rng: Random) -> Run:
    """Command lines with words that are changed, over one file under several names."""
    names = [b"a", rng.choice(ODD_NAMES)]
    files = {name: EXAMPLE.read_bytes() for name in names}
    command = rng.choice([*["find"] * 6, "check", "cert", "verify", "set", "scalar", "Find", ""])
    options = "--kind coord --target mercury --axis x --from 1339000 --to 1339400"
    more = {"verify": " --cert c", "set": f" --relation {rng.choice(['less', 'within', 'x'])}"}
    text = f"{command} {options}{more.get(command, '')}"
    if command == "scalar":
        text = "scalar --quad 1,0,-100 --from=-50 --to 50"
    words = (text if command != "check" else "check").encode().split(b" ") + ([] if command == "scalar" else [b"a"])
    changed = change_words(rng, words)
    return Run([] if rng.random() < 0.02 else changed + ([names[1]] if rng.random() < 0.1 else []), files, {})


def options_run(rng: Random) -> Run:
    """Options that stand once, with values at the edges of their forms."""
    kind, command = rng.choice(KINDS), rng.choice([*["find"] * 5, "cert", "set", "verify"])
    options = {"kind": kind, "target": "mercury", "from": "1339000", "to": "1339400"}
    needed = {"second": "venus"} if kind in WITH_SECOND else {}
    needed.update({"axis": "x"} if kind == "coord" else {})
    needed.update({"ref": "0.5"} if kind in ("radius", "sep") else {})
    needed.update({"radius1": "5", "radius2": "1"} if kind in SHADOWS else {})
    needed.update({"relation": rng.choice(["less", "atleast", "within", "outside"])} if command == "set" else {})
    needed.update({"ref2": "0.75"} if needed.get("relation") in TWO_REFERENCES else {})
    needed.update({"cert": "c"} if command == "verify" else {})
    files = {b"a": EXAMPLE.read_bytes()}
    files.update({b"c": rng.choice([b"CERT 1\n", b"", b"CERT 2\n"])} if command == "verify" else {})
    changed = change_options(rng, {**options, **needed}, OPTIONS[command])
    return Run(as_words(command, changed, [b"a"], rng), files, {})


def failing_run(rng: Random) -> Run:
    """A run of another sort, over devices of which some calls fail or which take little."""
    run = rng.choice([search_run, set_run, certificate_run, scalar_run, words_run])(rng)
    piece, room = rng.choice([7, 100, 1000, 65536]), rng.choice([0, 20, 100, 4096])
    calls = " ".join(str(rng.randrange(1, 12)) for _ in range(rng.randrange(3)))
    devices = {"shelf": f"{piece} {calls}", "out-sink": f"{room} 16 {calls}", "err-sink": f"{room} 8 {calls}"}
    name = rng.choice(list(devices))
    return run._replace(devices={name: devices[name].strip()})


SORTS: dict[str, Callable[[Random], Run]] = {
    "search": search_run,
    "set": set_run,
    "certificate": certificate_run,
    "scalar": scalar_run,
    "generate": generate_run,
    "files": files_run,
    "words": words_run,
    "options": options_run,
    "failing": failing_run,
}
"""By their names the sorts of runs; a run is of each with the same chance, and of a search with four times that."""


def made_run(seed: int, number: int, sorts: Sequence[str]) -> Run:
    """The run of this number."""
    rng = Random(f"{seed} {number}")
    chosen = rng.choice([*sorts, *[sort for sort in sorts if sort == "search"] * 3])
    return SORTS[chosen](rng)


class Result(NamedTuple):
    """A run that was made, how it ended by the reference, and what the program did otherwise, or nothing."""

    number: int
    run: Run
    outcome: Outcome
    differences: list[str]


def compared(number: int, seed: int, sorts: Sequence[str], program: Path, devices: Optional[Path]) -> Result:
    """Makes a run, and compares the program with the reference."""
    run = made_run(seed, number, sorts)
    outcome = answer(run.words, run.files, run.devices)
    case = Case(str(number), run.words, run.files, run.devices, outcome.status, outcome.output, outcome.error)
    with tempfile.TemporaryDirectory(prefix="finder-random-") as place:
        found = list(CaseRunner(program, devices).run(case, Path(place)))
    return Result(number, run, outcome, next(filter(None, found), []))


def keep_run(folder: Path, result: Result) -> None:
    """Writes the files of a run and its words into a folder, so that it can be made again by hand."""
    place = folder / str(result.number)
    place.mkdir(parents=True, exist_ok=True)
    for name, text in result.run.files.items():
        (place / os.fsdecode(name)).write_bytes(text)
    (place / "words.txt").write_text(shlex.join(map(os.fsdecode, result.run.words)) + "\n", errors="surrogateescape")


def table_of(results: Sequence[Result]) -> list[str]:
    """How many runs there were, by command and status."""
    commands = [os.fsdecode(result.run.words[0]) if result.run.words else "" for result in results]
    known = [command if command in OPTIONS else "(no command)" for command in commands]
    counts = Counter(zip(known, (result.outcome.status for result in results)))
    return [f"{command:>12} status {status:>2}: {count}" for (command, status), count in sorted(counts.items())]


def arguments(words: Optional[Sequence[str]]) -> argparse.Namespace:
    """The words of the command line."""
    parser = argparse.ArgumentParser(prog="python3 -m tests.reference.random_runs", description=__doc__)
    parser.formatter_class = argparse.RawDescriptionHelpFormatter
    parser.add_argument("--seed", type=int, required=True, metavar="N")
    parser.add_argument("--count", type=int, required=True, metavar="M")
    parser.add_argument("--first", type=int, default=1, metavar="I", help="the number of the first run")
    parser.add_argument("--sorts", default=",".join(SORTS), help="sorts of runs, joined by commas: %(default)s")
    parser.add_argument("--program", type=Path, default=SHIPPED, metavar="PATH")
    parser.add_argument("--processes", type=int, default=len(os.sched_getaffinity(0)), metavar="N")
    parser.add_argument("--keep", type=Path, metavar="FOLDER", help="where the files of runs that differ are kept")
    chosen = parser.parse_args(words)
    if not set(chosen.sorts.split(",")) <= set(SORTS):
        parser.error(f"the sorts of runs are {', '.join(SORTS)}")
    return chosen


def results_of(chosen: argparse.Namespace) -> list[Result]:
    """Makes the runs that are chosen, without those over devices that fail if no compiler makes these."""
    sorts = chosen.sorts.split(",")
    with tempfile.TemporaryDirectory(prefix="finder-devices-") as place:
        try:
            devices: Optional[Path] = build_devices(Path(place))
        except NoDevices as error:
            print(f"random_runs: devices that fail are skipped, as {error}")
            devices, sorts = None, [sort for sort in sorts if sort != "failing"]
        numbers = range(chosen.first, chosen.first + chosen.count if sorts else chosen.first)
        compare = partial(compared, seed=chosen.seed, sorts=sorts, program=chosen.program, devices=devices)
        with ProcessPoolExecutor(chosen.processes) as pool:
            return list(pool.map(compare, numbers, chunksize=4))


def main(words: Optional[Sequence[str]] = None) -> int:
    """Runs the command."""
    chosen = arguments(words)
    results = results_of(chosen)
    differing = [result for result in results if result.differences]
    for result in differing:
        # Bytes of words that are not UTF-8 are printed by their numbers.
        found = "; ".join(result.differences).encode("utf-8", "backslashreplace").decode()
        print(f"run {result.number} of seed {chosen.seed} differs: {found}")
        if chosen.keep:
            keep_run(chosen.keep, result)
    print("\n".join(table_of(results)))
    print(f"{len(results) - len(differing)} of {len(results)} runs are the reference's")
    return 1 if differing else 0


if __name__ == "__main__":
    sys.exit(main())

#!/usr/bin/env python3
"""A century of DE405 in five files, searched whole and by parts.

    bench/machines.py FILE [PROGRAM]

The blocks of FILE, JPL's text of DE405 with a header and blocks, are repeated with running dates to 32 million bytes,
in a header and five files that share the blocks at their borders as JPL's do. Each search, one of every kind, is made
by one run over all files; by a run for each file, by GNU parallel with 1, 2 and 4 jobs; and, where a Slurm takes jobs,
by an array of them and a job that joins. A joined report has to be that of the one run, byte for byte. It prints how
many were, and the sums over all searches of the seconds that passed and of those of the processor, the least of three
turns (one by Slurm, whose waits are most of its time). PROGRAM is the shipped one where none is named. Run by hand.
"""
import os
import resource
import shutil
import subprocess
import sys
import tempfile
import time
from pathlib import Path

TOP = Path(__file__).resolve().parents[1]
TURNS = 3
FILES = 5
NAMES = [f"ascp{number}.405" for number in range(1, FILES + 1)]
SEARCHES = """\
--kind coord --target mercury --axis x
--kind radius --target moon --observer earth --ref 384400 --width 60
--kind apsis --target moon --observer earth --tick 1000
--kind conj --target moon --second sun --observer earth --frame ecl
--kind oppo --target jupiter --second sun --observer earth --frame ecl
--kind station --target mercury --observer earth --frame ecl --cut third
--kind sep --target venus --second mercury --observer earth --ref 0.998
--kind sepext --target venus --second mercury --observer earth --dir fall
--kind any --target moon --second sun --observer earth --radius1 8115.5 --radius2 695700
--kind full --target sun --second venus --observer earth --radius1 695700 --radius2 6051.8 --depth 6
--kind annular --target mercury --second sun --observer jupiter --radius1 2439.4 --radius2 695700
""".splitlines()

ONE_RUN = '"$FINDER" find $WORDS header.405 ascp[1-5].405 >report'
PARALLEL = """\
parallel --will-cite -k -j "$JOBS" --halt now,fail=1 --colsep ' ' \
    "$FINDER" find $WORDS --from={1} --to={2} header.405 {3} :::: plan | "$SPANS" join plan >report"""
SLURM = 'rm -rf parts && SBATCH_WAIT=1 "$SLURM_SEARCH" plan parts $WORDS header.405 >/dev/null && mv parts/report .'


def ways():
    """The ways of searching by their names: a script, and how many jobs there are at once."""
    made = {"one run": (ONE_RUN, 1)}
    if shutil.which("parallel"):
        made |= {f"GNU parallel, {jobs} at once": (PARALLEL, jobs) for jobs in (1, 2, 4)}
    if shutil.which("sinfo") and subprocess.run(["sinfo"], capture_output=True, check=False).returncode == 0:
        made["Slurm, an array of 5"] = (SLURM, 1)
    return made


def processor():
    """The seconds of the processor of all processes that have ended here."""
    used = resource.getrusage(resource.RUSAGE_CHILDREN)
    return used.ru_utime + used.ru_stime


def timed(script, jobs, words, folder):
    """Runs a script, and returns its report, the seconds that passed and those of the processor."""
    Path(folder, "report").unlink(missing_ok=True)
    began, used = time.monotonic(), processor()
    subprocess.run(["sh", "-c", script], cwd=folder, check=True, env={**os.environ, "WORDS": words, "JOBS": str(jobs)})
    return Path(folder, "report").read_bytes(), time.monotonic() - began, processor() - used


def measure(folder):
    """Makes all searches in all ways, and prints what came of it."""
    whole = {}
    for name, (script, jobs) in ways().items():
        sums = []
        same = 0
        turns = 1 if script == SLURM else TURNS
        for _ in range(turns):
            found = {words: timed(script, jobs, words, folder) for words in SEARCHES}
            whole = whole or {words: row[0] for words, row in found.items()}
            same += sum(row[0] == whole[words] for words, row in found.items())
            sums.append([sum(row[place] for row in found.values()) for place in (1, 2)])
        passed, used = (min(column) for column in zip(*sums))
        said = f"{same} of {turns * len(SEARCHES)} reports the same, {passed:.2f} s passed"
        print(f"{name}: {said}" + ("" if script == SLURM else f", {used:.2f} s of the processor"), flush=True)
    for words, report in whole.items():
        print(f"  {words}: {report.splitlines()[-1].decode()}")


def main(words):
    if not 1 <= len(words) <= 2:
        sys.exit(__doc__)
    program = words[1] if len(words) == 2 else TOP / "release" / "finder-x86_64-linux"
    os.environ.update(
        FINDER=os.path.realpath(program), SPANS=str(TOP / "tools" / "spans"), SLURM_SEARCH=str(TOP / "tools" / "slurm")
    )
    # (a folder that the jobs of Slurm see too)
    with tempfile.TemporaryDirectory(dir=os.environ.get("TMPDIR", "/tmp")) as folder:
        texts = [sys.executable, TOP / "bench" / "texts.py", "files", str(FILES), folder, words[0]]
        subprocess.run(texts, check=True)
        with open(Path(folder, "plan"), "wb") as plan:
            subprocess.run(
                [os.environ["SPANS"], "files", "--header", "header.405", *NAMES], cwd=folder, stdout=plan, check=True
            )
        measure(folder)


if __name__ == "__main__":
    main(sys.argv[1:])

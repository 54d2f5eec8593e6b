"""What longer spans cost where the positions of bodies almost cancel.

    cancel.py FINDER TEXT CATALOGUE TURNS [LIMIT]

FINDER is the program, TEXT has ten years of an ephemeris at least, and CATALOGUE has a line for each search: its name and
its options. Each search is made over the first 1, 3, 5 and 10 years of TEXT as a whole, and in parts of a year. Times are
those of the processor by one worker, user and system together, of whole runs with their reading: of one part the least of
so many turns, and of more that of one run if it takes longer than a second. A run that takes more than LIMIT seconds, 60 if
they are left out, is stopped and not done. It prints a table in Markdown.
"""

import os
import re
import subprocess
import sys
import tempfile
import time

from century import YEAR, second
from rows import show, stamp

YEARS = (1, 3, 5, 10)
LIMIT = 60
LONG = 1
TOO_MANY = 9
PAUSE = 0.02


class Outcome:
    """The time of a run in seconds, and why it found nothing, or an empty text."""

    def __init__(self, taken, fault=""):
        self.taken = taken
        self.fault = fault

    def __str__(self):
        return f"{self.fault} {self.taken:.0f} s" if self.fault else f"{self.taken:.2f} s"


def processor_time(child):
    """The seconds of the processor that a child has taken so far, by its clock (clock_getcpuclockid of the C library)."""
    return time.clock_gettime((~child.pid << 3) | 2)


def run_once(limit, words):
    """The outcome of a run that may take so many seconds."""
    with tempfile.TemporaryFile() as err:
        child = subprocess.Popen(words, stdout=subprocess.DEVNULL, stderr=err)
        is_late = False
        while not os.waitid(os.P_PID, child.pid, os.WEXITED | os.WNOHANG | os.WNOWAIT) and not is_late:
            time.sleep(PAUSE)
            is_late = processor_time(child) > limit
        if is_late:
            child.kill()
        _, status, used = os.wait4(child.pid, 0)
        child.returncode = code = os.waitstatus_to_exitcode(status)
        err.seek(0)
        said = err.read().decode("utf-8").strip()
    taken = used.ru_utime + used.ru_stime
    if code == TOO_MANY:
        return Outcome(taken, f"{said.removeprefix('finder: ')} after")
    if is_late and code:
        return Outcome(taken, "not done in")
    if code:
        sys.exit(f"cancel.py: status {code} of {' '.join(words)}: {said}")
    return Outcome(taken)


def least(turns, limit, words):
    """The least outcome of so many runs, or the first if it is long."""
    best = run_once(limit, words)
    for _ in range(turns - 1):
        if best.fault or best.taken > LONG:
            break
        best = min(best, run_once(limit, words), key=lambda outcome: outcome.taken)
    return best


def start_of(finder, text):
    """The first second of a text. It has the years that are searched."""
    said = subprocess.run([finder, "check", text], capture_output=True, text=True, check=True).stdout
    start, end = map(second, re.match(r"CHECK start (\S+) end (\S+)", said).groups())
    if end - start < YEARS[-1] * YEAR:
        sys.exit(f"cancel.py: {text} has fewer than {YEARS[-1]} years")
    return start


def together(parts):
    """The outcome of parts: their sum, or the first that found nothing."""
    return next((part for part in parts if part.fault), Outcome(sum(part.taken for part in parts)))


def main(finder, text, catalogue, turns, limit=LIMIT):
    start, stamped = start_of(finder, text), stamp(finder)
    heads = [f"{count} year{'s' * (count > 1)}" for count in YEARS]
    parts_heads = [f"{count} in parts of 1" for count in YEARS[1:]]
    table = []
    with open(catalogue, encoding="ascii") as file:
        searches = [line.split("|") for line in file if line.strip() and not line.startswith("#")]
    for name, options in searches:

        def outcome(first, last):
            span = [f"--from={start + first * YEAR}", f"--to={start + last * YEAR}"]
            return least(int(turns), int(limit), [finder, "find", *options.split(), *span, text])

        parts = [outcome(year, year + 1) for year in range(YEARS[-1])]
        wholes = [parts[0], *(outcome(0, count) for count in YEARS[1:])]
        sums = [together(parts[:count]) for count in YEARS[1:]]
        table.append([name.strip(), *wholes, *sums, stamped[0], stamped[1]])
        print(name.strip(), *wholes, *sums, file=sys.stderr)
    show(["Search", *heads, *parts_heads, "Date", "Program"], table)


if __name__ == "__main__":
    if len(sys.argv) not in (5, 6):
        sys.exit(__doc__)
    main(*sys.argv[1:])

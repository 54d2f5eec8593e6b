"""Certificates of searches of a century: what writing and checking one takes, beside the search.

    checking.py PROGRAM FILE

FILE is a century of DE405 (`texts.py large`). Of each search a line: leaves and bytes of the certificate; seconds of the
processor, the least of two runs, of `find` by one worker and by four, of `cert` and of `verify`; and what `verify` takes
beside `find` by one worker, the reading of FILE left out of both. `verify` has to print the report of `find`, and after it the
number of leaves.
"""
import os
import resource
import subprocess
import sys
import tempfile

EARTH = "--observer earth"
SEARCHES = {
    "coord": "--target mercury --axis x",
    "apsis": f"--target moon {EARTH}",
    "conj": f"--target moon --second sun {EARTH} --frame ecl",
    "station": f"--target mercury {EARTH} --frame ecl",
    "sep": f"--target mercury --second venus {EARTH} --ref 0.998",
    "sepext": f"--target mercury --second venus {EARTH}",
    "any": f"--target moon --second sun {EARTH} --radius1 8115.5 --radius2 696000",
}


def timed(program, words):
    """The least time of the processor of two runs, and what the program printed."""
    times = []
    for _ in range(2):
        before = resource.getrusage(resource.RUSAGE_CHILDREN)
        printed = subprocess.run([program] + words, stdout=subprocess.PIPE, check=True).stdout
        after = resource.getrusage(resource.RUSAGE_CHILDREN)
        times.append(after.ru_utime + after.ru_stime - before.ru_utime - before.ru_stime)
    return min(times), printed


def main():
    """The command."""
    program, file = os.path.realpath(sys.argv[1]), os.path.realpath(sys.argv[2])
    reading, _ = timed(program, ["check", file])
    print("reading %.2f" % reading)
    bad = 0
    with tempfile.TemporaryDirectory() as work:
        cert = os.path.join(work, "certificate")
        for kind, options in SEARCHES.items():
            words = ["--kind", kind] + options.split()
            one, report = timed(program, ["find"] + words + ["--workers", "1", file])
            four, _ = timed(program, ["find"] + words + ["--workers", "4", file])
            written, text = timed(program, ["cert"] + words + ["--workers", "1", file])
            with open(cert, "wb") as f:
                f.write(text)
            checked, printed = timed(program, ["verify"] + words + ["--cert", cert, file])
            leaves = text.count(b"\nL ")
            bad += printed != report + b"VERIFIED leaves %d\n" % leaves
            print("%-8s leaves %6d bytes %8d find %.2f by four %.2f cert %.2f verify %.2f, without reading %.2f of find" % (
                kind, leaves, len(text), one, four, written, checked, (checked - reading) / (one - reading)))
    return 1 if bad else 0


if __name__ == "__main__":
    sys.exit(main())

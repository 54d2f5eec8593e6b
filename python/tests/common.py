"""What the tests share: the command, JPL's year, files as JPL cuts its own, and what a sample of them leaves out."""

import contextlib
import importlib.machinery
import os
import subprocess
import sys
import tempfile
import time
import types
import unittest
from pathlib import Path

TOP = Path(__file__).resolve().parents[2]
PROGRAM = TOP / "release" / "finder-x86_64-linux"
YEAR = TOP / "examples" / "de405-2000.asc"
TOOL = TOP / "tools" / "spans"
# The great conjunction, as README.md has it.
REPORT = """\
FIND conj target jupiter second saturn observer earth frame ecl axis - values - dir any width 1 depth 40 cut half \
span 1999-12-24T00:00:00 2001-01-11T00:00:00
C 2000-05-28T15:55:49 2000-05-28T15:55:49 fall
END certain 1 undecided 0
"""
SECOND = 12_801_349
# How many blocks each of three files has before the next one begins.
FILES = ((0, 5), (4, 9), (8, 12))


# Whether all is run, as the gate does by FINDER_TESTS=whole, or a sample.
IS_WHOLE = os.environ.get("FINDER_TESTS") == "whole"
# A test of which a sample has nothing.
of_the_whole = unittest.skipUnless(IS_WHOLE, "this is a sample")


def sample(items, every):
    """All items where the whole is run, else the first of each so many."""
    every_item = list(items)
    return every_item if IS_WHOLE else every_item[::every]


def command(*words):
    """What the command prints for these words."""
    done = subprocess.run([PROGRAM, *words], capture_output=True, check=True, text=True)
    return done.stdout


def cases(name):
    """The stored cases of a file, with their exact answers by a reference that is not this program, as texts. The module that
    reads them is loaded by its path, as the folder above it has the name of this one."""
    loader = importlib.machinery.SourceFileLoader("stored_cases", str(TOP / "tests" / "support" / "records.py"))
    records = sys.modules.setdefault(loader.name, types.ModuleType(loader.name))
    records.__file__ = loader.path
    loader.exec_module(records)
    for case in records.read_cases(name):
        case.words = [word.decode() for word in case.words]
        case.files = {name.decode(): text.decode() for name, text in case.files.items()}
        case.out, case.err = case.out.decode(), case.err.decode()
        yield case


def split_year(folder, rows=FILES):
    """Writes the header and files of the year's blocks, each of which begins with the last block of the one before."""
    lines = YEAR.read_text("ascii").splitlines(keepends=True)
    places = [at for at, line in enumerate(lines) if len(line.split()) == 2 and line.split()[1] == "1018"]
    places.append(len(lines))
    header = Path(folder, "header.405")
    header.write_text("".join(lines[: places[0]]), "ascii")
    files = [Path(folder, f"ascp{number}.405") for number in range(len(rows))]
    for file, (begin, end) in zip(files, rows):
        file.write_text("".join(lines[places[begin] : places[end]]), "ascii")
    return header, files


def stand_in(folder, text):
    """A program in place of the command."""
    program = Path(folder, "finder")
    program.write_text(f"#!/bin/sh\n{text}\n")
    program.chmod(0o755)
    return program


def is_running(process_id):
    """Whether a process runs still."""
    try:
        state = Path(f"/proc/{process_id}/stat").read_text().rpartition(")")[2].split()[0]
    except OSError:
        return False
    return state != "Z"


def wait_for(condition, seconds=120):
    """Waits until a condition holds, or the time is over; whether it does."""
    end = time.monotonic() + seconds
    while not condition() and time.monotonic() < end:
        time.sleep(0.01)
    return condition()


class InFolder(unittest.TestCase):
    """Tests in a folder of their own, with $FINDER as the shipped program."""

    def setUp(self):
        stack = contextlib.ExitStack()
        self.addCleanup(stack.close)
        self.folder = Path(stack.enter_context(tempfile.TemporaryDirectory()))
        before = os.environ.get("FINDER")
        os.environ["FINDER"] = str(PROGRAM)
        stack.callback(lambda: os.environ.pop("FINDER") if before is None else os.environ.update(FINDER=before))

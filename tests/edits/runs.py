"""Planted bugs that no contract refuses: a test, or a program over its tables, has to fail with each.

An edit with a line `run:` is made in a copy of the crates, and what it names is run there, unproved. It is refused
where that runs and fails: a crate that cannot be built counts for nothing, and neither does a run past the limit."""

import os
import re
import shutil
import subprocess
import tempfile
from typing import List

from dev.sources import planting
from dev.sources.planting import Edit

LIMIT = 1800  # seconds of the clock for one run, with the build before it
SECONDS = 120  # and for each test of it


def commands(edit: Edit) -> List[str]:
    """The words of the run: the tests of a library, or a program over tables among its data."""
    folder = f"crates/{edit.run[0]}"
    words = ["rt", "try", "--seconds", str(SECONDS)]
    if not os.path.isfile(f"{folder}/src/main.rt"):
        return [*words, "--test"]
    data = [it for name in sorted(os.listdir(f"{folder}/data")) for it in ("--data", f"{name}=data/{name}")]
    return [*words, *data, "--", *edit.run[1:]]


def ran(edit: Edit) -> str:
    """Runs what an edit names, over a copy of the crates in which it is made, and returns all that was written."""
    with tempfile.TemporaryDirectory(prefix="planted-") as room:
        shutil.copytree("crates", f"{room}/crates", ignore=shutil.ignore_patterns("out"))
        for name in ("crates.txt", "HANDLES"):
            shutil.copy(name, room)
        folder = f"{room}/crates/{edit.crate}"
        for path, text in planting.planted(edit, folder, {}).items():
            with open(f"{folder}/{path}", "w", encoding="utf-8") as it:
                it.write(text)
        try:
            done = subprocess.run(
                commands(edit),
                cwd=f"{room}/crates/{edit.run[0]}",
                stdin=subprocess.DEVNULL,
                stdout=subprocess.PIPE,
                stderr=subprocess.STDOUT,
                timeout=LIMIT,
                check=False,
            )
        except subprocess.TimeoutExpired as late:
            return (late.stdout or b"").decode(errors="replace")
        return done.stdout.decode(errors="replace")


def why_not_failed(edit: Edit, text: str) -> str:
    """Why a run does not refuse the edit, or nothing where it does."""
    if os.path.isfile(f"crates/{edit.run[0]}/src/main.rt"):
        ended = re.search(r"^run=ended status=(\d+)", text, re.M)
        if not ended:
            return f"the program does not run: {text.strip()[-200:]}"
        return "" if ended[1] != "0" else "the program ends with status 0"
    found = re.search(rf"^test {re.escape(edit.run[1])} \.\.\. (\w+)((?:\n {{4}}.*)*)", text, re.M)
    if not found:
        return f"the test does not run: {text.strip()[-200:]}"
    if found[1] != "FAILED":
        return f"the test ends with {found[1]}"
    return "it did not end in time" if re.search("^ *checked: no-answer", found[2], re.M) else ""

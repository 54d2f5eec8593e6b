"""A repository of one crate, with the launcher and the shipped program as that of its sources: a start takes a tenth of the
time that one of the whole repository takes."""

from __future__ import annotations

import shutil
import subprocess
from pathlib import Path

TOP = Path(__file__).resolve().parents[2]
EXAMPLE = "examples/mercury-crossing.asc"
DESCRIBE = '. release/common && describe "release/$program" "$(sources)" kit >"release/$text"'


def make_small_repository(folder: Path) -> None:
    """Makes it in a folder that is not there yet."""
    source = folder / "crates" / "finder_main" / "src"
    source.mkdir(parents=True)
    (source / "main.rt").write_text("fn main() {}\n")
    (folder / "crates.txt").write_text("finder_main:\n")
    (folder / "examples").mkdir()
    (folder / "release").mkdir()
    for name in ("finder", "VERSION", EXAMPLE, "release/common", "release/finder-x86_64-linux"):
        shutil.copy(TOP / name, folder / name)
    subprocess.run(["sh", "-ec", DESCRIBE], cwd=folder, check=True)

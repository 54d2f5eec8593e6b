"""The version of the package, which is that of the repository."""

from __future__ import annotations

from pathlib import Path

HERE = Path(__file__).resolve().parent


def read_version() -> str:
    """The version, by the file `VERSION` beside this one, or at the top of the clone in which the package lies."""
    for folder in (HERE, HERE.parents[1]):
        if (folder / "VERSION").is_file():
            return (folder / "VERSION").read_text(encoding="ascii").strip()
    raise ImportError(f"{HERE} has no file VERSION, and is in no clone of the repository")

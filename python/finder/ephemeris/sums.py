"""SHA-256 sums of files, and those of large files as they were summed before."""

from __future__ import annotations

import contextlib
import hashlib
import json
import os
import re
import time
from collections.abc import Iterable
from pathlib import Path
from typing import Any

from ..process.whole_files import write_whole

A_READ = 1 << 20
# Files of fewer bytes are summed each time: that takes less than a tenth of a second.
LARGE = 16_000_000
# A file that changed so many seconds ago or less may change again within the same tick of its time.
FRESH = 2.0
SUMS = "sums"


def sha256_of(names: Iterable[str]) -> str:
    """The SHA-256 of the bytes of files, one after the other."""
    made = hashlib.sha256()
    for name in names:
        with open(name, "rb") as file:
            for piece in iter(lambda: file.read(A_READ), b""):
                made.update(piece)
    return made.hexdigest()


def sha256_of_source(name: str, data: Any, home: Path) -> str:
    """The SHA-256 of the bytes of a file. That of a large one is kept in a folder, for as long as its name, its inode,
    its length and the times of its last changes are the same, as git does."""
    if len(data) < LARGE:
        return hashlib.sha256(data).hexdigest()
    status = os.stat(name)
    facts = [
        os.path.abspath(name),
        status.st_dev,
        status.st_ino,
        status.st_size,
        status.st_mtime_ns,
        status.st_ctime_ns,
    ]
    known = home / SUMS / hashlib.sha256(json.dumps(facts).encode()).hexdigest()
    with contextlib.suppress(OSError, UnicodeDecodeError):
        found = known.read_text("ascii")
        if re.fullmatch("[0-9a-f]{64}", found):
            return found
    made = hashlib.sha256(data).hexdigest()
    if time.time() - max(status.st_mtime, status.st_ctime) > FRESH:
        # (where it cannot be kept it is summed again)
        with contextlib.suppress(OSError):
            known.parent.mkdir(parents=True, exist_ok=True)
            write_whole(known, made.encode("ascii"))
    return made

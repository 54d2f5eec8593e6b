"""`python3 -m tests.reference WORDS..` answers a command line over real files, as `finder WORDS..` does."""

from __future__ import annotations

import os
import sys

from .command import run
from .devices import FileShelf, StreamSink


def main() -> int:
    """Runs the words of this process."""
    words = [os.fsencode(word) for word in sys.argv[1:]]
    return run(words, FileShelf(), StreamSink(1), StreamSink(2))


if __name__ == "__main__":
    sys.exit(main())

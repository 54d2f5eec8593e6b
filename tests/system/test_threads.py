"""How many threads a search starts.

No contract says that work is shared, so this counts. A search of so many workers walks its tree in a thread for each but
one, the program's own. `find`, `set`, `cert` and `gen` seek still spans before that, in a share of the times for each
worker; so they start as many threads once more, unless the words ask for what has no still spans, as cuts by thirds."""

from __future__ import annotations

import os
import subprocess
import tempfile
import unittest
from pathlib import Path

from tests.support.case_runs import NoDevices, build_library
from tests.support.settings import PROGRAM, TOP

SOURCE = TOP / "tests" / "support" / "threads.c"
YEAR = str(TOP / "examples" / "de405-2000.asc")
COORDINATE = "--kind coord --target mercury --axis x"
# Words of a search, and how often it starts a thread for each of its workers but one.
SEARCHES = (
    (f"find {COORDINATE} {YEAR}", 2),
    (f"find --kind conj --target mercury --second venus --observer earth {YEAR}", 2),
    (f"find --kind station --target mercury --observer earth {YEAR}", 2),
    (f"set {COORDINATE} --relation less {YEAR}", 2),
    (f"find {COORDINATE} --cut third {YEAR}", 1),
    (f"cert {COORDINATE} {YEAR}", 2),
    ("scalar --quad 1,0,-100 --from=-5000000 --to 5000000", 1),
    ("gen 405 8 7", 2),
)
WORKERS = (1, 2, 4, 7)


class Threads(unittest.TestCase):
    """Runs of the program with a library that counts the threads that it starts."""

    def setUp(self) -> None:
        place = tempfile.TemporaryDirectory()
        self.addCleanup(place.cleanup)
        self.folder = Path(place.name)
        try:
            self.library = build_library(SOURCE, self.folder / "threads.so")
        except NoDevices as why:
            self.skipTest(str(why))

    def threads_of(self, words: list[str]) -> int:
        """Runs the program, and returns how many threads it started."""
        counted = self.folder / "threads"
        counted.write_bytes(b"")
        variables = {**os.environ, "LD_PRELOAD": str(self.library), "FINDER_THREADS": str(counted)}
        subprocess.run([PROGRAM, *words], env=variables, stdout=subprocess.DEVNULL, timeout=120, check=True)
        return counted.stat().st_size

    def test_each_search_starts_the_threads_that_its_workers_are_for(self) -> None:
        for words, times in SEARCHES:
            for workers in WORKERS:
                with self.subTest(words=words, workers=workers):
                    started = self.threads_of([*words.split(), f"--workers={workers}"])
                    self.assertEqual(started, times * (workers - 1))


if __name__ == "__main__":
    unittest.main()

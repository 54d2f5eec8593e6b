"""What a process needs for itself below the folder of temporary files does not outlive it."""

import os
import signal
import subprocess
import sys
import unittest
from pathlib import Path

from tests.common import TOP, InFolder

# A text that is not kept, which is made again for each that asks.
TEXT = """\
import os, signal, sys, threading, time
from pathlib import Path
from finder.ephemeris import cache
made = cache.kept("00", lambda: cache.Made([b"text"], {"name": "text"}), use=False)
print(made.files[0], flush=True)
"""
KILLED = TEXT + "os.kill(os.getpid(), signal.SIGKILL)"
WAITS = TEXT + "sys.stdin.read()"
DROPPED = TEXT + "del made\nprint(sum(1 for path in Path(os.environ['TMPDIR']).rglob('*') if path.is_file()))"
FORKED = TEXT + """\
if os.fork() == 0:
    del made
    again = cache.kept("00", lambda: cache.Made([b"text"], {"name": "text"}), use=False)
    sys.exit(0 if Path(again.files[0]).exists() else 1)
print(os.waitstatus_to_exitcode(os.wait()[1]), Path(made.files[0]).read_text())
"""


class Scratch(InFolder):
    def setUp(self):
        super().setUp()
        self.environment = {**os.environ, "PYTHONPATH": str(TOP / "python"), "TMPDIR": str(self.folder)}

    def begin(self, text):
        """Starts Python with a text, and waits until its file is there."""
        words = [sys.executable, "-B", "-c", text]
        process = subprocess.Popen(words, stdin=subprocess.PIPE, stdout=subprocess.PIPE, text=True, env=self.environment)
        self.addCleanup(process.communicate)
        return process, Path(process.stdout.readline().rstrip("\n"))

    def end(self, process, status=0):
        """Waits for its end; what else it said."""
        said, _ = process.communicate()
        self.assertEqual(process.returncode, status)
        return said

    def files(self):
        """The files that are there."""
        return {path for path in self.folder.rglob("*") if path.is_file()}

    def test_what_a_killed_process_left_is_removed_by_the_next(self):
        killed, left = self.begin(KILLED)
        self.end(killed, -signal.SIGKILL)
        self.assertIn(left, self.files())
        waiting, kept = self.begin(WAITS)
        self.assertNotIn(left, self.files())
        other, own = self.begin(WAITS)
        self.assertTrue({kept, own} <= self.files())
        self.end(other)
        self.assertIn(kept, self.files())
        self.end(waiting)
        self.assertEqual(list(self.folder.iterdir()), [])

    def test_what_is_not_ours_stays(self):
        for name in ("finder-texts-a", "other"):
            (self.folder / name).mkdir()
        (self.folder / "finder-texts-link").symlink_to("other")
        (self.folder / "other" / "file").write_text("")
        process, _ = self.begin(TEXT)
        self.end(process)
        self.assertEqual({path.name for path in self.folder.iterdir()}, {"finder-texts-link", "other"})
        self.assertTrue((self.folder / "other" / "file").exists())

    def test_a_text_that_is_dropped(self):
        process, _ = self.begin(DROPPED)
        self.assertEqual(self.end(process), "0\n")
        self.assertEqual(list(self.folder.iterdir()), [])

    def test_a_process_that_is_forked(self):
        process, _ = self.begin(FORKED)
        self.assertEqual(self.end(process), "0 text\n")
        self.assertEqual(list(self.folder.iterdir()), [])


if __name__ == "__main__":
    unittest.main()

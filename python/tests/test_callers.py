"""No search goes on once the process that asked for it has ended, however it ended."""

import os
import signal
import subprocess
import sys
import unittest
from pathlib import Path

from tests.common import TOP, YEAR, InFolder, is_running, of_the_whole, stand_in, wait_for

# A search as a stand-in: it writes the numbers of its own process and of one that it started, as the launcher starts
# a proof, and goes on.
ENDLESS = "/bin/sleep 600 &\necho $$ $! >>processes\nwait"
# The most seconds for which an end is waited for: a machine may be busy.
LIMIT = 120
ONE = "import finder; finder.check({year!r}, program={program!r})"
PARTS = "import finder; finder.over_files(finder.apsides, [{year!r}] * 2, 'earth', observer='sun', program={program!r})"
POOL = """
import multiprocessing, sys
from concurrent.futures import ProcessPoolExecutor
import finder
if __name__ == "__main__":
    with ProcessPoolExecutor(2, mp_context=multiprocessing.get_context({method!r})) as pool:
        for _ in range(2):
            pool.submit(finder.check, {year!r}, program={program!r})
"""
IGNORED = """
import signal
signal.signal(signal.SIGCHLD, signal.SIG_IGN)
import finder
print(finder.check({year!r}).blocks)
try:
    finder.check("/none")
except finder.ReadFailed as error:
    print(error.line)
try:
    finder.check({year!r}, program={program!r})
except finder.Interrupted as error:
    print(error.status)
"""
THREAD = """
import os, threading, time, finder
threading.Thread(target=finder.check, args=({year!r},), kwargs={{"program": {program!r}}}, daemon=True).start()
while {goes_on} or not (os.path.exists("processes") and os.path.getsize("processes")):
    time.sleep(0.01)
"""
FORKED = """
import os, time, finder
from multiprocessing import get_context
if __name__ == "__main__":
    forked = get_context("fork").Process(target=time.sleep, args=(300,), daemon=False)
    try:
        finder.check({year!r}, program="false")
    except finder.FinderError:
        pass
    forked.start()
    with open("forked", "w") as file:
        file.write(str(forked.pid))
    finder.check({year!r}, program={program!r})
"""


def with_default_signals():
    """Takes the signals that end a process as they are by default: under `nohup` SIGHUP would be ignored."""
    for number in (signal.SIGTERM, signal.SIGHUP):
        signal.signal(number, signal.SIG_DFL)


class Callers(InFolder):
    def begin(self, text, count=2, path=None, **words):
        """Starts Python with a text that searches, and waits until the searches and what they started run."""
        program = str(stand_in(self.folder, ENDLESS))
        (self.folder / "caller.py").write_text(text.format(year=str(YEAR), program=program, **words))
        environment = {**os.environ, "PYTHONPATH": str(TOP / "python")}
        caller = subprocess.Popen(
            [sys.executable, "caller.py"],
            cwd=self.folder,
            env=environment if path is None else {**environment, "PATH": path},
            stderr=subprocess.DEVNULL,
            preexec_fn=with_default_signals,
        )
        self.addCleanup(self.end_all, caller)
        self.assertTrue(wait_for(lambda: len(self.processes()) >= count))
        return caller

    def end_all(self, caller):
        """Ends what a test has left."""
        caller.kill()
        caller.wait()
        for process in filter(is_running, self.processes()):
            os.kill(int(process), signal.SIGKILL)

    def processes(self):
        """The processes of the searches that have begun."""
        try:
            return (self.folder / "processes").read_text().split()
        except FileNotFoundError:
            return []

    def assert_none_left(self):
        self.assertTrue(wait_for(lambda: not any(map(is_running, self.processes()))), self.processes())

    def end(self, text, number, **how):
        """Ends Python by this signal, and sees to it that no process is left."""
        caller = self.begin(text, **how)
        self.assertTrue(all(map(is_running, self.processes())))
        caller.send_signal(number)
        self.assertEqual(caller.wait(LIMIT), -number)
        self.assert_none_left()

    @of_the_whole
    def test_sigterm(self):
        self.end(ONE, signal.SIGTERM)

    @of_the_whole
    def test_sighup(self):
        self.end(ONE, signal.SIGHUP)

    def test_sigkill(self):
        self.end(ONE, signal.SIGKILL)

    @of_the_whole
    def test_a_search_of_a_thread(self):
        self.end(THREAD, signal.SIGKILL, goes_on=True)

    def test_searches_in_parts(self):
        self.end(PARTS, signal.SIGKILL)

    @of_the_whole
    def test_an_empty_path(self):
        for text, number in ((ONE, signal.SIGTERM), (ONE, signal.SIGHUP), (ONE, signal.SIGKILL), (PARTS, signal.SIGKILL)):
            with self.subTest(text=text, number=number):
                self.end(text, number, path="")
                (self.folder / "processes").unlink()
        self.end(THREAD, signal.SIGKILL, path="", goes_on=True)

    @of_the_whole
    def test_workers_of_a_pool_whose_parent_is_gone(self):
        for method in ("fork", "spawn", "forkserver"):
            with self.subTest(method):
                self.end(POOL, signal.SIGKILL, count=4, method=method)
                self.assertTrue(wait_for(lambda: not self.workers()), self.workers())
                (self.folder / "processes").unlink()

    def workers(self):
        """The processes of Python that work in the folder, as workers of a pool."""
        found = []
        for process in Path("/proc").glob("[0-9]*"):
            try:
                if os.readlink(process / "cwd") == str(self.folder) and b"python" in (process / "cmdline").read_bytes():
                    found.append(process.name)
            except OSError:
                pass
        return list(filter(is_running, found))

    @of_the_whole
    def test_ended_children_that_are_ignored(self):
        killed = stand_in(self.folder, "kill -KILL $$")
        text = IGNORED.format(year=str(YEAR), program=str(killed))
        environment = {**os.environ, "PYTHONPATH": str(TOP / "python")}
        done = subprocess.run([sys.executable, "-c", text], capture_output=True, text=True, check=False, env=environment)
        self.assertEqual(done.stdout, f"12\nfinder: read fault /none\n{-signal.SIGKILL}\n", done.stderr)

    @of_the_whole
    def test_a_thread_that_is_left(self):
        self.assertEqual(self.begin(THREAD, goes_on=False).wait(LIMIT), 0)
        self.assert_none_left()

    def test_a_process_that_was_forked_lives_on(self):
        self.end(FORKED, signal.SIGKILL)
        forked = int((self.folder / "forked").read_text())
        self.addCleanup(os.kill, forked, signal.SIGKILL)
        self.assertTrue(is_running(forked))


if __name__ == "__main__":
    unittest.main()

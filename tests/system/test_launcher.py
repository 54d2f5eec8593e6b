"""The launcher where what surrounds it is damaged: a half-written file, a pipe in the place of a file, closed streams, and
an end while it builds. Each is tried in a repository of one crate, with a command `rt` that proves nothing."""

from __future__ import annotations

import os
import shutil
import signal
import subprocess
import tempfile
import unittest
from pathlib import Path

from tests.support.launcher_repository import EXAMPLE, TOP, make_small_repository
from tests.support.tool_runs import folder_of, is_running, wait_until

SECONDS = 120
# Puts a folder in the place of /dev/null, in a name space of mounts.
NO_NULL = "mount -t tmpfs none /dev && mkdir /dev/null"
# A stand-in of the toolchain: it writes its process and that of what it started, and goes on.
ENDLESS = """\
#!/bin/sh
[ "$1" != version ] || exec echo kit
sleep 600 &
echo "$$ $!" >>"$RT_PROCESSES"
trap 'kill "$!"' TERM
wait
"""


class Launcher(unittest.TestCase):
    """A launcher in a copy of the repository."""

    copy: Path

    @classmethod
    def setUpClass(cls) -> None:
        cls.copy = folder_of(cls) / "copy"
        make_small_repository(cls.copy)
        cls.wanted = cls.start(cls).stdout

    def setUp(self) -> None:
        shutil.rmtree(self.copy / "finder.build", ignore_errors=True)
        self.addCleanup(shutil.copy, TOP / "finder", self.copy / "finder")

    def start(self, **how: object) -> "subprocess.CompletedProcess[bytes]":
        """Starts it for the summary of a file."""
        words = ["./finder", "check", EXAMPLE]
        return subprocess.run(words, cwd=self.copy, capture_output=True, timeout=SECONDS, check=False, **how)

    def assert_runs(self, done: "subprocess.CompletedProcess[bytes]") -> None:
        """The program was run, and printed what it does."""
        self.assertEqual((done.returncode, done.stdout), (0, self.wanted), done.stderr)

    def test_a_file_that_is_cut_off_does_nothing(self) -> None:
        whole = (TOP / "finder").read_bytes()
        start = len(b"#!/bin/sh\n{ ")
        for length in [*range(start, len(whole) - 20, 97), *range(len(whole) - 20, len(whole) - 1)]:
            (self.copy / "finder").write_bytes(whole[:length])
            with self.subTest(length=length):
                done = self.start()
                self.assertNotEqual(done.returncode, 0)
                self.assertEqual(done.stdout, b"")
                self.assertFalse((self.copy / "finder.build").exists())

    def test_a_pipe_in_the_place_of_a_file_that_is_kept(self) -> None:
        for name in ("stamp", "names"):
            with self.subTest(name):
                self.assert_runs(self.start())
                (self.copy / "finder.build" / name).unlink()
                os.mkfifo(self.copy / "finder.build" / name)
                self.assert_runs(self.start())
                self.assertTrue((self.copy / "finder.build" / name).is_file())

    def test_closed_streams(self) -> None:
        for streams in ("2>&-", "<&-", "<&- 2>&-"):
            for when in ("first", "later"):
                with self.subTest(streams, when=when):
                    words = ["sh", "-c", f"exec ./finder check {EXAMPLE} {streams}"]
                    done = subprocess.run(words, cwd=self.copy, capture_output=True, timeout=SECONDS, check=False)
                    self.assert_runs(done)
            shutil.rmtree(self.copy / "finder.build")

    def test_a_closed_output_is_the_program_s_to_refuse(self) -> None:
        for when in ("first", "later"):
            with self.subTest(when):
                words = ["sh", "-c", f"exec ./finder check {EXAMPLE} >&-"]
                done = subprocess.run(words, cwd=self.copy, stderr=subprocess.PIPE, timeout=SECONDS, check=False)
                self.assertEqual((done.returncode, done.stderr), (5, b"finder: write fault\n"))

    def test_a_null_device_that_cannot_be_opened_is_named(self) -> None:
        apart = ["unshare", "-m" if os.geteuid() == 0 else "-rm", "sh", "-c"]
        how = {"cwd": self.copy, "capture_output": True, "timeout": SECONDS, "check": False}
        if shutil.which("unshare") is None or subprocess.run([*apart, NO_NULL], **how).returncode:
            self.skipTest("this system has no mounts for this user")
        for streams, said in (("", b"finder: /dev/null cannot be opened for writing\n"), ("2>&-", b"")):
            with self.subTest(streams):
                done = subprocess.run([*apart, f"{NO_NULL} && exec ./finder check {EXAMPLE} {streams}"], **how)
                self.assertEqual((done.returncode, done.stdout, done.stderr), (70, b"", said))
                self.assertFalse((self.copy / "finder.build").exists())


def heed_hangups() -> None:
    """Lets SIGHUP end a process again, which a run by nohup ignores."""
    signal.signal(signal.SIGHUP, signal.SIG_DFL)


class Builds(Launcher):
    """A launcher whose sources were changed, so that it builds."""

    @classmethod
    def setUpClass(cls) -> None:
        super().setUpClass()
        source = cls.copy / "crates/finder_main/src/main.rt"
        source.write_text(source.read_text() + "\n")

    # (what is tried of all launchers is tried above)
    test_a_file_that_is_cut_off_does_nothing = None
    test_a_pipe_in_the_place_of_a_file_that_is_kept = None
    test_closed_streams = None
    test_a_null_device_that_cannot_be_opened_is_named = None
    test_a_closed_output_is_the_program_s_to_refuse = None

    def setUp(self) -> None:
        super().setUp()
        folder = tempfile.TemporaryDirectory()
        self.addCleanup(folder.cleanup)
        self.processes = Path(folder.name, "processes")
        toolchain = Path(folder.name, "rt")
        toolchain.write_text(ENDLESS)
        toolchain.chmod(0o755)
        path = f"{folder.name}:{os.environ['PATH']}"
        self.environment = {**os.environ, "PATH": path, "RT_PROCESSES": str(self.processes)}
        self.addCleanup(self.end_all)

    def running(self) -> "list[int]":
        """The processes of the toolchain that run still."""
        words = self.processes.read_text().split() if self.processes.exists() else []
        return [process for process in map(int, words) if is_running(process)]

    def end_all(self) -> None:
        """Ends what a test has left."""
        for process in self.running():
            os.kill(process, signal.SIGKILL)

    def end_by(self, number: int) -> bytes:
        """Ends a launcher that builds, by a signal; what it had said. Nothing of the build may run then."""
        words = ["./finder", "check", EXAMPLE]
        how = {"cwd": self.copy, "env": self.environment, "stdin": subprocess.DEVNULL}
        pipes = {"stdout": subprocess.PIPE, "stderr": subprocess.PIPE, "preexec_fn": heed_hangups}
        with subprocess.Popen(words, **pipes, **how) as launcher:
            self.assertTrue(wait_until(lambda: len(self.running()) == 2), "no build began")
            launcher.send_signal(number)
            launcher.wait(SECONDS)
            self.assertEqual(launcher.returncode, -number)
            self.assertTrue(wait_until(lambda: not self.running()), "the build runs still")
            return launcher.communicate(timeout=SECONDS)[1]

    def test_a_signal_while_it_builds_ends_the_build(self) -> None:
        for number in (signal.SIGTERM, signal.SIGHUP, signal.SIGKILL):
            with self.subTest(number.name):
                self.assertNotIn(b"was not built", self.end_by(number))
                self.processes.unlink()

    def test_a_pipe_in_the_place_of_the_lock(self) -> None:
        for name in ("lock", "log"):
            with self.subTest(name):
                (self.copy / "finder.build").mkdir()
                os.mkfifo(self.copy / "finder.build" / name)
                done = self.start(env=self.environment)
                self.assertEqual(done.returncode, 70)
                self.assertIn(f"finder.build/{name} is no file".encode(), done.stderr)
                shutil.rmtree(self.copy / "finder.build")


if __name__ == "__main__":
    unittest.main()

"""The cache of texts: many processes at once, processes that are killed, a full disk, and its two commands."""

import concurrent.futures
import contextlib
import importlib.util
import io
import os
import pickle
import resource
import signal
import subprocess
import sys
import time
import unittest
from pathlib import Path
from unittest import mock

import finder
from finder.commands import dispatch
from finder.ephemeris import cache, sums, writing
from tests.common import IS_WHOLE, PROGRAM, TOP, YEAR, command, of_the_whole, wait_for
from tests.test_ephemeris_sources import InCache

PROCESSES = 16 if IS_WHOLE else 4
# What a process of its own does: opens a part of the year, and prints the sum of its text.
OPENS = "import sys, finder; print(finder.Ephemeris.open(sys.argv[1], '2000-05-01', '2000-06-01').sha256)"


def texts_in(folder):
    """The folders of texts in a cache."""
    return [
        path for path in Path(folder).iterdir() if path.name != cache.LOCKS and not path.name.startswith(cache.UNDONE)
    ]


class Cache(InCache):
    def process(self, *words, **options):
        environment = {**os.environ, "PYTHONPATH": str(TOP / "python")}
        return subprocess.Popen([sys.executable, *words], env=environment, stdout=subprocess.PIPE, **options)

    def open(self, **words):
        return finder.Ephemeris.open(YEAR, "2000-05-01", "2000-06-01", **words)

    @of_the_whole
    def test_many_processes_leave_one_text(self):
        running = [self.process("-c", OPENS, str(YEAR)) for _ in range(PROCESSES)]
        sums = {process.communicate()[0] for process in running}
        self.assertEqual([process.returncode for process in running], [0] * PROCESSES)
        self.assertEqual(sums, {f"{self.open().sha256}\n".encode()})
        self.assertEqual(len(texts_in(self.folder / "cache")), 1)
        self.assertEqual(list((self.folder / "cache").glob(f"{cache.UNDONE}*")), [])

    def test_made_once(self):
        """Of those that ask for a text at once, one makes it, and the others wait and have the same."""
        made = []

        def make():
            made.append(1)
            time.sleep(0.2)
            return cache.Made([b"text"], {"name": "text", "start": 0, "end": 1, "titles": [""]})

        with concurrent.futures.ThreadPoolExecutor(8) as pool:
            found = list(pool.map(lambda _: cache.kept("0123", make), range(8)))
        self.assertEqual(len(made), 1)
        self.assertEqual({each.files for each in found}, {found[0].files})

    def test_killed_in_the_middle(self):
        """A process that is killed while it writes leaves no text, and the next one makes it whole."""
        slow = (
            f"from finder.ephemeris import cache; import os, time; cache.os.fsync = lambda _: time.sleep(600); {OPENS}"
        )
        process = self.process("-c", slow, str(YEAR))
        home = self.folder / "cache"
        self.assertTrue(wait_for(lambda: list(home.glob(f"{cache.UNDONE}*/ephemeris.asc"))))
        process.send_signal(signal.SIGKILL)
        process.communicate()
        self.assertEqual(texts_in(home), [])
        eph = self.open()
        self.assertEqual(finder.check(eph).blocks, 2)
        self.assertEqual(len(texts_in(home)), 1)
        # (what it left is swept away once it is old)
        left = list(home.glob(f"{cache.UNDONE}*"))
        self.assertEqual(len(left), 1)
        os.utime(left[0], (0, 0))
        finder.Ephemeris.open(YEAR, "2000-08-01", "2000-09-01")
        self.assertEqual(list(home.glob(f"{cache.UNDONE}*")), [])

    def test_full_disk(self):
        """Where no more can be written nothing is left, and the error names the folder and what to do."""
        limited = (
            f"import resource; resource.setrlimit(resource.RLIMIT_FSIZE, (20_000, {resource.RLIM_INFINITY})); {OPENS}"
        )
        process = self.process("-c", limited, str(YEAR), stderr=subprocess.PIPE)
        said = process.communicate()[1].decode()
        self.assertEqual(process.returncode, 1)
        self.assertIn("the cache of texts, make room, by `python -m finder cache clear`", said)
        self.assertIn(str(self.folder / "cache"), said)
        self.assertEqual(texts_in(self.folder / "cache"), [])
        self.assertEqual(list((self.folder / "cache").glob(f"{cache.UNDONE}*")), [])
        self.assertEqual(finder.check(self.open()).blocks, 2)

    def test_a_folder_that_cannot_be_written_to(self):
        (self.folder / "file").write_text("no folder")
        with mock.patch.dict(os.environ, FINDER_CACHE=str(self.folder / "file")), self.assertRaises(OSError):
            self.open()
        with mock.patch.dict(os.environ, FINDER_CACHE="/proc/none"):
            self.assertRaises(OSError, self.open)
            self.assertEqual(finder.check(self.open(cache=False)).blocks, 2)

    def test_damaged_texts_are_made_again(self):
        eph = self.open()
        whole = Path(eph.files[0]).read_bytes()
        for damage in (lambda path: path.write_bytes(whole[:100]), lambda path: path.unlink()):
            damage(Path(eph.files[0]))
            self.assertEqual(Path(self.open().files[0]).read_bytes(), whole)
        (Path(eph.files[0]).parent / cache.ABOUT).write_text("{")
        self.assertEqual(Path(self.open().files[0]).read_bytes(), whole)

    def test_keyed_by_content(self):
        """The same bytes in another folder are the same text, and changed bytes another one, whatever their time."""
        copy = self.folder / YEAR.name
        copy.write_bytes(YEAR.read_bytes())
        first = self.open()
        made = finder.Ephemeris.open(copy, "2000-05-01", "2000-06-01")
        self.assertEqual(made.files, first.files)
        changed = YEAR.read_bytes().replace(b"0.813005600000000", b"0.813005600000001")
        self.assertNotEqual(changed, YEAR.read_bytes())
        copy.write_bytes(changed)
        os.utime(copy, (1, 1))
        other = finder.Ephemeris.open(copy, "2000-05-01", "2000-06-01")
        self.assertNotEqual(other.sha256, first.sha256)

    def test_sums_of_large_files(self):
        """A large file is summed again where it has changed, and only there."""
        copy = self.folder / "copy.asc"
        copy.write_bytes(YEAR.read_bytes())
        old = time.time() - 60
        with mock.patch.object(sums, "LARGE", 1), mock.patch.object(sums.time, "time", lambda: old + 3_600):
            first = sums.sha256_of_source(str(copy), copy.read_bytes(), self.folder / "cache")
            self.assertEqual(first, sums.sha256_of([str(copy)]))
            self.assertEqual(sums.sha256_of_source(str(copy), b"not looked at", self.folder / "cache"), first)
            changed = YEAR.read_bytes()[:-1]
            copy.write_bytes(changed)
            self.assertEqual(
                sums.sha256_of_source(str(copy), changed, self.folder / "cache"), sums.sha256_of([str(copy)])
            )
            cache.clear()
            self.assertFalse((self.folder / "cache" / sums.SUMS).exists())

    def test_without_a_cache(self):
        eph = self.open(cache=False)
        folder = Path(eph.files[0]).parent
        self.assertTrue(folder.is_dir())
        self.assertEqual(eph.sha256, self.open().sha256)
        again = pickle.loads(pickle.dumps(eph))
        self.assertEqual((again.files, again.names), (eph.files, eph.names))
        del again
        self.assertTrue(folder.is_dir())
        del eph
        self.assertFalse(folder.exists())

    def test_folders(self):
        home = str(Path.home())
        for names, folder in (
            ({"FINDER_CACHE": "/a"}, "/a"),
            ({"FINDER_CACHE": "", "XDG_CACHE_HOME": "/b"}, "/b/finder"),
            ({"FINDER_CACHE": "", "XDG_CACHE_HOME": "b"}, f"{home}/.cache/finder"),
        ):
            with mock.patch.dict(os.environ, names):
                self.assertEqual(str(cache.cache_folder()), folder)

    def test_executors(self):
        """An ephemeris is told to other processes, which search its text."""
        eph = self.open()
        with concurrent.futures.ProcessPoolExecutor(2) as pool:
            found = finder.over_files(finder.apsides, eph, "moon", observer="earth", executor=pool)
        self.assertEqual(list(found), list(finder.apsides(eph, "moon", observer="earth")))

    def test_several_files(self):
        """A text of several files in the cache, and over_files over them."""
        with mock.patch.object(writing, "MAX_BYTES", 100_000), mock.patch(
            "finder.ephemeris.ascii_de.MAX_BYTES", 100_000
        ):
            eph = finder.Ephemeris.open(YEAR, "2000-02-01", "2000-12-01")
        self.assertGreater(len(eph.files), 3)
        found = finder.apsides(eph, "moon", observer="earth")
        self.assertEqual(
            list(found), list(finder.apsides(YEAR, "moon", observer="earth", start="2000-02-01", end="2000-12-01"))
        )
        self.assertEqual(list(finder.over_files(finder.apsides, eph, "moon", observer="earth", jobs=2)), list(found))
        extreme = finder.least(eph, "moon", observer="earth")
        self.assertEqual(len(extreme.certificates()), 2)


class Commands(InCache):
    def run_words(self, *words):
        """The status of the command, and what it printed."""
        out = io.BytesIO()
        streams = mock.Mock(buffer=out, encoding="utf-8")
        with mock.patch("finder.commands.words.write", out.write), contextlib.redirect_stderr(io.StringIO()) as said:
            status = dispatch.main(list(words))
        del streams
        return status, out.getvalue().decode(), said.getvalue()

    def test_text(self):
        status, out, _ = self.run_words(
            "text", str(YEAR), "--from", "2000-05-01", "--to", "2000-06-01", "--out", str(self.folder / "out")
        )
        self.assertEqual((status, out), (0, f"{self.folder}/out/ephemeris.asc\n"))
        words = ["--kind", "apsis", "--target", "moon", "--observer", "earth", "--from", "2000-05-01T00:00:00"]
        self.assertIn("END certain 2 undecided 0", command("find", *words, "--to", "2000-06-01T00:00:00", out.strip()))

    @unittest.skipUnless(importlib.util.find_spec("erfa"), "there is no erfa here")
    def test_text_of_a_sky(self):
        words = [
            "text",
            str(YEAR),
            "--from",
            "2000-05-01",
            "--to",
            "2000-05-08",
            "--place",
            "52.52,13.40",
            "--delta-t",
            "64",
        ]
        status, out, _ = self.run_words(*words, "--out", str(self.folder / "out"))
        self.assertEqual((status, out), (0, f"{self.folder}/out/sky.asc\n"))
        title = " ".join(Path(out.strip()).read_text("ascii").split("GROUP   1030")[0].split())
        self.assertIn("from 52.5200 N 13.4000 E, 0 m", title)
        self.assertIn("zenith in the column pluto", title)

    def test_refusals(self):
        for words, status, said in (
            (["text", "none.asc", "--out", "out"], 1, "none.asc"),
            (["text", str(YEAR), "--from", "2010-01-01", "--out", "out"], 1, "is asked for"),
        ):
            made = self.run_words(*words)
            self.assertEqual(made[0], status)
            self.assertIn(said, made[2])
        with self.assertRaises(SystemExit), contextlib.redirect_stderr(io.StringIO()) as said:
            dispatch.main(["text", str(YEAR), "--out", "out", "--axes", "ecliptic"])
        self.assertIn("are of a sky: name --place or --centre", said.getvalue())

    def test_cache(self):
        folder = self.folder / "cache"
        self.assertEqual(self.run_words("cache")[1], f"0 texts, 0.0 MB, in {folder}\n")
        eph = finder.Ephemeris.open(YEAR, "2000-05-01", "2000-06-01")
        listed = self.run_words("cache", "list")[1].splitlines()
        self.assertEqual(len(listed), 2)
        self.assertTrue(listed[0].startswith(eph.sha256[:12]))
        self.assertIn("2000-04-30T00:00:00 to 2000-07-03T00:00:00", listed[0])
        self.assertEqual(self.run_words("cache", "clear")[1], f"removed 1 texts, 0.1 MB, from {folder}\n")
        self.assertEqual(texts_in(folder), [])
        self.assertFalse(Path(eph.files[0]).exists())

    @of_the_whole
    def test_publishing(self):
        """`tools/publish` takes the files that `write` gives."""
        eph = finder.Ephemeris.open(YEAR, "2000-05-01", "2000-06-01")
        names = eph.write(self.folder / "texts")
        catalogue = self.folder / "catalogue"
        catalogue.write_text("moon --kind apsis --target moon --observer earth\n")
        environment = {**os.environ, "FINDER": str(PROGRAM), "SOURCE_DATE_EPOCH": "0"}
        words = [sys.executable, str(TOP / "tools/publish"), str(catalogue), str(self.folder / "published"), *names]
        subprocess.run(words, check=True, env=environment, capture_output=True)
        self.assertIn(eph.sha256, (self.folder / "published" / "INPUTS").read_text())


if __name__ == "__main__":
    unittest.main()

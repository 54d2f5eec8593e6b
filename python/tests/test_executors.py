"""`over_files` by threads, processes and dask.distributed: the windows of the whole, and refusals as they are."""

import concurrent.futures
import contextlib
import logging
import unittest

import finder
from finder.process.program import Runs
from tests.almanacs import has
from tests.common import PROGRAM, YEAR, InFolder, of_the_whole, split_year, stand_in

MOON = ("moon",)
EARTH = {"observer": "earth", "program": PROGRAM}


class Executors(InFolder):
    """The year in three files, by executors of each kind."""

    def setUp(self):
        super().setUp()
        self.header, self.files = split_year(self.folder)
        self.whole = finder.apsides(YEAR, "moon", **EARTH)

    def over(self, search, *words, **options):
        return finder.over_files(search, self.files, *words, header=self.header, **{**EARTH, **options})

    def check(self, executor):
        """The windows are the same, twice; a refusal is its exception, with its number; and progress is told."""
        steps = []
        found = self.over(finder.apsides, *MOON, executor=executor, progress=steps.append)
        self.assertEqual((found.text, sum(steps)), (self.whole.text, len(self.files)))
        self.assertFalse(found.first.flags.writeable)
        part = self.over(finder.apsides, *MOON, executor=executor, start="2000-03-01", end="2000-10-01", tick=1_000)
        whole = finder.apsides(YEAR, "moon", start="2000-03-01", end="2000-10-01", tick=1_000, **EARTH)
        self.assertEqual(part, whole)
        with self.assertRaises(finder.EventRefused) as caught:
            self.over(finder.conjunctions, "mars", "mars", executor=executor)
        self.assertEqual((caught.exception.status, caught.exception.number), (7, 51))
        back = self.over(finder.retrograde, "mercury", executor=executor)
        self.assertEqual(back.text, finder.retrograde(YEAR, "mercury", **EARTH).text)
        made = self.over(finder.certificate, "apsis", *MOON, executor=executor)
        self.assertEqual(made, finder.certificate(YEAR, "apsis", *MOON, **EARTH))

    def test_threads(self):
        with concurrent.futures.ThreadPoolExecutor(2) as pool:
            self.check(pool)
            # (it is not shut down)
            self.assertEqual(pool.submit(len, "abc").result(), 3)

    def test_processes(self):
        with concurrent.futures.ProcessPoolExecutor(2) as pool:
            self.check(pool)

    @unittest.skipUnless(has("distributed"), "no distributed")
    @of_the_whole
    def test_dask(self):
        from distributed import Client, LocalCluster

        with contextlib.ExitStack() as stack:
            # (the workers would log each refusal)
            quiet = {"dashboard_address": None, "silence_logs": logging.CRITICAL}
            cluster = stack.enter_context(LocalCluster(n_workers=1, threads_per_worker=2, processes=True, **quiet))
            client = stack.enter_context(Client(cluster))
            self.check(client.get_executor())

    def test_progress_counts_files_that_the_span_does_not_reach(self):
        steps = []
        self.over(finder.apsides, *MOON, start="2000-02-01", end="2000-03-01", progress=steps.append)
        self.assertEqual(sum(steps), len(self.files))
        self.assertEqual(steps[0], len(self.files) - 1)

    def test_stretches_that_meet_are_joined(self):
        """As `docs/guide/many-machines.md` keeps them, as texts."""
        days = "1999-12-24", "2000-03-10", "2000-09-20", "2001-01-11"
        kept = [self.over(finder.apsides, *MOON, start=one, end=other).text for one, other in zip(days, days[1:])]
        self.assertEqual(finder.join(map(finder.Windows.of_text, kept)), self.whole)
        with self.assertRaises(finder.WrongParts):
            finder.join(map(finder.Windows.of_text, kept[::2]))

    def test_a_search_that_fails_cancels_those_that_wait(self):
        fails = f'[ "$1" = check ] && exec {PROGRAM} "$@"\necho run >>{self.folder}/runs\nexit 9'
        program = stand_in(self.folder, fails)
        with concurrent.futures.ThreadPoolExecutor(1) as pool, self.assertRaises(finder.TooManyLeaves):
            self.over(finder.apsides, *MOON, executor=pool, program=program)
        self.assertLess(len((self.folder / "runs").read_text().split()), len(self.files))

    def test_what_an_executor_is_not_told(self):
        with concurrent.futures.ThreadPoolExecutor(1) as pool:
            with self.assertRaisesRegex(TypeError, "name of the command"):
                self.over(finder.apsides, *MOON, executor=pool, program=Runs(PROGRAM, None))
            with self.assertRaises(finder.TimedOut):
                self.over(finder.apsides, *MOON, executor=pool, timeout=0)
        with self.assertRaises(finder.WrongParts):
            finder.over_files(finder.apsides, [], *MOON, **EARTH)

    def test_what_is_not_joined(self):
        with self.assertRaisesRegex(TypeError, "and not Extreme"):
            self.over(finder.least, *MOON)
        with self.assertRaisesRegex(TypeError, "and not int"):
            finder.join([3])

    def test_how_many_at_once(self):
        for jobs, error in ((0, ValueError), (-2, ValueError), ("2", TypeError), (2.0, TypeError)):
            with self.assertRaisesRegex(error, "jobs is "):
                self.over(finder.apsides, *MOON, jobs=jobs)
            with self.assertRaisesRegex(error, "jobs is "):
                finder.almanac(YEAR, "2000-01-01", "2000-02-01", groups="moon", jobs=jobs)


if __name__ == "__main__":
    unittest.main()

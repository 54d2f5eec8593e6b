"""Parts of a span are joined to the report of the whole, and what is no part of it is refused."""

import os
import subprocess
import sys
import unittest

import finder
from finder import spans
from tests.common import PROGRAM, REPORT, TOOL, YEAR, InFolder, command, of_the_whole, sample, split_year, stand_in

SEEN = {"observer": "earth", "frame": "ecl"}
HEAD = "FIND conj target moon second sun observer earth frame ecl axis - values - dir any width 1 depth 4 cut half"
# A stand-in of Slurm's command, which runs the jobs of an array one by one, and no job that depends on one that failed.
SBATCH = """\
#!/bin/sh
array=1-1
while :; do
    case $1 in
        --array=*) array=${1#--array=} ;;
        --output=*) output=${1#--output=} ;;
        --dependency=afterok:7) [ ! -e failed ] || exit 0 ;;
        --*) ;;
        *) break ;;
    esac
    shift
done
for SLURM_ARRAY_TASK_ID in $(seq ${array%-*} ${array#*-}); do
    export SLURM_ARRAY_TASK_ID
    "$@" >"$(echo "$output" | sed "s/%a/$SLURM_ARRAY_TASK_ID/")" 2>&1 || : >failed
done
echo 7
"""


def part(first, last, *lines, head=HEAD):
    """The report of a part whose windows are these lines."""
    certain = sum(line.startswith("C ") for line in lines)
    return "\n".join(
        [
            f"{head} span 2000-01-{first}T00:00:00 2000-01-{last}T00:00:00",
            *lines,
            f"END certain {certain} undecided {len(lines) - certain}",
            "",
        ]
    )


class Files(InFolder):
    def setUp(self):
        super().setUp()
        self.header, self.files = split_year(self.folder)

    def over(self, search, *words, **options):
        return finder.over_files(search, self.files, *words, header=self.header, **options)

    def test_each_search_over_files_is_the_search_of_the_whole(self):
        for search, words, options in (
            (finder.coordinate, ("mercury", "x"), {}),
            (finder.distance, ("moon", 384_400), {"observer": "earth", "jobs": 3}),
            (finder.apsides, ("moon",), {"observer": "earth", "tick": 1000, "jobs": 2}),
            (finder.conjunctions, ("moon", "sun"), {"depth": 4, **SEEN}),
            (finder.oppositions, ("moon",), {"start": "2000-06-01", "end": "2000-12-20", **SEEN}),
            (finder.oppositions, ("moon",), {"start": "2000-07-01", "end": "2000-08-01", **SEEN}),
            (finder.stations, ("mercury",), {"width": 3600, **SEEN}),
            (finder.separation, ("moon", "sun"), {"degrees": 90, "observer": "earth", "dir": "rise"}),
            (finder.separation_extremes, ("venus", "mars"), {"observer": "earth", "cut": "third"}),
            (finder.occultations, ("moon", "mars", (1737.4, 3389.5)), {"observer": "earth"}),
        ):
            with self.subTest(search.__name__):
                plain = {name: value for name, value in options.items() if name != "jobs"}
                self.assertEqual(self.over(search, *words, **options).text, search(YEAR, *words, **plain).text)

    def test_files_that_do_not_follow_one_another(self):
        for files in ([self.files[0], self.files[2]], [self.files[0]] * 2, []):
            with self.assertRaises(finder.WrongParts):
                finder.over_files(finder.apsides, files, "moon", header=self.header, observer="earth")
        bare, files = split_year(self.folder, ((0, 4), (4, 12)))
        with self.assertRaises(finder.WrongParts):
            finder.over_files(finder.apsides, files, "moon", header=bare, observer="earth")
        with self.assertRaises(finder.WrongParts):
            self.over(finder.apsides, "moon", observer="earth", end="2001-02-01")

    def test_a_failed_part_fails_the_whole(self):
        text = self.files[1].read_text()
        self.files[1].write_text(text[: len(text) // 2])
        for jobs in (1, 3):
            with self.assertRaises(finder.FileFault):
                self.over(finder.apsides, "moon", observer="earth", jobs=jobs)
        self.files[1].write_text(text)
        program = stand_in(self.folder, f'case "$*" in find*ascp2*) exit 8;; esac; exec {PROGRAM} "$@"')
        with self.assertRaises(finder.OutOfMemory):
            self.over(finder.apsides, "moon", observer="earth", jobs=2, program=program)


class Joins(unittest.TestCase):
    def joined(self, *reports):
        return spans.join(spans.read_parts("".join(reports))).text()

    def test_undecided_windows_that_meet_are_one(self):
        whole = self.joined(
            part("01", "05", "U 2000-01-04T12:00:00 2000-01-05T00:00:00"),
            part("05", "06", "U 2000-01-05T00:00:01 2000-01-06T00:00:00"),
            part(
                "06",
                "09",
                "U 2000-01-06T00:00:01 2000-01-06T12:00:00",
                "C 2000-01-07T00:00:00 2000-01-07T00:00:00 rise",
            ),
        )
        self.assertEqual(
            whole,
            part(
                "01",
                "09",
                "U 2000-01-04T12:00:00 2000-01-06T12:00:00",
                "C 2000-01-07T00:00:00 2000-01-07T00:00:00 rise",
            ),
        )

    def test_windows_that_do_not_meet_stay_two(self):
        lines = (
            "U 2000-01-04T12:00:00 2000-01-04T23:59:59",
            "U 2000-01-05T00:00:01 2000-01-06T00:00:00",
            "U 2000-01-06T00:00:02 2000-01-06T12:00:00",
            "C 2000-01-07T00:00:00 2000-01-07T00:00:00 fall",
            "U 2000-01-07T00:00:01 2000-01-07T12:00:00",
        )
        ends = ("01", "05", "06", "07", "09")
        parts = (lines[:1], lines[1:2], lines[2:4], lines[4:])
        reports = [part(first, last, *rows) for first, last, rows in zip(ends, ends[1:], parts)]
        self.assertEqual(self.joined(*reports), part("01", "09", *lines))

    def test_what_is_not_joined(self):
        for name, reports in {
            "a gap": (part("01", "05"), part("06", "09")),
            "an overlap": (part("01", "05"), part("04", "09")),
            "a part twice": (part("01", "05"), part("01", "05")),
            "another order": (part("05", "09"), part("01", "05")),
            "another request": (part("01", "05"), part("05", "09", head=HEAD.replace("depth 4", "depth 5"))),
            "another tick": (
                part("01", "05"),
                part("05", "09", head=f"{HEAD} tick 1000").replace(":00 ", ":00.000 ").replace(":00\n", ":00.000\n"),
            ),
            "no part": (),
        }.items():
            with self.subTest(name), self.assertRaises(finder.WrongParts):
                self.joined(*reports)


class Tool(InFolder):
    def run_tool(self, *words, text=""):
        return subprocess.run(
            [sys.executable, TOOL, *words], cwd=self.folder, input=text, capture_output=True, text=True, check=False
        )

    def said(self, *words, text=""):
        done = self.run_tool(*words, text=text)
        self.assertEqual((done.returncode, done.stderr), (0, ""))
        return done.stdout

    def assert_refused(self, why, *words, text=""):
        done = self.run_tool(*words, text=text)
        self.assertEqual((done.returncode, done.stdout), (1, ""), words)
        self.assertTrue(done.stderr.startswith("spans: "), done.stderr)
        self.assertIn(why, done.stderr)

    def parts(self, plan, options, files=()):
        """The reports of a plan's parts."""
        rows = [line.split(" ") for line in plan.splitlines()]
        return [
            command("find", *options.split(), f"--from={row[0]}", f"--to={row[1]}", *(files or row[2:])) for row in rows
        ]

    @of_the_whole
    def test_cuts_at_borders_of_blocks(self):
        self.assertEqual(
            self.said("cut", "3", YEAR).splitlines(),
            [
                "1999-12-24T00:00:00 2000-04-30T00:00:00",
                "2000-04-30T00:00:00 2000-09-05T00:00:00",
                "2000-09-05T00:00:00 2001-01-11T00:00:00",
            ],
        )
        self.assertEqual(len(self.said("cut", "100", YEAR).splitlines()), 12)
        self.assertEqual(
            self.said("cut", "5", "--from", "2000-02-01T00:00:00.250", "--to=3000000", YEAR).splitlines(),
            ["2000-02-01T00:00:00.250 2000-02-05T05:20:00"],
        )
        self.assertEqual(
            self.said("cut", "5", "--from", "2000-02-01T00:00:00", "--to", "2000-03-01T00:00:00", YEAR).splitlines(),
            ["2000-02-01T00:00:00 2000-02-26T00:00:00", "2000-02-26T00:00:00 2000-03-01T00:00:00"],
        )
        self.assert_refused("not within the files", "cut", "2", "--to", "2002-01-01T00:00:00", YEAR)
        self.assert_refused("finder: read fault none", "cut", "2", "none")

    @of_the_whole
    def test_parts_are_joined_to_the_whole(self):
        (self.folder / "plan").write_text(self.said("cut", "5", YEAR))
        plan = (self.folder / "plan").read_text()
        for options in (
            "--kind conj --target moon --second sun --observer earth --depth 3",
            "--kind apsis --target moon --observer earth",
            "--kind apsis --target moon --observer earth --tick 1000 --cut third",
        ):
            joined = self.said("join", "plan", text="".join(self.parts(plan, options, [YEAR])))
            self.assertEqual(joined, command("find", *options.split(), YEAR))

    def test_files_are_joined_to_the_whole(self):
        split_year(self.folder)
        plan = self.said("files", "--header", "header.405", "ascp0.405", "ascp1.405", "ascp2.405")
        (self.folder / "plan").write_text(plan)
        self.assertEqual([line.split(" ")[2] for line in plan.splitlines()], ["ascp0.405", "ascp1.405", "ascp2.405"])
        options = "--kind apsis --target moon --observer earth"
        rows = [line.split(" ") for line in plan.splitlines()]
        for number, (begin, end, name) in enumerate(rows):
            files = (self.folder / "header.405", self.folder / name)
            text = command("find", *options.split(), f"--from={begin}", f"--to={end}", *files)
            (self.folder / f"part{number}").write_text(text)
        self.assertEqual(self.said("join", "plan", "part0", "part1", "part2"), command("find", *options.split(), YEAR))
        self.assert_refused("does not hold the block", "files", "--header", "header.405", "ascp0.405", "ascp2.405")
        self.assert_refused("a blank", "files", "--header", "header.405", "a file")

    @of_the_whole
    def test_an_array_of_jobs(self):
        split_year(self.folder)
        plan = self.said("files", "--header", "header.405", "ascp0.405", "ascp1.405", "ascp2.405")
        (self.folder / "plan").write_text(plan)
        (self.folder / "sbatch").write_text(SBATCH)
        (self.folder / "sbatch").chmod(0o755)
        path = {**os.environ, "PATH": f"{self.folder}:{os.environ['PATH']}"}
        options = "--kind apsis --target moon --observer earth".split()
        run = [TOOL.parent / "slurm", "plan", "moons", *options, "header.405"]
        done = subprocess.run(run, cwd=self.folder, env=path, capture_output=True, text=True, check=False)
        self.assertEqual((done.returncode, done.stderr), (0, ""))
        self.assertEqual((self.folder / "moons" / "report").read_text(), command("find", *options, YEAR))
        self.assertNotEqual(
            subprocess.run(run, cwd=self.folder, env=path, capture_output=True, check=False).returncode, 0
        )
        (self.folder / "ascp1.405").write_text("")
        run[2] = "others"
        subprocess.run(run, cwd=self.folder, env=path, capture_output=True, check=False)
        self.assertTrue((self.folder / "others" / "1").exists())
        self.assertEqual((self.folder / "others" / "2.err").read_text(), "finder: file ascp1.405 line 1: 37 NoBlock\n")
        self.assertFalse((self.folder / "others" / "report").exists())

    @of_the_whole
    def test_what_is_not_joined(self):
        plan = self.said("cut", "3", YEAR)
        (self.folder / "plan").write_text(plan)
        first, second, third = self.parts(plan, "--kind apsis --target moon --observer earth", [YEAR])
        other = self.parts(plan, "--kind apsis --target moon --observer sun", [YEAR])[1]
        cases = (
            ("part 3 of the plan", [first, second]),
            ("part 1 of the plan", []),
            ("part 2 of the plan", [first, third]),
            ("part 1 of the plan", [second, third]),
            ("part 2 of the plan", [first, first, second, third]),
            ("4 reports for 3 parts", [first, second, third, third]),
            ("different requests", [first, other, third]),
            (
                "the counts are",
                [first, second.replace("C ", "", 1).replace(second.split("\n")[1][2:] + "\n", "", 1), third],
            ),
            ("cut off", [first, second, third[:-1]]),
            ("without its last line", [first, second, third[: third.index("END")]]),
            ("part 1 of the plan", [REPORT]),
            ("no time of a report", [first.replace("\n", "\r\n"), second, third]),
        )
        for why, reports in sample(cases, 4):
            with self.subTest(why):
                self.assert_refused(why, "join", "plan", text="".join(reports))
        for wrong in sample(("", plan[:-1], plan.replace(" ", "  ")), 2):
            (self.folder / "plan").write_text(wrong)
            self.assert_refused("plan", "join", "plan", text=first + second + third)
        self.assertEqual(self.run_tool("join", "none").returncode, 3)
        wrong = (["join"], ["cut", "0", YEAR], ["cut", "two", YEAR], ["cut", "2", "--from", "May", YEAR], [])
        for words in sample(wrong, 2):
            self.assertEqual(self.run_tool(*words).returncode, 2, words)

"""Runs a program with each of its requests of memory refused in turn, and each of its threads, and counts the runs.
At last the system refuses all threads: the program runs as a user who may have one process.

    python3 memory.py PROGRAM REFUSED FOLDER

REFUSED is `refused.c` as a library that is preloaded. Each run has to end in time, with status 8, nothing on standard
output and the one line of that status on standard error, or with status 0, the whole report and nothing on standard
error; and no thread but the first may be left. A row ends once a run was refused nothing. With several workers the number
of requests depends on the schedule, so there a row ends after twenty such runs one after the other.
"""
import os
import resource
import subprocess
import sys

OUT_OF_MEMORY = 8
LINE = b"finder: out of memory\n"
SECONDS = 60
# How many runs that are refused nothing end a row of one worker, and a row of several.
ENDS = {1: 1, 8: 20}
# A user who has no process.
OTHER_USER = 54321

HEAD = """KSIZE= 52 NCOEFF= {numbers}
GROUP 1010
E1 TEST EPHEMERIS
GROUP 1030
2451544.50 2451576.50 32.
GROUP 1040
1
EMRAT
GROUP 1041
1
0.810000000000000000D+02
GROUP 1050
{places}
GROUP 1070
"""
MERCURY = "3 9 9 15 15 15 15 15 15 15 21 27 27\n2 0 2 0 0 0 0 0 0 2 2 0 0\n1 0 1 0 0 0 0 0 0 1 1 0 0"
WITH_VENUS = "3 9 15 21 21 21 21 21 21 21 27 33 33\n2 2 2 0 0 0 0 0 0 2 2 0 0\n1 1 1 0 0 0 0 0 0 1 1 0 0"


def block(number, count, day, values):
    """A block of 32 days from midnight of a day; its numbers are 0 but for those of `values`, from 1."""
    words = ["%d.5" % day, "%d.5" % (day + 32)] + ["0.0"] * (count - 2)
    for place, value in values.items():
        words[place - 1] = value
    words += ["0.0"] * (-len(words) % 3)
    rows = [" ".join(words[at:at + 3]) for at in range(0, len(words), 3)]
    return "\n".join(["%d %d" % (number, count)] + rows) + "\n"


# Mercury's x grows from -1,382,400 km to 1,382,400 km.
RISING = {4: "1382400"}
# The same, past Venus, which stands still 300 km in y.
PASSING = {4: "1382400", 5: "400", 11: "300"}

FILES = {
    "one": HEAD.format(numbers=26, places=MERCURY) + block(1, 26, 2451544, RISING),
    "more": block(1, 26, 2451544, RISING) + block(2, 26, 2451576, {3: "5"}),
    "two": HEAD.format(numbers=32, places=WITH_VENUS) + block(1, 32, 2451544, PASSING),
}

COORD = "find --kind coord --target mercury --axis x"
ROWS = [
    (1, COORD + " one"),
    (8, COORD + " --workers 8 one"),
    (1, "check one more"),
    (1, "gen 405 1 1"),
    (8, "gen 405 1 1 --workers 8"),
    (1, "find --kind radius --target mercury --ref 100.5 two"),
    (1, "find --kind apsis --target mercury two"),
    (1, "find --kind conj --target mercury --second venus two"),
    (1, "find --kind oppo --target mercury --second venus two"),
    (1, "find --kind station --target mercury --observer venus two"),
    (1, "find --kind sep --target mercury --second venus --ref 0.8 two"),
    (1, "find --kind sepext --target mercury --second venus two"),
    (1, "find --kind any --target mercury --second venus --radius1 300.5 --radius2 0 two"),
    (1, "find --kind full --target mercury --second venus --radius1 300.5 --radius2 100 two"),
    (1, "find --kind annular --target mercury --second venus --radius1 100 --radius2 300.5 two"),
]


class Wrong(Exception):
    """A run did what none may do."""


def run(program, refused, words, refusals, **how):
    """The status, both outputs, and the requests, the threads wanted and the threads left."""
    told = "told"
    if os.path.exists(told):
        os.remove(told)
    environment = {"LD_PRELOAD": refused, "REFUSED_TOLD": told}
    environment.update({name: str(number) for name, number in refusals.items()})
    try:
        done = subprocess.run([program] + words, env=environment, capture_output=True, timeout=SECONDS, **how)
    except subprocess.TimeoutExpired:
        raise Wrong("hangs")
    if not os.path.exists(told):
        raise Wrong("status %d, and its end was not reached" % done.returncode)
    with open(told) as file:
        counts = [int(word) for word in file.read().split()]
    return done.returncode, done.stdout, done.stderr, counts


def held_against(whole, status, out, err, left):
    """Whether a run ended whole; wrong is what is neither whole nor out of memory."""
    if left != 1:
        raise Wrong("%d threads are left" % left)
    if status == 0 and out == whole and err == b"":
        return True
    if status == OUT_OF_MEMORY and out == b"" and err == LINE:
        return False
    raise Wrong("status %d, %d bytes of output, error output %r" % (status, len(out), err))


def refuse_memory(program, refused, words, whole, workers):
    """How many runs were refused a request, and how many of these ended whole."""
    runs = ended_whole = unrefused = number = 0
    while unrefused < ENDS[workers]:
        number += 1
        status, out, err, (requests, _, left) = run(program, refused, words, {"REFUSE_MEMORY": number})
        is_whole = held_against(whole, status, out, err, left)
        if requests < number:
            if not is_whole:
                raise Wrong("request %d was not made, and memory ran out" % number)
            unrefused += 1
            continue
        unrefused = 0
        runs += 1
        ended_whole += is_whole
    return runs, ended_whole


def refuse_threads(program, refused, words, whole, threads):
    """How many runs were refused one thread, or all from one on; each has to end whole or out of memory."""
    runs = ended_whole = 0
    for name in ("REFUSE_THREAD", "REFUSE_THREADS_FROM"):
        for number in range(1, threads + 1):
            status, out, err, (_, _, left) = run(program, refused, words, {name: number})
            ended_whole += held_against(whole, status, out, err, left)
            runs += 1
    return runs, ended_whole


def allow_one_process():
    """No thread and no process beside this one."""
    resource.setrlimit(resource.RLIMIT_NPROC, (1, 1))


def run_as_one_process(program, refused, words, whole):
    """Whether a run without threads, which the system refuses, ended whole."""
    how = {"preexec_fn": allow_one_process}
    if os.geteuid() == 0:
        how.update(user=OTHER_USER, group=OTHER_USER, extra_groups=[])
    status, out, err, (_, threads, left) = run(program, refused, words, {}, **how)
    if threads == 0:
        raise Wrong("no thread was wanted")
    return held_against(whole, status, out, err, left)


def main(program, refused, folder):
    """Each row, and the sum of all."""
    os.chdir(folder)
    os.chmod(folder, 0o777)
    for name, text in FILES.items():
        with open(name, "w") as file:
            file.write(text)
    all_runs = wrong = 0
    for workers, line in ROWS:
        words = line.split()
        status, whole, err, (_, threads, _) = run(program, refused, words, {})
        if status != 0 or not whole or err:
            raise SystemExit("%s: status %d where nothing is refused, %r" % (line, status, err))
        try:
            runs, ended_whole = refuse_memory(program, refused, words, whole, workers)
            print("%s: %d runs with a request refused, %d of them whole" % (line, runs, ended_whole))
            all_runs += runs
            if threads:
                runs, ended_whole = refuse_threads(program, refused, words, whole, threads)
                print("%s: %d runs with threads refused, of %d, %d of them whole" % (line, runs, threads, ended_whole))
                is_whole = run_as_one_process(program, refused, words, whole)
                print("%s: where the system refuses all threads, %s" % (line, "whole" if is_whole else "out of memory"))
                all_runs += runs + 1
        except Wrong as error:
            wrong += 1
            print("%s: WRONG: %s" % (line, error))
    print("%d runs, %d rows wrong" % (all_runs, wrong))
    return 1 if wrong else 0


if __name__ == "__main__":
    sys.exit(main(*(os.path.realpath(word) for word in sys.argv[1:])))

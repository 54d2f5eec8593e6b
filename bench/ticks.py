"""Searches in seconds and in milliseconds, compared: `ticks.py PROGRAM NODES FILE SPANS`, run by `ticks.sh`. NODES is
`nodes.c`, built.

A window in seconds stands for the milliseconds after the second before its first, up to its last second.
"""

import random
import re
import subprocess
import sys
import time
from datetime import date

EARTH = "--observer earth"
MOON_NEPTUNE = "--target moon --second neptune --observer earth --radius1 1737.4 --radius2 24764"
SUN_VENUS = "--target sun --second venus --observer earth --radius1 696000 --radius2 6051.8"
SEARCHES = {
    "coord": ["--target mercury --axis x", f"--target moon {EARTH} --axis z --frame ecl"],
    "radius": [f"--target mercury {EARTH} --ref 100000000", f"--target moon {EARTH} --ref 384400"],
    "apsis": ["--target earth --observer sun", f"--target moon {EARTH}"],
    "conj": [f"--target jupiter --second saturn {EARTH} --frame ecl", f"--target moon --second sun {EARTH} --frame ecl"],
    "oppo": [f"--target jupiter --second sun {EARTH} --frame ecl", f"--target moon --second sun {EARTH} --frame ecl"],
    "station": [f"--target mercury {EARTH} --frame ecl", f"--target neptune {EARTH} --frame eq"],
    "sep": [f"--target venus --second jupiter {EARTH} --ref 0.9998476951563913",
            f"--target moon --second sun {EARTH} --ref 0"],
    "sepext": [f"--target venus --second sun {EARTH}", f"--target mercury --second sun {EARTH}"],
    "any": [MOON_NEPTUNE, SUN_VENUS],
    "full": [MOON_NEPTUNE, SUN_VENUS],
    "annular": ["--target mercury --second sun --observer jupiter --radius1 2439.7 --radius2 696000",
                f"--target moon --second sun {EARTH} --radius1 900 --radius2 4000000"],
}

# The searches of `nodes.c`, in the words of the program.
COUNTED = {
    "coord": f"--target mercury {EARTH} --axis x",
    "radius": f"--target moon {EARTH} --ref 384400",
    "apsis": f"--target moon {EARTH}",
    "conj": f"--target mercury --second venus {EARTH}",
    "station": f"--target mercury {EARTH}",
    "sep": f"--target mercury --second venus {EARTH} --ref 0.998",
    "sepext": f"--target mercury --second venus {EARTH}",
    "any": f"--target moon --second sun {EARTH} --radius1 8115.5 --radius2 696000",
    "full": f"--target moon --second sun {EARTH} --radius1 8115.5 --radius2 696000",
    "annular": f"--target moon --second sun {EARTH} --radius1 1737.4 --radius2 696000",
}
DAY = 86400
LENGTHS = [1, 2, 60, 3600, DAY, 10 * DAY, 60 * DAY]
TURNS = 5

# Up to this length forty cuts in thirds reach a millisecond; in a longer span they may leave more of it undecided.
LONGEST_IN_THIRDS = 3600


class Differs(Exception):
    """What does not agree."""


def time_of(word, tick):
    """The tick of a printed time."""
    form = r"(\d{4})-(\d\d)-(\d\d)T(\d\d):(\d\d):(\d\d)" + (r"\.(\d{3})" if tick == 1000 else "")
    found = re.fullmatch(form, word)
    if not found:
        raise Differs(f"{word} is no time of tick {tick}")
    year, month, day, hour, minute, second, *rest = map(int, found.groups())
    days = (date(year, month, day) - date(2000, 1, 1)).days
    return (days * DAY + hour * 3600 + minute * 60 + second - DAY // 2) * tick + (rest[0] if rest else 0)


def search(program, file, words, tick):
    """The span and the windows that are printed, each with its first and last tick and its direction, if it has one."""
    ticks = ["--tick", "1000"] if tick == 1000 else []
    ran = subprocess.run([program, "find", *words, *ticks, file], capture_output=True, text=True, check=False)
    if ran.returncode != 0 or ran.stderr:
        raise Differs(f"status {ran.returncode}: {ran.stderr}")
    first, *lines, end = ran.stdout.splitlines()
    if (" tick 1000 span " in first) != (tick == 1000):
        raise Differs(f"the first line does not say its tick: {first}")
    span = tuple(time_of(word, tick) for word in first.split()[-2:])
    windows = [(time_of(line[1], tick), time_of(line[2], tick), line[3] if line[0] == "C" else None)
               for line in map(str.split, lines)]
    certain = sum(way is not None for _, _, way in windows)
    if end != f"END certain {certain} undecided {len(windows) - certain}":
        raise Differs(f"the last line counts otherwise: {end}")
    return span, windows


def place_of(window, coarse):
    """Which of the windows in seconds holds one in milliseconds."""
    for place, (first, last, _) in enumerate(coarse):
        if 1000 * (first - 1) < window[0] and window[1] <= 1000 * last:
            return place
    return None


def compare(seconds, milliseconds, in_any_direction):
    """Raises where a window in milliseconds lies in none in seconds, or one in seconds does not hold what it says. An
    undecided one may be of an event in the other direction, which the search in seconds knows and leaves out."""
    (from_second, to_second), coarse = seconds
    span, fine = milliseconds
    if span != (1000 * from_second, 1000 * to_second):
        raise Differs(f"the spans differ: {span}")
    held = [[] for _ in coarse]
    for window in fine:
        place = place_of(window, coarse)
        if place is not None:
            held[place].append(window[2])
        elif window[2] is not None or place_of(window, in_any_direction) is None:
            raise Differs(f"{window} in milliseconds lies in no window in seconds")
    for window, ways in zip(coarse, held):
        if window[2] is None:
            continue
        known = [way for way in ways if way is not None]
        if not ways or any(way != window[2] for way in known) or len(known) == len(ways) != 1:
            raise Differs(f"{window} in seconds holds {ways} in milliseconds")


def spans(rng, whole, events, number):
    """Spans of each length: every other one is near an event, where there are some, and may begin or end at it."""
    start, end = whole
    for length in LENGTHS:
        for turn in range(number):
            if events and turn % 2 == 0:
                begin = rng.choice(events) - rng.randrange(length + 1)
            else:
                begin = rng.randrange(start, end - length + 1)
            begin = min(max(begin, start), end - length)
            yield length, begin, begin + length


def options(rng, length):
    """A direction, and a cut that can reach a millisecond in this length."""
    cut = rng.choice(["half", "third"]) if length <= LONGEST_IN_THIRDS else "half"
    return [f"--dir={rng.choice(['any', 'any', 'rise', 'fall'])}", f"--cut={cut}"]


def compare_searches(program, file, kind, number):
    """The searches of a kind: how many spans, and how many windows in milliseconds and of them certain ones."""
    rng = random.Random(kind)
    made = windows = certain = 0
    for more in SEARCHES[kind]:
        words = ["--kind", kind, *more.split()]
        whole, found = search(program, file, words, 1)
        events = [last for _, last, way in found if way is not None]
        asked = [[]]
        for length, begin, end in spans(rng, whole, events, number):
            asked.append([f"--from={begin}", f"--to={end}", *options(rng, length)])
        for span in asked:
            ways = compare_search(program, file, words + span)
            made += 1
            windows += len(ways)
            certain += sum(way is not None for way in ways)
    if certain == 0:
        raise Differs("no search found an event")
    return made, windows, certain


def compare_search(program, file, words):
    """A search at both ticks: the directions of its windows in milliseconds."""
    try:
        milliseconds = search(program, file, words, 1000)
        in_any_direction = search(program, file, [word for word in words if not word.startswith("--dir")], 1)
        compare(search(program, file, words, 1), milliseconds, in_any_direction[1])
    except Differs as differs:
        raise Differs(f"find {' '.join(words)}: {differs}") from None
    return [way for _, _, way in milliseconds[1]]


def least_time(words):
    """The least time that passes, in milliseconds, in some runs of these words."""
    times = []
    for _ in range(TURNS):
        began = time.perf_counter()
        subprocess.run(words, stdout=subprocess.DEVNULL, check=True)
        times.append((time.perf_counter() - began) * 1e3)
    return min(times)


def count(program, nodes, file, kind, tick):
    """The nodes of a search over the whole file and its time without reading; the program and C find as many events."""
    words = ["--kind", kind, *COUNTED[kind].split()]
    _, windows = search(program, file, words, tick)
    ran = subprocess.run([nodes, kind, "1", file, str(tick)], capture_output=True, text=True, check=True).stdout.split()
    certain = sum(way is not None for _, _, way in windows)
    if int(ran[7]) != certain:
        raise Differs(f"find {' '.join(words)}: at tick {tick} {certain} certain windows, and in C {ran[7]}")
    spent = least_time([program, "find", *words, "--tick", str(tick), file]) - least_time([program, "check", file])
    return f"{certain} events, {len(windows) - certain} undecided, {ran[3]} nodes, {spent:.2f} ms"


def each(kinds, line):
    """Prints the line of each kind: how many differ."""
    differing = 0
    for kind in kinds:
        try:
            print(f"{kind}: {line(kind)}", flush=True)
        except Differs as differs:
            print(f"ticks: {kind}: {differs}", file=sys.stderr)
            differing += 1
    return differing


def main(program, nodes, file, spans_of_a_length):
    """Compares the searches of each kind, counts nodes and takes times, and prints a line for each."""
    def compared(kind):
        made, windows, certain = compare_searches(program, file, kind, int(spans_of_a_length))
        return f"{made} spans, {windows} windows in milliseconds, {certain} of them certain, each within one in seconds"

    def counted(kind):
        seconds, milliseconds = (count(program, nodes, file, kind, tick) for tick in (1, 1000))
        return f"in seconds {seconds}; in milliseconds {milliseconds}"

    differing = each(SEARCHES, compared) or each(COUNTED, counted)
    print(f"ticks: {differing} differ")
    return 1 if differing else 0


if __name__ == "__main__":
    sys.exit(main(*sys.argv[1:]))

"""The searches of a catalogue over a century of DE405, beside C in doubles that steps and bisects.

    century.py FINDER DOUBLES CENTURY CATALOGUE TURNS TIMES TICKS MACHINE

FINDER is the program, DOUBLES the peer as built of `doubles.c`, CENTURY the text, and CATALOGUE has a line for each search:
its name, its options, and the peer's step, which is made so many TIMES as long. A second has so many TICKS for
FINDER, and the peer stays in seconds. Each search is made by FINDER with one worker and with four, which have to write the
same bytes, and by DOUBLES whose numbers are read by strtod and by eight digits, turn about. Before the first turn DOUBLES
reads each number of the text in both ways, and the doubles have to be the same. It prints a table in Markdown, what came of
all searches, and the rows that README.md has of them, with the name of the MACHINE. Times are those of the processor, user
and system together, the least of so many turns.

An event of the peer is the first second of a new sign. It belongs to a certain window of its direction that it lies in, or
is a second away from, as doubles round; each window takes one. The peer missed a certain window to which no event belongs.
An event that belongs to no window, and is not in an undecided one either or a second away, is one too many.
"""
import datetime
import os
import re
import statistics
import sys
import tempfile
import time

from rows import line_of, show, stamp

UNITS = {"m": 60, "h": 3600, "d": 86_400}
YEAR = 31_557_600  # seconds
NOON = datetime.datetime(2000, 1, 1, 12)
TOLERANCE = 1
READERS = {"strtod": "C by strtod", "eights": "C by eight digits"}


class Command:
    """A command, with the least times of its runs, its peak of memory, and what it printed at last."""

    def __init__(self, *words):
        self.words = words
        self.processor = self.elapsed = float("inf")
        self.peak = 0
        self.printed = ""

    def run(self):
        """Runs it once more."""
        with tempfile.TemporaryFile() as out:
            began = time.monotonic()
            to_file = (os.POSIX_SPAWN_DUP2, out.fileno(), 1)
            child = os.posix_spawn(self.words[0], self.words, os.environ, file_actions=[to_file])
            _, status, used = os.wait4(child, 0)
            elapsed = time.monotonic() - began
            out.seek(0)
            self.printed = out.read().decode("ascii")
        if status:
            sys.exit(f"century.py: status {os.waitstatus_to_exitcode(status)} of {' '.join(self.words)}")
        self.processor = min(self.processor, used.ru_utime + used.ru_stime)
        self.elapsed = min(self.elapsed, elapsed)
        self.peak = max(self.peak, used.ru_maxrss / 1024)


class Search:
    """A line of the catalogue: its name, options and step; its commands, two of FINDER and one for each reader of the peer."""

    def __init__(self, line, times, ticks, finder, doubles, text):
        self.name, options, step = (part.strip() for part in line.split("|"))
        words = options.split()
        count, unit = int(step[:-1]) * times, step[-1]
        self.step = f"{count}{unit}"
        step = str(count * UNITS[unit])
        tick = ["--tick", ticks] if ticks != "1" else []
        self.one = Command(finder, "find", *words, *tick, text)
        self.four = Command(finder, "find", *words, *tick, "--workers", "4", text)
        self.peers = {
            reader: Command(doubles, "find", "--reader", reader, "--step", step, *words, text) for reader in READERS
        }

    def run(self):
        """Runs each command once more."""
        for command in self.commands():
            command.run()
        if self.one.printed != self.four.printed:
            sys.exit(f"century.py: four workers differ: {self.name}")
        if len({peer.printed for peer in self.peers.values()}) > 1:
            sys.exit(f"century.py: the two readers of C differ: {self.name}")

    def commands(self):
        """One worker, four, and the peers."""
        return self.one, self.four, *self.peers.values()

    def ratio(self, reader):
        """The whole time of one worker to that of a peer, each with its reading."""
        return self.one.processor / self.peers[reader].processor


def second(text):
    """The seconds since J2000 of a time that is printed."""
    return int((datetime.datetime.fromisoformat(text) - NOON).total_seconds())


def windows_of(report):
    """The certain windows of a report as (first, last, direction), and the undecided ones as (first, last)."""
    certain = [(second(a), second(b), way) for a, b, way in re.findall(r"^C (\S+) (\S+) (\S+)$", report, re.M)]
    undecided = [(second(a), second(b)) for a, b in re.findall(r"^U (\S+) (\S+)$", report, re.M)]
    ends = re.findall(r"^END certain (\d+) undecided (\d+)$", report, re.M)
    if ends != [(str(len(certain)), str(len(undecided)))]:
        sys.exit("century.py: a report without its windows")
    return certain, undecided


def is_near(time_of_event, first, last):
    """Whether an event lies in a window, or as near to it as doubles may round."""
    return first - TOLERANCE <= time_of_event <= last + TOLERANCE


def differences(certain, undecided, events):
    """How many certain windows no event belongs to, and how many events belong to no window. Both are in order of time."""
    missed, strays = 0, []
    for way in ("rise", "fall"):
        left = [event for event, its_way in events if its_way == way]
        for first, last, _ in (window for window in certain if window[2] == way):
            while left and left[0] < first - TOLERANCE:
                strays.append(left.pop(0))
            if left and is_near(left[0], first, last):
                left.pop(0)
            else:
                missed += 1
        strays += left
    return missed, sum(not any(is_near(event, *window) for window in undecided) for event in strays)


def row(search, reading):
    """Prints a line of the table, and returns the four counts that are summed."""
    certain, undecided = windows_of(search.one.printed)
    events = [(int(at), way) for at, way in (line.split() for line in search.peers["strtod"].printed.splitlines())]
    missed, strays = differences(certain, undecided, events)
    cells = [
        search.name,
        f"{search.one.processor:.2f}",
        f"{search.four.processor:.2f}",
        f"{search.one.processor - reading:.2f}",
        len(certain),
        len(undecided),
        search.step,
        len(events),
        missed,
        strays,
    ]
    for reader, peer in search.peers.items():
        cells += [f"{peer.processor:.2f}", f"{search.ratio(reader):.2f}"]
    print(line_of(cells))
    return len(certain), len(undecided), missed, strays


HEAD = """\
| Search | finder, 1 worker | 4 workers | 1, without reading | Certain | Undecided | Step | Events | Missed | Too many \
| C by strtod | Ratio | C by eight digits | Ratio |
|---|---|---|---|---|---|---|---|---|---|---|---|---|---|"""


def worst(searches, reader):
    """The greatest ratio to a peer, and its search."""
    found = max(searches, key=lambda search: search.ratio(reader))
    return f"{found.ratio(reader):.2f} ({found.name})"


def median(searches, reader):
    """The median of the ratios to a peer."""
    return f"{statistics.median(search.ratio(reader) for search in searches):.2f}"


def slower(searches, reader):
    """How many searches take longer than a peer."""
    return f"{sum(search.ratio(reader) > 1 for search in searches)} of {len(searches)}"


def summary(searches):
    """Prints what came of all searches."""
    for reader, peer in READERS.items():
        print(f"slower than {peer}: {slower(searches, reader)}; ratios of whole times: median {median(searches, reader)}, "
              f"worst {worst(searches, reader)}")
    for name, times in (("the processor", lambda run: run.processor), ("the time that passed", lambda run: run.elapsed)):
        sums = [sum(map(times, runs)) for runs in zip(*(search.commands() for search in searches))]
        print(f"sums of {name}: one worker {sums[0]:.2f} s, four {sums[1]:.2f} s, C by strtod {sums[2]:.2f} s, "
              f"by eight digits {sums[3]:.2f} s")


def total(commands):
    """The times of commands together."""
    return f"{sum(command.processor for command in commands):.2f} s"


def years_of(check):
    """The years that a text has, by its `check`."""
    start, end = map(second, re.match(r"CHECK start (\S+) end (\S+)", check.printed).groups())
    return f"{(end - start) / YEAR:.0f} years"


def show_rows(searches, check, by_c, unit, stamped):
    """Prints the rows for README.md."""
    years = years_of(check)
    whole = f"{years} in {unit}"
    peers = [total(search.peers[reader] for search in searches) for reader in READERS]
    rows = [
        [f"{whole}: {len(searches)} searches together", total(search.one for search in searches), *peers],
        [f"{whole}: median of the ratios", "", *(median(searches, reader) for reader in READERS)],
        [f"{whole}: worst ratio", "", *(worst(searches, reader) for reader in READERS)],
        [f"{whole}: searches that take longer than C", "", *(slower(searches, reader) for reader in READERS)],
        [f"{years}: a reading alone", *(f"{1000 * run.processor:.0f} ms" for run in (check, *by_c.values()))],
    ]
    show(["What", "`finder`", *READERS.values(), "Date", "Machine", "Program"], [[*row, *stamped] for row in rows])


def readings(check, by_c, searches):
    """Prints the readings alone, and the new moons beside them."""
    print(f"a reading by finder check: {check.processor:.3f} s of the processor, peak {check.peak:.1f} MB")
    for reader, run in by_c.items():
        print(f"a reading by {READERS[reader]}: {run.processor:.3f} s of the processor, peak {run.peak:.1f} MB")
    for search in searches:
        if search.name == "new moons":
            a, b, c = search.one.processor, 3 * check.processor, 3 * by_c["strtod"].processor
            print(f"new moons with their reading: {a:.2f} s, peak {search.one.peak:.1f} MB, {a / b:.2f} times three readings "
                  f"by finder check, {a / c:.2f} times three by C by strtod")


def load():
    """The loads of the last minute, of five and of fifteen."""
    return ", ".join(f"{x:.1f}" for x in os.getloadavg())


def searches_of(catalogue, *others):
    """The searches of a catalogue."""
    with open(catalogue, encoding="ascii") as file:
        return [Search(line, *others) for line in file if line.strip() and not line.startswith("#")]


def main():
    """The command."""
    finder, doubles, text, catalogue, turns, times, ticks, machine = sys.argv[1:]
    searches = searches_of(catalogue, int(times), ticks, finder, doubles, text)
    check, by_c = Command(finder, "check", text), {it: Command(doubles, "reading", it, text) for it in READERS}
    compared = Command(doubles, "compare", text)
    compared.run()
    before = load()
    for _ in range(int(turns)):
        for run in (check, *by_c.values(), *searches):
            run.run()
    print(f"{os.path.getsize(text)} bytes; the least of {turns} turns; seconds of the processor, user and system; "
          f"{os.cpu_count()} processors, load before {before}, after {load()}\n")
    print(HEAD)
    counts = [row(search, check.processor) for search in searches]
    print()
    print("in all: certain %d, undecided %d, missed by C %d, too many %d" % tuple(map(sum, zip(*counts))))
    print(f"both readers of C: {compared.printed.strip()}")
    summary(searches)
    readings(check, by_c, searches)
    date, program = stamp(finder)
    show_rows(searches, check, by_c, "seconds" if ticks == "1" else "milliseconds", [date, machine, program])


if __name__ == "__main__":
    main()

"""How the time of searches grows with the span that they search.

    growth.py FINDER SOURCE TEXT CATALOGUE TURNS MOST

FINDER is the program, SOURCE a text of DE405, and CATALOGUE has the options of each search. TEXT is written with 128
blocks of SOURCE, repeated with running dates, and with twice as many again and again, up to MOST; what is more than a
file may hold goes to TEXT-2 and so on. Times are those of the processor with one worker, user and system together, the
least of so many turns, less that of a reading by `finder check`. It prints a table in Markdown.
"""

import itertools
import sys

import texts
from century import Command

FIRST_BLOCKS = 128
MAX_BLOCKS = 8_192  # of one file: twice as many blocks of DE405 are more bytes than a file may have
SEARCHES = [
    "apsides of the Moon",
    "nodes of the Moon",
    "new moons",
    "least and greatest angles of the Moon and the Sun",
    "stations of Mercury",
    "the Moon before the Sun",
    "conjunctions of Mercury and Venus",
    "conjunctions of Jupiter and Saturn",
]


def options_of(catalogue):
    """The options of each search of a catalogue, by its name."""
    with open(catalogue, encoding="ascii") as file:
        rows = [line.split("|") for line in file if not line.startswith("#")]
    return {name.strip(): options.split() for name, options, _ in rows}


def seconds(turns, *words):
    """The least time of the processor of so many runs of a command."""
    command = Command(*words)
    for _ in range(turns):
        command.run()
    return command.processor


def counts(most):
    """The numbers of blocks: the first, and twice as many again and again."""
    return list(itertools.takewhile(lambda count: count <= most, (FIRST_BLOCKS << k for k in itertools.count())))


def written(text, source, count):
    """Writes the header and so many blocks, and returns the names of the files."""
    parts = itertools.islice(texts.repeated(source), count + 1)
    names = []
    for first in range(0, count, MAX_BLOCKS):
        names.append(text if first == 0 else f"{text}-{first // MAX_BLOCKS + 1}")
        texts.write(names[-1], itertools.islice(parts, MAX_BLOCKS + (first == 0)))
    return names


def measured(finder, source, text, options, turns, most):
    """The microseconds a block of each search, at each number of blocks."""
    found = {name: [] for name in SEARCHES}
    for count in counts(most):
        files = written(text, source, count)
        reading = seconds(turns, finder, "check", *files)
        for name in SEARCHES:
            time = seconds(turns, finder, "find", *options[name], *files) - reading
            found[name].append(1_000_000 * time / count)
    return found


def main(finder, source, text, catalogue, turns, most):
    found = measured(finder, source, text, options_of(catalogue), int(turns), int(most))
    heads = ["Search", *[f"{count:,} blocks" for count in counts(int(most))], "Greatest to first"]
    print(f"| {' | '.join(heads)} |\n|{'---|' * len(heads)}")
    for name, times in found.items():
        cells = [name, *[f"{time:.0f} us" for time in times], f"{max(times) / times[0]:.2f}"]
        print(f"| {' | '.join(cells)} |")


if __name__ == "__main__":
    if len(sys.argv) != 7:
        sys.exit(__doc__)
    main(*sys.argv[1:])

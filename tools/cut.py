#!/usr/bin/env python3
"""Cuts JPL ephemeris files in ASCII form into parts that `finder` reads.

    tools/cut.py [--blocks N] [--header each|first] PREFIX FILE..

The files are read in their order, as `finder` reads them: a header, then blocks, as `header.441` and `ascp01000.441`.
The parts are PREFIX-0001.asc, PREFIX-0002.asc and so on. Each has the blocks that follow, byte for byte, and the header,
whose dates are those at which the part begins and ends; the days of a block stay. The last block of a part is the first
of the next, so searches of each part up to the date at which the next one begins find the events that are in all of it.

    --blocks N        so many blocks a part at most, 2 to 16384 (16384)
    --header first    the first part alone has the header, with the dates of all of them, so that one run reads the parts
                      together: finder .. PREFIX-*.asc

A part has at most 268,435,456 bytes. Blocks that begin before Julian date 0 or end after 5,000,000 are left out, as
`finder` reads none of them. Printed is a line for each part. What a header says beyond its dates, and whether the
numbers of a block keep to their limits, is for `finder check` to say of a part.

Status: 0 all parts were written; 1 the files are no such files; 2 the words; 3 a file could not be read or written, or a
part is there already. With each but 0 no part is left. Until all are whole and on the disk, they are in a folder of their
own beside their place, `.finder-*.new`; that of a run that was killed is removed by the next one. It needs no numpy.
"""
import argparse
import contextlib
import os
import re
import signal
import sys
from decimal import Decimal
from fractions import Fraction
from pathlib import Path

CLONE = Path(__file__).resolve().parent.parent / "python"
if (CLONE / "finder").is_dir():
    sys.path.insert(0, str(CLONE))

from finder.commands.streams import write  # noqa: E402
from finder.process.messages import fault_of, shown  # noqa: E402
from finder.process.whole_files import named, new_folder, sweep, sync, sync_folder  # noqa: E402

MAX_BYTES = 268_435_456
MAX_BLOCKS = 16_384
MAX_LINE = 4_096
LAST_DATE = 5_000_000
DAY = 86_400
DATE_WIDTH = 16

DECIMAL = rb"[+-]?(?:[0-9]+(?:\.[0-9]*)?|\.[0-9]+)(?:[DdEe][+-]?[0-9]+)?"
NUMBERS = re.compile(rb"[ \t]*" + DECIMAL + rb"(?:[ \t]+" + DECIMAL + rb")*[ \t]*")
WORD = re.compile(rb"[^ \t]+")
WHOLE = re.compile(rb"[0-9]{1,9}")
DATE = re.compile(rb"([+-]?(?:[0-9]+(?:\.[0-9]*)?|\.[0-9]+))(?:[DdEe]([+-]?0*[0-9]{1,2}))?")


class Refused(Exception):
    """The files are no such files."""


def bare(line):
    """A line without its end."""
    return line.removesuffix(b"\n").removesuffix(b"\r")


class Source:
    """The lines of all files in their order, and where the last one stood."""

    def __init__(self, names):
        self.names = names
        self.place = "no file"

    def lines(self):
        """Each line with its end; the last of a file is given one."""
        for name in self.names:
            self.place = shown(name)
            with named(name):
                file = open(name, "rb")
            with file:
                yield from self.lines_of(name, file)

    def lines_of(self, name, file):
        """Each line of a file."""
        number = 0
        while line := self.line_of(name, file):
            number += 1
            self.place = f"{shown(name)} line {number}"
            if len(bare(line)) > MAX_LINE:
                raise Refused(f"it has more than {MAX_LINE} bytes")
            yield line if line.endswith(b"\n") else line + b"\n"

    def line_of(self, name, file):
        """The next line of a file, as far as it is read at once."""
        with named(name):
            return file.readline(MAX_LINE + 3)


def date_of(word):
    """A date or a count of days, exactly: a decimal that is a whole number of seconds."""
    written = DATE.fullmatch(word)
    if not written or len(word) > 40:
        raise Refused(f"{shown(word.decode(errors='replace'))} is no date")
    date = Fraction(Decimal(written[1].decode())) * Fraction(10) ** int(written[2] or 0)
    if (date * DAY).denominator != 1:
        raise Refused(f"{word.decode()} is no whole number of seconds")
    return date


def date_text(date):
    """A date as a header has it: two digits behind the point, or as many as it needs."""
    digits = next(n for n in range(2, 8) if (date * 10**n).denominator == 1)
    whole = f"{int(date * 10**digits):0{digits + 1}}"
    return f"{whole[:-digits]}.{whole[-digits:]}"


class Header:
    """A header: its lines before and after that of the dates, and what is needed of them."""

    def __init__(self, lines):
        self.before, self.after, self.ncoeff, self.days, self.rest = [], [], None, None, b""
        self.read(lines)

    def read(self, lines):
        """The lines up to `GROUP 1070`, each group in its place."""
        groups = [b"1010", b"1030", b"1040", b"1041", b"1050", b"1070"]
        met, dates, size = 0, False, 0
        for line in lines:
            size += len(line)
            if size > MAX_BYTES // 2:
                raise Refused("the header has no end")
            words = WORD.findall(bare(line))
            if dates and words:
                self.read_dates(line, words)
                dates = False
                continue
            (self.before if self.days is None else self.after).append(line)
            if words and self.ncoeff is None:
                self.read_first(words)
            elif words[:1] == [b"GROUP"]:
                if words != [b"GROUP", groups[met]]:
                    raise Refused(f"GROUP {groups[met].decode()} is not here")
                if words[1] == b"1070":
                    return
                met, dates = met + 1, words[1] == b"1030"
        raise Refused("the files end within the header")

    def read_first(self, words):
        """The first line."""
        if len(words) != 4 or words[0] != b"KSIZE=" or words[2] != b"NCOEFF=" or not WHOLE.fullmatch(words[3]):
            raise Refused("it is not the first line of such a file: KSIZE= .. NCOEFF= ..")
        self.ncoeff = int(words[3])
        if not 3 <= self.ncoeff <= 4_096:
            raise Refused("NCOEFF is not from 3 to 4096")

    def read_dates(self, line, words):
        """The line of the dates; what follows them is kept."""
        if len(words) < 3:
            raise Refused("it has not three numbers")
        _, _, self.days = map(date_of, words[:3])
        if self.days <= 0:
            raise Refused("a block has no days")
        self.rest = line[[word.end() for word in WORD.finditer(line)][1]:]

    def text(self, start, end):
        """The header with these dates; its length is the same for all dates."""
        dates = f"{date_text(start):>{DATE_WIDTH}}{date_text(end):>{DATE_WIDTH}}".encode()
        return b"".join([*self.before, dates, self.rest, *self.after])


class Block:
    """A block: its dates, and its lines as they stand."""

    def __init__(self, start, end, text):
        self.start, self.end, self.text = start, end, text


def read_block(header, record, lines):
    """The block that begins with this line."""
    words = WORD.findall(bare(record))
    if len(words) != 2 or not all(map(WHOLE.fullmatch, words)) or int(words[1]) != header.ncoeff:
        raise Refused(f"it does not begin a block of {header.ncoeff} numbers")
    kept, dates, count = [record], [], 0
    for line in lines:
        if not bare(line).strip(b" \t"):
            continue
        if not NUMBERS.fullmatch(bare(line)):
            raise Refused("it has a word that is no number")
        found = line.split()
        dates += map(date_of, found[:2 - len(dates)])
        count += len(found)
        kept.append(line)
        if count >= header.ncoeff:
            break
    else:
        raise Refused("the files end within a block")
    start, end = dates
    if end - start != header.days:
        raise Refused("the block that ends here is not as long as the header says")
    return Block(start, end, b"".join(kept))


def blocks(header, lines, left_out):
    """The blocks in order, each once; counts those that are out of range."""
    last = None
    for line in lines:
        if not bare(line).strip(b" \t"):
            continue
        block = read_block(header, line, lines)
        if last is not None and block.end <= last:
            continue
        if last is not None and block.start != last:
            raise Refused("the block that ends here does not begin where the one before it ended")
        last = block.end
        if block.start < 0 or block.end > LAST_DATE:
            left_out.append(block.end)
        else:
            yield block


class Part:
    """A part as it is written, in a folder that is not yet its place."""

    def __init__(self, name, folder, header):
        if os.path.lexists(name):
            raise FileExistsError(17, "it is there already", name)
        self.name, self.new = name, folder / os.path.basename(name)
        self.header, self.count, self.start, self.end = header, 0, None, None
        with named(name):
            self.file = open(self.new, "xb")
            self.size = self.file.write(header.text(Fraction(0), Fraction(0))) if header else 0

    def add(self, block):
        """One more block."""
        if self.start is None:
            self.start = block.start
        self.end = block.end
        self.count += 1
        with named(self.name):
            self.size += self.file.write(block.text)

    def finish(self, end):
        """Writes the header again, with its dates, brings the file to the disk and closes it."""
        with named(self.name):
            if self.header:
                self.file.seek(0)
                self.file.write(self.header.text(self.start, end))
            sync(self.file)
            self.file.close()

    def keep(self):
        """Puts the part in its place."""
        if os.path.lexists(self.name):
            raise FileExistsError(17, "it is there already", self.name)
        with named(self.name):
            os.rename(self.new, self.name)


class Parts:
    """All parts of a run, which are written in a folder of their own. Those that were put in their places are removed,
    unless all of them are kept."""

    def __init__(self, prefix, folder, header, most, each):
        self.prefix, self.folder, self.header, self.most, self.each = prefix, folder, header, most, each
        self.made, self.kept = [], []

    def add(self, block, before):
        """Adds a block to the last part or to a new one, which begins with the block before."""
        part = self.made[-1] if self.made else None
        if part is None or part.count == self.most or part.size + len(block.text) > MAX_BYTES:
            if part is not None and (self.each or part.header is None):
                part.finish(part.end)
            name = f"{self.prefix}-{len(self.made) + 1:04}.asc"
            part = Part(name, self.folder, self.header if self.each or not part else None)
            self.made.append(part)
            if before is not None:
                part.add(before)
        part.add(block)

    def keep(self):
        """Puts all parts in their places."""
        end = self.made[-1].end
        for part in self.made:
            if not part.file.closed:
                part.finish(part.end if self.each else end)
        for part in self.made:
            self.kept.append(part.name)
            try:
                part.keep()
            except BaseException:
                self.kept.pop()
                raise
        place = os.path.dirname(os.path.abspath(self.prefix))
        with named(place):
            sync_folder(Path(place))

    def remove(self):
        """Removes what was put in its place."""
        for name in self.kept:
            with contextlib.suppress(OSError):
                os.remove(name)

    def lines(self):
        """What is printed of each part."""
        return [
            f"{part.name} start {date_text(part.start)} end {date_text(part.end)} blocks {part.count}\n"
            for part in self.made
        ]


def cut(parts, source_blocks):
    """Writes the parts."""
    before = None
    for block in source_blocks:
        parts.add(block, before)
        before = block
    if not parts.made:
        raise Refused("no block lies within Julian date 0 to 5000000")
    parts.keep()


def ask():
    """The words, or None where help is asked for."""
    usage = "tools/cut.py [--blocks N] [--header each|first] PREFIX FILE.. (or --help)"
    parser = argparse.ArgumentParser(prog="cut", usage=usage, add_help=False, allow_abbrev=False)
    parser.add_argument("--blocks", type=int, default=MAX_BLOCKS)
    parser.add_argument("--header", choices=["each", "first"], default="each")
    parser.add_argument("--help", action="store_true")
    parser.add_argument("words", nargs="*")
    words = parser.parse_intermixed_args()
    if words.help:
        return None
    if len(words.words) < 2:
        parser.error("it needs a PREFIX and a FILE")
    if not 2 <= words.blocks <= MAX_BLOCKS:
        parser.error("--blocks is not from 2 to 16384")
    return words


def cut_files(words, source):
    """Writes the parts and says what they are; where anything fails, none is left."""
    left_out = []
    lines = source.lines()
    header = Header(lines)
    place = Path(os.path.dirname(os.path.abspath(words.words[0])))
    sweep(place)
    with new_folder(place) as folder:
        parts = Parts(words.words[0], folder, header, words.blocks, words.header == "each")
        try:
            cut(parts, blocks(header, lines, left_out))
            said = parts.lines()
            if left_out:
                said.append(f"left out {len(left_out)} blocks before 0 or after 5000000\n")
            write(os.fsencode("".join(said)))
        except BaseException:
            parts.remove()
            raise


def main():
    """The command."""
    for number in (signal.SIGINT, signal.SIGTERM):
        signal.signal(number, lambda number, _: sys.exit(128 + number))
    words = ask()
    source = Source(words.words[1:] if words else [])
    try:
        if words:
            cut_files(words, source)
        else:
            write(os.fsencode(__doc__))
    except Refused as error:
        print(f"cut: {source.place}: {error}", file=sys.stderr)
        sys.exit(1)
    except OSError as error:
        print(f"cut: {fault_of(error)}", file=sys.stderr)
        sys.exit(3)


if __name__ == "__main__":
    main()

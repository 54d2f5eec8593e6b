#!/usr/bin/env python3
"""Tables in Markdown that measurements print, and their way into a document.

    rows.py DOCUMENT

reads what measurements printed from standard input. A table whose head DOCUMENT has too gives its rows: each replaces
the row of DOCUMENT's table with the same first cell, or comes last where there is none. All else that was printed is passed
over. It prints the rows that were replaced, which belong into the history, and how many it wrote. It ends with 1 if no
table was found.
"""

import datetime
import hashlib
import sys

LETTERS = 8  # of a checksum, by which a program is named


def stamp(program):
    """Today's date, and the first letters of a program's checksum, as cells."""
    with open(program, "rb") as file:
        checksum = hashlib.sha256(file.read()).hexdigest()
    return [datetime.date.today().isoformat(), f"`{checksum[:LETTERS]}`"]


def line_of(cells):
    """A row as a line."""
    return f"| {' | '.join(map(str, cells))} |"


def show(head, rows):
    """Prints a table after an empty line."""
    print()
    print(line_of(head))
    print("|" + "---|" * len(head))
    for row in rows:
        print(line_of(row))


def first_cell(line):
    """The first cell of a row."""
    return line.split("|")[1].strip()


def tables(lines):
    """The place of each table's head, and the end of its rows."""
    for at, line in enumerate(lines[:-1]):
        if line.startswith("|") and lines[at + 1].startswith("|---"):
            end = at + 2
            while end < len(lines) and lines[end].startswith("|"):
                end += 1
            yield at, end


def put(page, head, new):
    """Puts rows into the table of a page with this head, and returns which it replaces, or None if there is no such table."""
    for at, end in tables(page):
        if page[at] == head:
            old = page[at + 2 : end]
            rows = {first_cell(line): line for line in [*old, *new]}
            page[at + 2 : end] = rows.values()
            return [line for line in old if line not in page]
    return None


def main(document):
    """The command."""
    with open(document, encoding="utf-8") as file:
        page = file.read().split("\n")
    printed = sys.stdin.read().split("\n")
    count = 0
    for at, end in tables(printed):
        old = put(page, printed[at], printed[at + 2 : end])
        if old is not None:
            print(*old, sep="\n", end="\n" * bool(old))
            count += end - at - 2
    if not count:
        sys.exit(f"rows.py: nothing that was printed has the head of a table of {document}")
    with open(document, "w", encoding="utf-8") as file:
        file.write("\n".join(page))
    print(f"{document}: {count} rows")


if __name__ == "__main__":
    if len(sys.argv) != 2:
        sys.exit(__doc__)
    main(sys.argv[1])

"""The stored cases: runs of the program with their exact answers, in the format that tests/cases/README.md describes.

This is the one module that reads and writes that format.

    >>> [case] = cases_of(text_of_cases([Case("empty", [b"check"], status=2)]))
    >>> case.name, case.words
    ('empty', [b'check'])
"""

from __future__ import annotations

import hashlib
import re
from dataclasses import dataclass, field
from pathlib import Path
from typing import Iterable, Iterator, Optional

TOP = Path(__file__).resolve().parents[2]
CASES = TOP / "tests" / "cases"
DEVICES = ("shelf", "out-sink", "err-sink")


class CasesError(Exception):
    """A file of cases is not in their format, or not the one that tests/cases/README.md lists."""


@dataclass
class Case:
    """A run: its words and files, what its devices can do, and what it is to return and to write."""

    name: str
    words: list[bytes] = field(default_factory=list)
    files: dict[bytes, bytes] = field(default_factory=dict)
    devices: dict[str, str] = field(default_factory=dict)
    status: Optional[int] = None
    out: bytes = b""
    err: bytes = b""


class Records:
    """What is left of a packed text."""

    def __init__(self, text: bytes) -> None:
        self.text = text
        self.at = 0

    def is_at_end(self) -> bool:
        """Whether every record was read."""
        return self.at == len(self.text)

    def piece(self, length: int) -> bytes:
        """So many bytes, and the line feed behind them, which is passed."""
        end = self.at + length
        if length < 0 or self.text[end : end + 1] != b"\n":
            raise ValueError("no line feed behind a piece")
        piece = self.text[self.at : end]
        self.at = end + 1
        return piece

    def line(self) -> list[str]:
        """The words of the next line."""
        end = self.text.index(b"\n", self.at)
        return self.piece(end - self.at).decode().split(" ")


def add_record(case: Case, records: Records, kind: str, words: list[str], texts: dict[str, bytes]) -> None:
    """Adds to a case what one of its records says."""
    if kind in DEVICES:
        numbers = [int(word) for word in words]
        case.devices[kind] = " ".join(map(str, numbers))
    elif kind == "status":
        case.status = int(words[0])
    elif kind == "word":
        case.words.append(records.piece(int(words[0])))
    elif kind == "file":
        name = records.piece(int(words[1]))
        if name in case.files:
            raise ValueError("a file of a name that is taken")
        case.files[name] = texts[words[0]]
    elif kind == "out":
        case.out = records.piece(int(words[0]))
    elif kind == "err":
        case.err = records.piece(int(words[0]))
    else:
        raise ValueError(f"no record of a case begins with {kind}")


def next_case(records: Records, name: str, texts: dict[str, bytes]) -> Case:
    """The case of this name, whose records come next, up to its end."""
    case = Case(name)
    while True:
        kind, *words = records.line()
        if kind == "end":
            break
        add_record(case, records, kind, words, texts)
    if case.status is None:
        raise ValueError(f"the case {name} has no status")
    return case


def cases_of(text: bytes) -> Iterator[Case]:
    """The cases of a packed text, in order."""
    records = Records(text)
    texts: dict[str, bytes] = {}
    while not records.is_at_end():
        at = records.at
        try:
            kind, *words = records.line()
            if kind == "text":
                texts[words[0]] = records.piece(int(words[1]))
                continue
            if kind != "case":
                raise ValueError(f"{kind} stands outside of a case")
            case = next_case(records, words[0], texts)
        except (ValueError, KeyError, IndexError) as error:
            raise CasesError(f"the record at byte {at} is not in the format of cases: {error}") from error
        yield case


def sized(head: str, piece: bytes) -> bytes:
    """A record that ends in the length of a piece, and the piece."""
    return b"%s %d\n%s\n" % (head.encode(), len(piece), piece)


def text_of_case(case: Case) -> bytes:
    """The records of a case; the texts of its files stand before them."""
    devices = [f"{kind} {case.devices[kind]}\n".encode() for kind in DEVICES if kind in case.devices]
    return b"".join(
        (
            b"case %s\n" % case.name.encode(),
            *(sized("word", word) for word in case.words),
            *(sized(f"file {text_name(text)}", name) for name, text in case.files.items()),
            *devices,
            b"status %d\n" % (case.status or 0),
            sized("out", case.out),
            sized("err", case.err),
            b"end\n",
        )
    )


def text_name(text: bytes) -> str:
    """The name under which a file of cases keeps a text: the start of its checksum."""
    return hashlib.sha256(text).hexdigest()[:12]


def text_of_cases(cases: Iterable[Case]) -> bytes:
    """The packed text of cases: each text of a file stands once, before the first case that has it."""
    kept: set[str] = set()
    records = []
    for case in cases:
        for text in case.files.values():
            name = text_name(text)
            if name not in kept:
                kept.add(name)
                records.append(sized(f"text {name}", text))
        records.append(text_of_case(case))
    return b"".join(records)


def listed_counts() -> dict[str, int]:
    """How many cases each file has, as the table of tests/cases/README.md says."""
    rows = re.findall(r"^\| `([\w-]+\.cases)` \| (\d+) \|", (CASES / "README.md").read_text("utf-8"), re.MULTILINE)
    return {name: int(count) for name, count in rows}


def write_cases(name: str, cases: list[Case]) -> None:
    """Writes a file of cases anew, at once, and how many it has into the table of tests/cases/README.md."""
    table = CASES / "README.md"
    row = re.compile(rf"^(\| `{re.escape(name)}` \| )\d+( \|)", re.MULTILINE)
    texts = {CASES / name: text_of_cases(cases)}
    texts[table] = row.sub(rf"\g<1>{len(cases)}\g<2>", table.read_text("utf-8")).encode()
    for path, text in texts.items():
        if path.read_bytes() != text:
            new = path.with_name(f"{path.name}.new")
            new.write_bytes(text)
            new.replace(path)


def read_cases(name: str) -> list[Case]:
    """The cases of a file, which are as many as tests/cases/README.md lists."""
    listed = listed_counts()
    if name not in listed:
        raise CasesError(f"{name} is not in the table of tests/cases/README.md")
    try:
        cases = list(cases_of((CASES / name).read_bytes()))
    except CasesError as error:
        raise CasesError(f"{name}: {error}") from error
    except OSError as error:
        raise CasesError(f"{name} cannot be read: {error.strerror}") from error
    if len(cases) != listed[name]:
        raise CasesError(f"{name} has {len(cases)} cases, and the table of tests/cases/README.md says {listed[name]}")
    return cases

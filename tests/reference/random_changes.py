"""Changes made at random: of texts of files, of certificates, and of the words of command lines."""

from __future__ import annotations

from random import Random
from typing import Callable, Optional, Sequence

from .random_files import Draft, Files, text_of

Change = Callable[[Random, list[str], int], None]
"""Changes lines in place, at one of them."""

TOKENS = (
    ["x", "0", "1", "1.5", "-1", "+3", "0.0", "1e99", "1e100", "1e-99", ".", ".5", "5.", "-.5D0", "1D+", "1d5", "-0"]
    + ["1234567890123456789", "0.000000000000000000001", "0" * 41, "0" * 40, "GROUP", "1010", "1000000000", "999999999"]
    + ["2451545.0003125", "5000000", "5000000.1", "68719476736", "68719476735.9", "-68719476736", "33", "4097", "2001"]
    + ["EMRAT", "NaN", "\x00", "\r", "\u00e9", "1 2", "", "0.5\r"]
)
LINES = ("", " ", "\t", "\r", "x", "GROUP 1030", "GROUP", "0.0", "1 26")
LONG_TAILS = ("x" * 4097, " " * 4090, "\t" * 5000, " " * 4200, "\r")
HEADER_LINES = 19


def _change_token(rng: Random, lines: list[str], at: int) -> None:
    tokens = lines[at].split(" ")
    tokens[rng.randrange(len(tokens))] = rng.choice(TOKENS)
    lines[at] = " ".join(tokens)


def _add_token(rng: Random, lines: list[str], at: int) -> None:
    tokens = lines[at].split(" ")
    tokens.insert(rng.randrange(len(tokens)), rng.choice(TOKENS))
    lines[at] = rng.choice([" ", "\t", "  \t "]).join(tokens)


def _drop_token(rng: Random, lines: list[str], at: int) -> None:
    tokens = lines[at].split(" ")
    del tokens[rng.randrange(len(tokens))]
    lines[at] = " ".join(tokens)


def _split_line(rng: Random, lines: list[str], at: int) -> None:
    tokens = lines[at].split(" ")
    cut = rng.randrange(len(tokens))
    lines[at : at + 1] = [" ".join(tokens[:cut]), " ".join(tokens[cut:])]


def _join_lines(_: Random, lines: list[str], at: int) -> None:
    lines[at : at + 2] = [" ".join(lines[at : at + 2])]


def _drop_line(_: Random, lines: list[str], at: int) -> None:
    del lines[at]


def _add_line(rng: Random, lines: list[str], at: int) -> None:
    lines.insert(at, rng.choice([rng.choice(lines), rng.choice(LINES)]))


def _lengthen_line(rng: Random, lines: list[str], at: int) -> None:
    lines[at] += rng.choice(LONG_TAILS)


def _end_text(rng: Random, lines: list[str], at: int) -> None:
    lines[at:] = [lines[at][: rng.randrange(len(lines[at]) + 1)]]


def _add_returns(rng: Random, lines: list[str], _: int) -> None:
    lines[:] = [line + rng.choice(["\r", "\r", ""]) for line in lines]


CHANGES: tuple[Change, ...] = (
    *[_change_token] * 3,
    *[_add_token, _drop_token, _split_line, _join_lines, _drop_line, _add_line, _add_line],
    *[_lengthen_line, _end_text, _add_returns],
)


def change_files(rng: Random, files: Files) -> Files:
    """The files with one to three changes, most of them in the header."""
    changed = dict(files)
    for _ in range(rng.choice([1, 1, 1, 2, 3])):
        name = rng.choice(list(changed))
        lines = changed[name].decode().split("\n")
        at = rng.randrange(min(len(lines), HEADER_LINES)) if rng.random() < 0.7 else rng.randrange(len(lines))
        rng.choice(CHANGES)(rng, lines, at)
        changed[name] = "\n".join(lines or [""]).encode()
    return changed


def edge_of_header(rng: Random, draft: Draft, files: Files) -> Files:
    """The files with a word of the first one at the edge of its rule."""
    lines = files[b"a"].decode().split("\n")
    rng.choice([_edge_of_span, _edge_of_constants, _edge_of_columns, _edge_of_columns, _edge_of_block])(rng, lines)
    if rng.random() < 0.1:
        sizes = ["KSIZE= 1 NCOEFF= 2", "KSIZE= 1 NCOEFF= 3", "KSIZE= 1 NCOEFF= 4097", "KSIZE= 1 NCOEFF="]
        lines[0] = rng.choice([*sizes, f"KSIZE= x NCOEFF= {draft.ncoeff}", f"KSIZE 1 NCOEFF= {draft.ncoeff} "])
    return {**files, b"a": "\n".join(lines).encode()}


def _edge_of_span(rng: Random, lines: list[str]) -> None:
    dates = ["2451545.1", "2451545.0003125", "-0.5", "0", "5000000", "5000000.5", "64", "64.0003125", "0.0003125"]
    tokens = lines[4].split(" ")
    tokens[rng.randrange(3)] = rng.choice([*dates, "1e99", "1e-99", "0.00001", "x", "1e100", "32", "65"])
    lines[4] = " ".join(tokens[: rng.choice([3, 3, 3, 2, 1])] + rng.choice([[], ["extra"]]))


def _edge_of_constants(rng: Random, lines: list[str]) -> None:
    counts = ["0", "1", "2", "3", "2000", "2001", "x", "1000000000", "1 9"]
    names = ["EMRAT", "emrat", "A EMRAT", "EMRAT A B C", "A\nEMRAT"]
    values = ["1", "1000", "0.999999", "1000.0001", "1e3", "1e-1", "x", "1e100", "81 82 83", "", "12345678901234567890"]
    at, words = rng.choice([(6, counts), (9, counts), (7, names), (10, values), (10, values)])
    lines[at] = rng.choice(words)


def _edge_of_columns(rng: Random, lines: list[str]) -> None:
    at = rng.choice([12, 13, 14])
    tokens = lines[at].split(" ")
    edges = ["0", "1", "2", "3", "5", "7", "32", "33", "100", "999999999", "x", "1000000000", "-1"]
    tokens[rng.randrange(len(tokens))] = rng.choice(edges)
    lines[at] = " ".join(tokens + ["0"] * rng.choice([0, 0, 0, 0, 0, 0, 1, 2, 3]))


def _edge_of_block(rng: Random, lines: list[str]) -> None:
    numbers = [at for at, line in enumerate(lines) if at > 15 and len(line.split(" ")) == 3]
    large = ["68719476736", "68719476735.999999", "-68719476736", "0.1D+12", "1e99", "-1e99"]
    words = [*large, "2451545.5", "x", "1e100", "0.1234567890123456789", "5000000", "2451545.00001"]
    if numbers:
        at = rng.choice([*numbers[:2], numbers[-1], rng.choice(numbers)])
        tokens = lines[at].split(" ")
        tokens[rng.randrange(3)] = rng.choice(words)
        lines[at] = " ".join(tokens)


def mixed_blocks(rng: Random, draft: Draft) -> Files:
    """The blocks of a text in any order, some twice, some left out, some cut off, in one to three files."""
    header, blocks = draft.header_lines(rng), draft.blocks(rng)
    order = [rng.randrange(len(blocks)) for _ in range(rng.randrange(0, 6))]
    lines = [line for number in (sorted(order) if rng.random() < 0.7 else order) for line in blocks[number]]
    cut = rng.randrange(len(lines) + 1)
    if rng.random() < 0.15:
        lines = lines[:cut]
    files = {b"a": text_of(header + lines[:cut]), b"b": text_of(lines[cut:])}
    if rng.random() < 0.5:
        files = {b"a": text_of(header), b"b": text_of(lines)}
    return {**files, b"c": text_of(rng.choice(blocks))} if rng.random() < 0.5 else files


def change_certificate(rng: Random, text: bytes) -> bytes:
    """A certificate with one change; often one leaf is cut further."""
    lines = text.decode().split("\n")[:-1]
    at = rng.randrange(len(lines))
    tokens = lines[at].split()
    if tokens[0] == "L" and rng.random() < 0.7:
        lines[at : at + 1] = _changed_leaf(rng, tokens)
        lines[-1] = f"END leaves {len(lines) - 3}"
    elif rng.random() < 0.3:
        del lines[at]
    else:
        others = ["", "L 1 2 3 X", "END leaves 0", "x" * 4097, "L -5 5 100 N", "END leaves 123456789"]
        lines[at] = rng.choice([f" {lines[at]}\t", f"{lines[at]} x", f"{lines[at]}\n{lines[at]}", *others])
    return text_of(lines)


def _changed_leaf(rng: Random, tokens: Sequence[str]) -> list[str]:
    """Two leaves for one, or a leaf with another mark or another number."""
    first, last, depth = map(int, tokens[1:4])
    if last - first > 1 and rng.random() < 0.5:
        at = first + rng.choice([(last - first) // 2, max(1, (last - first) // 3)])
        return [f"L {first} {at} {depth + 1} {tokens[4]}", f"L {at} {last} {depth + 1} {tokens[4]}"]
    changed = list(tokens)
    place = rng.randrange(1, 5)
    changed[place] = rng.choice("NRFU") if place == 4 else str(int(tokens[place]) + rng.choice([-1, 0, 1]))
    return [" ".join(changed)]


OTHER_WORDS = (
    ["--", "-", "--kind=sep", "--kind=", "--ref=1.5", "--ref", "--ref=-1", "-1", "-x", "--help", "-h", "--version"]
    + ["-V", "help", "--dir=rise", "--dir=up", "--width=0", "--width=0000001", "--width=00000001", "--width=1000000"]
    + ["--width=1000001", "--depth=41", "--depth=40", "--workers=64", "--workers=0", "--cut=third", "--cut=Half"]
    + ["--tick=1000", "--tick=1", "--tick=01", "--from=2000-01-16T23:59:59", "--from=2000-01-16T23:59:59.500"]
    + ["--from=2000-1-16T00:00:00", "--from=-000000-01-01T00:00:00", "--from=0000-01-01T00:00:00", "--from=+5"]
    + ["--from=-004713-11-24T12:00:00", "--from=-004713-11-24T11:59:59", "--from=2000-02-29T24:00:00", "--from="]
    + ["--from=1900-02-29T00:00:00", "--from=2000-02-29T00:00:00", "--from=1234567890123", "--from=-43200"]
    + ["--from=-43201", "--frame=ecl", "--frame", "--second=venus", "--observer=ssb", "--observer=earth", "--cert=c"]
    + ["--observer=mercury", "--axis=w", "--radius1=1", "--ref2=5", "--relation=less", "--=x", "--=", "---", "--target"]
    + ["", "b", "a", "--ki=coord", "--KIND=coord", "--kind coord", "--quad=1,2,3", "--quad=1,2", "--ref=1e5"]
    + ["--ref=68719476736", "--ref=0.00000000000000000001", "--ref=.", "--to=2721601", "\u00e9", "--kind=\u00e9"]
)


def change_words(rng: Random, words: Sequence[bytes]) -> list[bytes]:
    """The words of a command line with up to three of them changed, added or left out; the command stays."""
    changed = list(words)
    for _ in range(rng.choice([0, 1, 1, 1, 2, 2, 3])):
        how = rng.randrange(4)
        other = rng.choice([*OTHER_WORDS, None])
        word = b"--dir=\xff" if other is None else other.encode()
        if how == 0 and len(changed) > 1:
            del changed[rng.randrange(1, len(changed))]
        elif how == 1 and len(changed) > 1:
            changed[rng.randrange(1, len(changed))] = word
        else:
            changed.insert(rng.randrange(1, len(changed) + 1), word)
    return changed


NUMBER_EDGES = ["0", "1", "-1", "1.0000000000000001", "68719476735.9", "68719476736", "-68719476736", "-0", "1e-99", ""]
OPTION_EDGES = {
    "kind": ["coord", "radius", "apsis", "conj", "station", "sep", "full", "Coord", "", "max"],
    "target": ["mercury", "venus", "emb", "moon", "earth", "ssb", "", "pluto"],
    "second": ["mercury", "venus", "sun", "earth", "ssb", ""],
    "observer": ["mercury", "sun", "earth", "ssb", "", "SSB"],
    "axis": ["x", "y", "z", "", "w", "xy"],
    "frame": ["eq", "ecl", "", "j2000"],
    "ref": [*NUMBER_EDGES, "1e-100", ".", "1234567890123456789", "+.5D+00", "0x1"],
    "radius1": [*NUMBER_EDGES, "1,5"],
    "radius2": [*NUMBER_EDGES, "6.8719476736d10"],
    "relation": ["less", "atleast", "within", "outside", "", "more"],
    "ref2": ["1", "0.5", "-1.5", "", "x"],
    "dir": ["any", "rise", "fall", "", "up"],
    "tick": ["1", "1000", "10", "", "01", "1000.0"],
    "from": ["1339000", "-43200", "-43201", "2000-01-16T00:00:00", "2000-01-16T00:00:00.000", "", "x", "1339400"],
    "to": ["1339400", "2721600", "2721601", "1339000", "2000-01-17T00:00:00", "1234567890123"],
    "width": ["1", "60", "0", "1000000", "1000001", "0000060", "00000060", "", "-1", "1.0"],
    "depth": ["0", "40", "41", "00", "0000040", "00000040", "", "x"],
    "workers": ["1", "64", "65", "0", "0000001", "00000001", ""],
    "cut": ["half", "third", "", "HALF"],
    "cert": ["c", "", "-", "a", "missing"],
}


def change_options(rng: Random, options: dict[str, str], known: Optional[Sequence[str]] = None) -> dict[str, str]:
    """Options with up to three of them left out, added or at the edge of their forms."""
    changed = dict(options)
    for _ in range(rng.choice([1, 1, 1, 2, 2, 3])):
        name = rng.choice(known or list(OPTION_EDGES))
        if rng.random() < 0.15:
            changed.pop(name, None)
        else:
            changed[name] = rng.choice(OPTION_EDGES[name])
    return changed

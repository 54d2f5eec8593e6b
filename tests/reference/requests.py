"""What the words of a command line ask for. Raises `WordsError` with the first of the faults 60 to 63 that applies."""

from __future__ import annotations

import re
from dataclasses import dataclass
from typing import Any, Callable, NamedTuple, Optional, Sequence, Union

from .bodies import BODIES, ORIGIN
from .decimals import Decimal, NumberFault, read_decimal
from .faults import Fault, WordsError
from .kinds import KINDS, NOTHING, SHADOWS, WITH_REFERENCE, WITH_SECOND, Query
from .scalars import Quadratic, quadratic
from .times import TimeFault, read_time, read_whole_time
from .words import SplitWords, split_words

WITH_FRAME = ("coord", "conj", "oppo", "station")
"""The kinds that use the option of the frame."""
SET_KINDS = ("coord", "radius", "apsis", "station", "sep", "sepext")
TWO_REFERENCES = ("within", "outside")
RELATIONS = ("less", "atleast", *TWO_REFERENCES)
BEFORE_VALUES = ("kind", "target", "second", "observer", "frame", "axis", "ref", "radius1", "radius2")
AFTER_VALUES = ("tick", "from", "to", "width", "depth", "workers", "cut")
OPTIONS = {
    "find": (*BEFORE_VALUES, "dir", *AFTER_VALUES),
    "cert": (*BEFORE_VALUES, "dir", *AFTER_VALUES),
    "verify": (*BEFORE_VALUES, "dir", *AFTER_VALUES, "cert"),
    "set": (*BEFORE_VALUES, "relation", "ref2", *AFTER_VALUES),
    "scalar": ("quad", "dir", "from", "to", "width", "depth", "workers", "cut"),
    "gen": ("workers",),
    "check": (),
}
"""The options of each command, in the order in which they are looked at."""
LAYOUT = b"405"
MAX_BLOCKS = 40
MAX_SEED = 2**64 - 1


@dataclass(frozen=True)
class SearchRequest:
    """A search in files, by `find`, `cert`, `verify` or `set`. Times are ticks; None is the start or the end of the files.

    `values` is the text of the numbers as the words gave them.
    """

    command: str
    query: Query
    values: bytes
    tick: int
    first: Optional[int]
    last: Optional[int]
    width: int
    depth: int
    cut: str
    files: tuple[bytes, ...]
    certificate: bytes = b""
    relation: str = ""
    second_reference: Optional[Decimal] = None


@dataclass(frozen=True)
class CheckRequest:
    """The summary of files."""

    files: tuple[bytes, ...]


@dataclass(frozen=True)
class GenerateRequest:
    """A generated text of so many blocks from a seed."""

    blocks: int
    seed: int


@dataclass(frozen=True)
class ScalarRequest:
    """The search of a polynomial, with its text as the words gave it."""

    scalar: Quadratic
    text: bytes
    first: int
    last: int
    direction: str
    width: int
    depth: int
    cut: str


Request = Union[SearchRequest, CheckRequest, GenerateRequest, ScalarRequest]
Reader = Callable[[bytes], Any]
"""Reads the value of an option; None if the word is not of its form."""


def _one_of(names: Sequence[str]) -> Reader:
    by_word = {name.encode(): name for name in names}
    return by_word.get


def _number(least: int, greatest: int, most_digits: int) -> Reader:
    form = re.compile(rb"[0-9]{1,%d}" % most_digits)

    def read(word: bytes) -> Optional[int]:
        number = int(word) if form.fullmatch(word) else -1
        return number if least <= number <= greatest else None

    return read


def _decimal(word: bytes) -> Optional[Decimal]:
    number = read_decimal(word)
    return None if isinstance(number, NumberFault) else number


def _time(tick: int) -> Reader:
    def read(word: bytes) -> Optional[int]:
        time = read_time(word, tick)
        return None if isinstance(time, TimeFault) else time

    return read


_QUADRATIC = re.compile(rb"(-?[0-9]{1,19}),(-?[0-9]{1,19}),(-?[0-9]{1,19})")


def _quadratic(word: bytes) -> Optional[Quadratic]:
    form = _QUADRATIC.fullmatch(word)
    return quadratic(*map(int, form.groups())) if form else None


READERS: dict[str, Reader] = {
    "kind": _one_of(KINDS),
    "target": _one_of(BODIES),
    "second": _one_of(BODIES),
    "observer": _one_of((*BODIES, ORIGIN)),
    "frame": _one_of(("eq", "ecl")),
    "axis": _one_of(("x", "y", "z")),
    "ref": _decimal,
    "radius1": _decimal,
    "radius2": _decimal,
    "relation": _one_of(RELATIONS),
    "ref2": _decimal,
    "dir": _one_of(("any", "rise", "fall")),
    "tick": _one_of(("1", "1000")),
    "width": _number(1, 1_000_000, 7),
    "depth": _number(0, 40, 7),
    "workers": _number(1, 64, 7),
    "cut": _one_of(("half", "third")),
    "cert": lambda word: word or None,
    "quad": _quadratic,
}


class Use(NamedTuple):
    """Whether a command with its kind and relation needs an option, and whether it may stand there."""

    is_needed: bool
    is_allowed: bool


NEEDED, ALLOWED, REFUSED = Use(True, True), Use(False, True), Use(False, False)


def _use_of(option: str, kind: str, relation: str) -> Use:
    """How an option is used by a search of a kind, and of `set` with a relation."""
    needed_by = {
        "second": kind in WITH_SECOND,
        "axis": kind == "coord",
        "radius1": kind in SHADOWS,
        "radius2": kind in SHADOWS,
        "ref2": relation in TWO_REFERENCES,
    }
    if option in needed_by:
        return NEEDED if needed_by[option] else REFUSED
    if option in ("kind", "target", "relation", "cert"):
        return NEEDED
    if option == "ref" and kind in ("radius", "sep"):
        return NEEDED
    used_by = {"ref": WITH_REFERENCE, "frame": WITH_FRAME}
    return ALLOWED if kind in used_by.get(option, (kind,)) else REFUSED


def _is_refused_by_set(option: str, value: Any, kind: str) -> bool:
    """A set is of six kinds, and its relations with two references of three."""
    if option == "kind":
        return value not in SET_KINDS
    return option == "relation" and value in TWO_REFERENCES and kind not in WITH_REFERENCE


def _values_of_search(command: str, given: dict[str, bytes]) -> dict[str, Any]:
    """The values of the options of a search; the first bad one in the order of the command is the fault.

    An option is bad that is needed and missing, or given and not used by the kind, or whose value is not of its form.
    """
    values: dict[str, Any] = {}
    for option in OPTIONS[command]:
        kind = values.get("kind", "")
        use = _use_of(option, kind, values.get("relation", ""))
        if option not in given:
            if use.is_needed:
                raise WordsError(Fault.BadValue, option)
            continue
        is_time = option in ("from", "to")
        value = (_time(int(values.get("tick", "1"))) if is_time else READERS[option])(given[option])
        is_bad = value is None or (command == "set" and _is_refused_by_set(option, value, kind))
        if is_bad or not use.is_allowed:
            raise WordsError(Fault.BadValue, option)
        values[option] = value
    return values


def _values_text(kind: str, given: dict[str, bytes]) -> bytes:
    """The numbers of a search as they were given, joined by commas, or `-`."""
    if kind in SHADOWS:
        return b",".join([given["radius1"], given["radius2"]])
    if kind not in WITH_REFERENCE:
        return b"-"
    references = [given.get("ref", b"0"), given.get("ref2", b"")]
    return b",".join(references if "ref2" in given else references[:1])


def _search_request(command: str, words: SplitWords) -> SearchRequest:
    if not words.others:
        raise WordsError(Fault.Words)
    values = _values_of_search(command, words.options)
    is_shadow = values["kind"] in SHADOWS
    query = Query(
        kind=values["kind"],
        target=values["target"],
        second=values.get("second"),
        observer=values.get("observer", ORIGIN),
        frame=values.get("frame", "eq"),
        axis="xyz".index(values.get("axis", "x")),
        value1=values.get("radius1" if is_shadow else "ref", NOTHING),
        value2=values.get("radius2", NOTHING),
        direction=values.get("dir", "any"),
    )
    return SearchRequest(
        command=command,
        query=query,
        values=_values_text(query.kind, words.options),
        tick=int(values.get("tick", "1")),
        first=values.get("from"),
        last=values.get("to"),
        width=values.get("width", 1),
        depth=values.get("depth", 40),
        cut=values.get("cut", "half"),
        files=tuple(words.others),
        certificate=values.get("cert", b""),
        relation=values.get("relation", ""),
        second_reference=values.get("ref2"),
    )


def _check_request(words: SplitWords) -> CheckRequest:
    if not words.others:
        raise WordsError(Fault.Words)
    return CheckRequest(tuple(words.others))


def _generate_request(words: SplitWords) -> GenerateRequest:
    """Three words: the layout, a number of blocks and a seed; and the option, which changes nothing that is printed."""
    if len(words.others) != 3:
        raise WordsError(Fault.Words)
    layout, blocks_word, seed_word = words.others
    blocks = _number(1, MAX_BLOCKS, 2)(blocks_word)
    seed = _number(0, MAX_SEED, 20)(seed_word)
    workers = READERS["workers"](words.options.get("workers", b"1"))
    places = {"layout": layout == LAYOUT, "blocks": blocks, "seed": seed, "workers": workers}
    for name, value in places.items():
        if value is None or value is False:
            raise WordsError(Fault.BadValue, name)
    return GenerateRequest(blocks, seed)


def _scalar_request(words: SplitWords) -> ScalarRequest:
    if words.others:
        raise WordsError(Fault.Words)
    values: dict[str, Any] = {}
    for option in OPTIONS["scalar"]:
        reader = read_whole_time if option in ("from", "to") else READERS[option]
        value = reader(words.options[option]) if option in words.options else None
        is_needed = option in ("quad", "from", "to")
        if value is None and (is_needed or option in words.options):
            raise WordsError(Fault.BadValue, option)
        if value is not None:
            values[option] = value
    return ScalarRequest(
        scalar=values["quad"],
        text=words.options["quad"],
        first=values["from"],
        last=values["to"],
        direction=values.get("dir", "any"),
        width=values.get("width", 1),
        depth=values.get("depth", 40),
        cut=values.get("cut", "half"),
    )


def _is_utf8(word: bytes) -> bool:
    try:
        word.decode("utf-8")
    except UnicodeDecodeError:
        return False
    return True


def read_request(words: Sequence[bytes]) -> Request:
    """The request of the words of a command line, the program's name aside.

    Words of which one is not UTF-8 are refused as a whole with 62, whatever stands before it.
    """
    if not words:
        raise WordsError(Fault.NoCommand)
    if not all(map(_is_utf8, words)):
        raise WordsError(Fault.Words)
    commands = {command.encode(): command for command in OPTIONS}
    command = commands.get(words[0])
    if command is None:
        raise WordsError(Fault.UnknownCommand)
    split = split_words(words[1:], OPTIONS[command])
    if command == "check":
        return _check_request(split)
    if command == "gen":
        return _generate_request(split)
    return _scalar_request(split) if command == "scalar" else _search_request(command, split)

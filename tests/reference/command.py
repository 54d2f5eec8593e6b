"""The whole command: from words, over files and outputs, to an exit status."""

from __future__ import annotations

from functools import lru_cache
from typing import Iterator, NamedTuple, Sequence

from . import reports
from .blocks import read_ephemeris
from .certificates import MAX_LEAVES as MAX_CERTIFICATE_LEAVES
from .certificates import certificate, checked_leaves
from .devices import READ_SIZE, DeviceError, Shelf, Sink
from .ephemeris import Ephemeris
from .faults import WITH_DETAIL, CertificateError, EventError, Fault, FileError, Status, WordsError
from .generated import generated_text
from .header import MAX_FILE
from .kinds import Query
from .requests import CheckRequest, GenerateRequest, ScalarRequest, SearchRequest, read_request
from .scalars import LAST_TIME, ScalarJudge
from .searches import MAX_LEAVES, EventJudge, Judge, Leaf, TooManyLeaves, Window, leaves_of, windows_of
from .sets import at_least_zero, of_relation
from .verdicts import Criteria, Node

MAX_FILES = 64
"""The most files of a run."""
REMEMBERED = 4
"""How many ephemerides of one file are remembered."""
GENERATED_QUERY = Query("conj", "mercury", "venus", "earth")
"""What is searched for in a generated text."""


class Refusal(Exception):
    """A run ends with a status and one line on standard error."""

    def __init__(self, status: Status, line: bytes) -> None:
        super().__init__(status, line)
        self.status, self.line = status, line


def _refused_words(error: WordsError) -> Refusal:
    option = f" {error.option}" if error.option else ""
    return Refusal(Status.WORDS, f"finder: words: {error.fault}{option}".encode())


def _refused_files(error: FileError) -> Refusal:
    detail = f" {error.detail:d}" if error.fault in WITH_DETAIL else ""
    place = f" line {error.line}: {error.fault}{detail}"
    return Refusal(Status.FILE, b"finder: file " + error.name + place.encode())


def _refused_span(first: int, last: int, least: int, greatest: int) -> Refusal:
    return Refusal(Status.SPAN, b"finder: span: %d %d not within %d %d" % (first, last, least, greatest))


def read_file(shelf: Shelf, name: bytes) -> bytes:
    """The bytes of a file, of one that is too large those up to one past the limit."""
    try:
        shelf.open(name)
        pieces: list[bytes] = []
        rest = MAX_FILE + 1
        while rest:
            piece = shelf.read(min(READ_SIZE, rest))
            if not piece:
                break
            pieces.append(piece)
            rest -= len(piece)
    except DeviceError:
        raise Refusal(Status.READ_FAULT, b"finder: read fault " + name) from None
    return b"".join(pieces)


def _opened(shelf: Shelf, names: Sequence[bytes]) -> Iterator[tuple[bytes, bytes]]:
    """The files, each read whole when its turn comes."""
    for name in names:
        yield name, read_file(shelf, name)


@lru_cache(maxsize=REMEMBERED)
def read_one(name: bytes, text: bytes) -> Ephemeris:
    """The ephemeris of one file; the last ones are remembered, for other runs over the same file."""
    return read_ephemeris([(name, text)])


def open_ephemeris(shelf: Shelf, names: Sequence[bytes]) -> Ephemeris:
    """The ephemeris of files."""
    try:
        if len(names) > MAX_FILES:
            raise FileError(Fault.TooManyFiles, names[MAX_FILES], 0)
        if len(names) == 1:
            return read_one(names[0], read_file(shelf, names[0]))
        return read_ephemeris(_opened(shelf, names))
    except FileError as error:
        raise _refused_files(error) from None


class Search(NamedTuple):
    """A search whose span and event were found to be good: the ephemeris in ticks, the span, and the judge."""

    ephemeris: Ephemeris
    root: Node
    judge: EventJudge


def _judge(ephemeris: Ephemeris, request: SearchRequest, query: Query) -> EventJudge:
    try:
        return EventJudge(ephemeris, query, request.width, request.depth, request.cut)
    except EventError as error:
        raise Refusal(Status.EVENT, f"finder: event: {error.fault}".encode()) from None


def prepare_search(seconds: Ephemeris, request: SearchRequest) -> Search:
    """The search that is asked for: first its span is looked at, then its event."""
    ephemeris = seconds.in_ticks(request.tick)
    first = ephemeris.start if request.first is None else request.first
    last = ephemeris.end if request.last is None else request.last
    if not ephemeris.start <= first < last <= ephemeris.end:
        raise _refused_span(first, last, ephemeris.start, ephemeris.end)
    return Search(ephemeris, Node(first, last, 0), _judge(ephemeris, request, request.query))


def search_leaves(judge: Judge, root: Node, limit: int = MAX_LEAVES) -> list[Leaf]:
    """The leaves of a search."""
    try:
        return leaves_of(judge, root, limit)
    except TooManyLeaves:
        raise Refusal(Status.LEAVES, b"finder: more than %d leaves" % limit) from None


def _find(request: SearchRequest, search: Search) -> list[bytes]:
    """The report of the windows."""
    windows = windows_of(search_leaves(search.judge, search.root))
    return _report(request, search, windows)


def _report(request: SearchRequest, search: Search, windows: Sequence[Window]) -> list[bytes]:
    line = reports.request_line(request, search.root.first, search.root.last)
    return [line, *reports.window_lines(windows, reports.clock_of(request.tick))]


def _verify(request: SearchRequest, search: Search, shelf: Shelf) -> list[bytes]:
    """The report of a certificate's windows, and the number of its leaves."""
    text = read_file(shelf, request.certificate)
    if len(text) > MAX_FILE:
        raise _refused_files(FileError(Fault.FileTooLarge, request.certificate, 0))
    line = reports.request_line(request, search.root.first, search.root.last)
    try:
        leaves = checked_leaves(text, line, search.judge, search.root)
    except CertificateError as error:
        place = f"finder: certificate line {error.line}: {error.fault}"
        raise Refusal(Status.CERTIFICATE, place.encode()) from None
    return _report(request, search, windows_of(leaves)) + [b"VERIFIED leaves %d" % len(leaves)]


def _set(request: SearchRequest, search: Search) -> list[bytes]:
    """The sets of a relation. With two references both events are looked at before the first search."""
    judges = [search.judge]
    if request.second_reference is not None:
        second = request.query._replace(value1=request.second_reference)
        judges.append(_judge(search.ephemeris, request, second))
    sets = [at_least_zero(judge.sign_at, search_leaves(judge, search.root)) for judge in judges]
    line = reports.request_line(request, search.root.first, search.root.last)
    ticks = of_relation(request.relation, sets[0], sets[-1])
    return [line, *reports.set_lines(ticks, reports.clock_of(request.tick))]


def _answer_search(request: SearchRequest, shelf: Shelf) -> bytes:
    search = prepare_search(open_ephemeris(shelf, request.files), request)
    if request.command == "cert":
        leaves = search_leaves(search.judge, search.root, MAX_CERTIFICATE_LEAVES)
        return certificate(reports.request_line(request, search.root.first, search.root.last), leaves)
    if request.command == "verify":
        return reports.as_text(_verify(request, search, shelf))
    return reports.as_text(_set(request, search) if request.command == "set" else _find(request, search))


def _answer_generate(request: GenerateRequest) -> bytes:
    text = generated_text(request.blocks, request.seed)
    ephemeris = read_ephemeris([(b"", text)])
    judge = EventJudge(ephemeris, GENERATED_QUERY, width=1, depth=40, rule="half")
    windows = windows_of(search_leaves(judge, Node(ephemeris.start, ephemeris.end, 0)))
    return reports.as_text([reports.generation_line(request, len(text)), reports.counts_line(windows)])


def _answer_scalar(request: ScalarRequest) -> bytes:
    if request.first >= request.last:
        raise _refused_span(request.first, request.last, -LAST_TIME, LAST_TIME)
    criteria = Criteria(request.direction, request.width, request.depth)
    judge = ScalarJudge(request.scalar, criteria, request.cut)
    windows = windows_of(search_leaves(judge, Node(request.first, request.last, 0)))
    return reports.as_text([reports.scalar_line(request), *reports.window_lines(windows)])


def answer_words(words: Sequence[bytes], shelf: Shelf) -> bytes:
    """What is to be written to standard output. Raises `Refusal`."""
    try:
        request = read_request(words)
    except WordsError as error:
        raise _refused_words(error) from None
    if isinstance(request, CheckRequest):
        return reports.as_text(reports.summary_lines(open_ephemeris(shelf, request.files)))
    if isinstance(request, GenerateRequest):
        return _answer_generate(request)
    if isinstance(request, ScalarRequest):
        return _answer_scalar(request)
    return _answer_search(request, shelf)


def write_whole(sink: Sink, text: bytes) -> bool:
    """Offers all that is left at each write. Whether all was taken."""
    try:
        while text:
            size = sink.write(text)
            if not size:
                return False
            text = text[size:]
    except DeviceError:
        return False
    return True


def run(words: Sequence[bytes], shelf: Shelf, output: Sink, error: Sink) -> Status:
    """Runs a command line, the program's name aside, and returns its status, also if standard error fails."""
    try:
        text = answer_words(words, shelf)
    except Refusal as refusal:
        write_whole(error, refusal.line + b"\n")
        return refusal.status
    if write_whole(output, text):
        return Status.WRITTEN
    write_whole(error, b"finder: write fault\n")
    return Status.WRITE_FAULT

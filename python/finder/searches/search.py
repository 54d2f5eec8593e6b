"""The search for a kind of events, and what all searches share: their words, the call of the program, its answer."""

from __future__ import annotations

from typing import Any, Optional, get_args

from ..ephemeris.named import held, names_of, words_of_request
from ..ephemeris.names import Files, some_names
from ..process.program import Program, runs_of
from ..public import public
from ..reports.calendar import WrongReport, time_text
from ..reports.joining import join_parts
from ..reports.reading import read_parts, read_summary
from ..reports.report import Part, Report, Summary
from ..reports.windows import Windows
from .bodies import body_word, frame_word, small
from .kinds import BODIES, KINDS, Axis, Cut, Direction, FrameWord, Kind, Relation
from .numbers import decimal_text
from .options import DEFAULTS, Body, Unpack, Wanted, searches
from .pieces import reports_of
from .times import Time, ticks_of_time
from .words import one_of, radii_of, refuse_one_line, warn_of_barycentre, whole

# What a report says of an option that is not given. (A span that is not given is that of the files.)
UNSAID = {"second": "-", "observer": "ssb", "frame": "eq", "axis": "-"}
# The words that an option may be.
WORDS: dict[str, tuple[str, ...]] = {
    "target": BODIES,
    "second": BODIES,
    "observer": (*BODIES, "ssb"),
    "frame": get_args(FrameWord),
    "axis": get_args(Axis),
    "relation": get_args(Relation),
    "dir": get_args(Direction),
    "cut": get_args(Cut),
}
WHOLE = ("tick", "width", "depth", "workers")


@public
@searches(Wanted)
def find(
    files: Files,
    kind: Kind,
    target: Body,
    second: Optional[Body] = None,
    start: Optional[Time] = None,
    end: Optional[Time] = None,
    **wanted: Unpack[Wanted],
) -> Windows:
    """The windows of the events of a kind in files, with the options of `finder find` (`docs/guide/usage.md`).

    >>> import finder
    >>> found = finder.find("examples/de405-2000.asc", "oppo", "jupiter", "sun", observer="earth", frame="ecl")
    >>> print(found.datetime64(), found.certain)
    ['2000-11-28T02:02:18'] [ True]

    Without `observer=` it is `ssb`, the barycentre of the solar system. Of kinds that are seen from a planet a
    `BarycentreWarning` says so.
    """
    options = options_of(files, kind, target, second, start=start, end=end, **wanted)
    report = answer("find", options, files, dict(wanted), Report)
    return Windows(report, names_of(files), held(files))


def options_of(files: Files, kind: Kind, target: Body, second: Optional[Body], **wanted: Any) -> dict[str, Any]:
    """The options of the program for what `find` takes, where an `Ephemeris` has put its words for the names."""
    words = {**DEFAULTS, **words_of_request(files, {**wanted, "target": target, "second": second})}
    radii, ref = words["radii"], words["ref"]
    pair = (None, None) if radii is None else radii_of(radii)
    options = {
        **_bodies(kind, words),
        "ref": None if ref is None else decimal_text(ref),
        "radius1": None if radii is None else decimal_text(pair[0]),
        "radius2": None if radii is None else decimal_text(pair[1]),
        "dir": small(words["dir"]),
        **_limits(words),
    }
    refuse_words(options, tuple(KINDS))
    return options


def set_options(files: Files, kind: str, target: Body, second: Optional[Body], **wanted: Any) -> dict[str, Any]:
    """The options of the program for what `times` takes."""
    words = {**DEFAULTS, **words_of_request(files, {**wanted, "target": target, "second": second})}
    return {
        **_bodies(kind, words),
        "ref": None if words["ref"] is None else decimal_text(words["ref"]),
        "relation": words["relation"],
        "ref2": None if words["ref2"] is None else decimal_text(words["ref2"]),
        **_limits(words),
    }


def _bodies(kind: str, words: dict[str, Any]) -> dict[str, Any]:
    """The first options, up to the axis."""
    return {
        "kind": kind,
        "target": body_word(words["target"]),
        "second": body_word(words["second"]),
        "observer": body_word(words["observer"]),
        "frame": frame_word(words["frame"]),
        "axis": small(words["axis"]),
    }


def _limits(words: dict[str, Any]) -> dict[str, Any]:
    """The last options, from the tick on."""
    tick = words["tick"]
    return {
        "tick": tick,
        "from": _time_word(words.get("start"), tick, up=False),
        "to": _time_word(words.get("end"), tick, up=True),
        **{name: words[name] for name in ("width", "depth", "workers", "cut")},
    }


def _time_word(time: Optional[Time], tick: int, up: bool) -> Optional[str]:
    """A time as the program takes it."""
    if time is None:
        return None
    whole("tick", tick)
    if tick not in (1, 1_000):
        raise ValueError(f"a tick is 1 or 1000: {tick!r}")
    return time_text(ticks_of_time(time, tick, up), tick)


def refuse_words(options: dict[str, Any], kinds: tuple[str, ...]) -> None:
    """Refuses words that are none, before the program does, and says what to write; warns of a missing observer."""
    one_of("kind", options["kind"], kinds)
    for name, allowed in WORDS.items():
        if options.get(name) is not None or name == "target":
            one_of("body" if allowed[0] == "mercury" else name, options[name], allowed)
    for name in WHOLE:
        whole(name, options[name])
    refuse_one_line(options)
    warn_of_barycentre(options["kind"], options["target"], options["observer"])


def answer(command: str, options: dict[str, Any], files: Files, wanted: dict[str, Any], form: type[Any]) -> Any:
    """The report of a command for options and files, of one run of the program, or joined of those of parts."""
    runs = runs_of(wanted.get("program"), wanted.get("timeout"), wanted.get("in_process", False))
    parts = wanted.get("parts", DEFAULTS["parts"])
    texts = reports_of(command, options, some_names(files), runs, parts, wanted.get("progress"))
    found = [part for text in texts for part in read_parts(text)]
    if not found or not all(isinstance(part, form) for part in found):
        raise WrongReport(f"{len(found)} reports in place of one, or of another command")
    report = found[0] if len(found) == 1 else join_parts(found, lambda: check(files, program=runs))
    if not is_answer(report, options):
        raise WrongReport(f"a report of another request: {report.request}")
    return report


def is_answer(report: Part, options: dict[str, Any]) -> bool:
    """Whether a report is of what was asked for, so that another search's text is no answer."""
    start, end = report.span.split(" ")
    said = {**report.request_words, "tick": str(report.tick), "from": start, "to": end}
    wanted = {**UNSAID, **{name: value for name, value in options.items() if value is not None}}
    if options["kind"] == "coord":
        wanted.setdefault("ref", "0")
    numbers = [wanted[name] for name in ("ref", "ref2", "radius1", "radius2") if name in wanted]
    wanted["values"] = ",".join(numbers) or "-"
    return all(value == str(wanted[name]) for name, value in said.items() if name in wanted)


@public
def check(
    files: Files, *, program: Program = None, timeout: Optional[float] = None, in_process: bool = False
) -> Summary:
    """The span, the blocks and the columns of files, which are read by all rules of their format.

    >>> import finder
    >>> found = finder.check("examples/de405-2000.asc")
    >>> found.blocks, found.columns["moon"]
    (12, (13, 8))

    `start`, `end` and `block` are seconds, `timeout` too; a column has its coefficients and granules. `FileFault` names
    the line of a file that breaks a rule.
    """
    return read_summary(runs_of(program, timeout, in_process).run(["check", "--", *some_names(files)]))

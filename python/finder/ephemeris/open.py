"""What `Ephemeris.open` does: reads a source of any form, clips it to a span, and keeps its text."""

from __future__ import annotations

import os
from collections.abc import Mapping
from dataclasses import replace
from typing import Any, Optional

from ..reports.calendar import DAY
from . import ascii_de, binary_de, spk_text, writing
from .cache import Kept, Made, kept, key_of
from .fitting import FitError, errors_to_keep
from .sources import Form, SourceFile, WrongSource, source_files
from .spk_text import Bodies
from .sums import sha256_of
from .text import EphemerisText, span_text
from .versions import versions

# A number that is changed where the same sources give another text.
VERSION = 1

# The seconds on both sides of a span whose blocks are kept too: light takes 7 hours from Pluto, and the days of a sky
# begin where its span does.
MARGIN = DAY
MAX_FILES = 64
MAX_FILE_BYTES = 268_435_456


def opened(source: Any, start: Optional[float], end: Optional[float], bodies: Bodies, cache: bool) -> Kept:
    """The text of a source, clipped to a span in seconds since J2000 (TDB)."""
    if start is not None and end is not None and not start < end:
        raise ValueError(f"start= is before end=, and {span_text(start, end)} is no span")
    files = source_files(source)
    if bodies is not None and files[0].form is not Form.SPK:
        raise TypeError(
            f"bodies= are of SPK kernels, and {files[0].name} is {files[0].form.value}, whose bodies are all kept"
        )
    if files[0].form is Form.ASCII:
        return _of_ascii(files, start, end, cache)
    sums = [[file.sha256, file.last_name] for file in files]
    facts = [*_versions(files), sums, start, end, _shown(bodies)]
    making = _of_binary if files[0].form is Form.BINARY else _of_kernels
    return kept(key_of(facts), lambda: making(files, start, end, bodies), cache)


def in_source(start: Optional[float], end: Optional[float], first: float, last: float, name: str) -> None:
    """Refuses a span that the source does not have."""
    low, high = first if start is None else start, last if end is None else end
    if low < first or high > last or low >= high:
        raise WrongSource(
            f"{name} has {span_text(first, last)}, and {span_text(low, high)} is asked for: name a span within it, or "
            "a source that has more"
        )


def with_margin(start: Optional[float], end: Optional[float]) -> tuple[Optional[float], Optional[float]]:
    """A span with what stands around it."""
    return None if start is None else start - MARGIN, None if end is None else end + MARGIN


def source_titles(files: list[SourceFile], start: float, end: float) -> tuple[str, ...]:
    """The lines of a title that name the files of a source."""
    lines = [f"{file.last_name}, SHA-256 {file.sha256}" for file in files]
    form, _, by = _versions(files)
    return (f"Blocks of {span_text(start, end)} of {form}, written by {by}, of", *lines)


def _versions(files: list[SourceFile]) -> tuple[str, int, str]:
    """What a source is, and what its text is made by: parts of a title and of a key."""
    form = files[0].form
    return form.value, VERSION, versions("numpy", *(["jplephem"] if form is Form.SPK else []))


def _shown(bodies: Bodies) -> Any:
    """The bodies that are asked for, as a part of a key."""
    return bodies if bodies is None else dict(bodies) if isinstance(bodies, Mapping) else list(bodies)


def _of_binary(files: list[SourceFile], start: Optional[float], end: Optional[float], _: Bodies) -> Made:
    """The text of binary files, and what is known of it."""
    text, low, high = binary_de.read(files, *with_margin(start, end))
    in_source(start, end, low, high, _names(files))
    text = replace(text, titles=(*text.titles, *source_titles(files, text.start, text.end)))
    words = [word for word in text.columns if word != "moon" or "emb" in text.columns]
    earth = ["earth"] if {"emb", "moon"} <= set(words) else []
    about = _about(text, [start, end], {word: word for word in (*words, *earth, "ssb")}, {})
    return Made(writing.files(text), about)


def _of_kernels(files: list[SourceFile], start: Optional[float], end: Optional[float], bodies: Bodies) -> Made:
    """The text of SPK kernels, and what is known of it."""
    found = spk_text.read(files, start, end, MARGIN, bodies)
    text = replace(found.text, titles=(*source_titles(files, found.text.start, found.text.end), *found.text.titles))
    return Made(writing.files(text), _about(text, [start, end], found.names, found.errors))


def _about(
    text: EphemerisText, asked: list[Optional[float]], names: dict[str, str], errors: dict[str, FitError]
) -> dict[str, Any]:
    """What is known of a text."""
    return {
        "name": "ephemeris",
        "start": text.start,
        "end": text.end,
        "asked": asked,
        "names": names,
        "errors": errors_to_keep(errors),
        "titles": list(text.titles),
    }


def _names(files: list[SourceFile]) -> str:
    """The names of files, for a sentence."""
    return files[0].name if len(files) == 1 else f"{files[0].name} .. {files[-1].name}"


def _of_ascii(files: list[SourceFile], start: Optional[float], end: Optional[float], cache: bool) -> Kept:
    whole = ascii_de.read(files)
    in_source(start, end, whole.start, whole.end, _names(files))
    part = whole.clipped(*with_margin(start, end)).checked()
    about: dict[str, Any] = {
        "name": "ephemeris",
        "start": part.start,
        "end": part.end,
        "asked": [start, end],
        "names": part.names,
        "errors": {},
    }
    names = _as_they_are(whole, part, files)
    if names:
        sha256 = files[0].sha256 if len(names) == 1 else sha256_of(names)
        return Kept("", names, {**about, "titles": list(whole.titles), "sha256": sha256, "sizes": []})
    titles = (*whole.titles, *source_titles(files, part.start, part.end))

    def make() -> Made:
        return Made(part.files(titles[len(whole.titles) :]), {**about, "titles": list(titles)})

    sums = sorted((file.sha256, file.last_name) for file in files)
    return kept(key_of([*_versions(files), sums, part.start, part.end]), make, cache)


def _as_they_are(whole: ascii_de.AsciiSource, part: ascii_de.AsciiSource, files: list[SourceFile]) -> tuple[str, ...]:
    """The names of the files where the program can read all of them as they are, in their order; else none."""
    order = list(dict.fromkeys([whole.header_file.name, *(block.file.name for block in whole.blocks)]))
    plain = all(file.is_plain and len(file.data) <= MAX_FILE_BYTES for file in files)
    if len(part.blocks) < len(whole.blocks) or whole.headers > 1 or not plain or len(order) > MAX_FILES:
        return ()
    return tuple(os.path.abspath(name) for name in order)

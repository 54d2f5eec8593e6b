"""Certificates of searches: what was found in each piece of a span, for others to check."""

from __future__ import annotations

import os
import tempfile
from collections.abc import Mapping
from dataclasses import dataclass, field, replace
from pathlib import Path
from typing import Optional, Union

from .. import spans
from ..ephemeris.named import HasNames, bodies_of, names_of
from ..ephemeris.names import Files, some_names
from ..ephemeris.sums import sha256_of
from ..process.messages import shown
from ..process.program import Program, runs_of
from ..process.whole_files import copy_whole, write_whole
from ..public import public, renamed
from ..searches.kinds import KINDS, Kind
from ..searches.options import Body, Unpack, Wanted, searches
from ..searches.search import answer, options_of
from ..searches.times import Time
from .windows import Windows


@public
@dataclass(frozen=True, repr=False)
class Certificate:
    """The certificate of a search: the pieces into which it cut the span from `start` to `end`, each with a mark that
    says what was found there. Times are ticks since J2000 (TDB), of which `tick` are in a second.

    Nothing of it is believed here: `verify` judges each piece again by the files, whoever made the certificate.

    `sha256` is the SHA-256 of the text of the `Ephemeris` that was searched, `names` are its names by the words of the
    program, and `save` writes the text beside the certificate. Of files they are empty.

    >>> import finder
    >>> year = "examples/de405-2000.asc"
    >>> made = finder.certificate(year, "apsis", "earth", observer="sun")
    >>> made.request.split()[:4], len(finder.verify(year, made).windows)
    (['FIND', 'apsis', 'target', 'earth'], 3)
    """

    report: spans.CertificateText
    names: Mapping[str, str] = field(default_factory=dict, compare=False)
    sha256: str = field(default="", compare=False)
    _texts: tuple[str, ...] = field(default=(), compare=False)

    @classmethod
    def of_text(cls, text: str) -> Certificate:
        """The certificate of a text, whose lines and number of pieces are looked at: `WrongReport` where it is not
        whole."""
        return cls(spans.one_of(text, spans.CertificateText))

    @classmethod
    def of_report(cls, report: spans.CertificateText, names: Optional[Mapping[str, str]] = None) -> Certificate:
        """The certificate of a text that was read."""
        return cls(report, dict(names or {}))

    @classmethod
    def load(cls, name: Union[str, os.PathLike[str]]) -> Certificate:
        """The certificate of a file: `WrongReport` where the file has none."""
        if not isinstance(name, (str, os.PathLike)) or "\n" in os.fspath(name):
            raise TypeError("a file is a name or a path, and a text of a certificate is read by Certificate.of_text")
        try:
            return cls.of_text(Path(name).read_bytes().decode("ascii"))
        except UnicodeDecodeError:
            raise spans.WrongReport(f"{shown(os.fspath(name))} has bytes that no certificate has") from None

    def save(self, name: Union[str, os.PathLike[str]]) -> None:
        """Writes the text to a file: what `finder cert` prints, letter for letter. Each file is written whole or not at
        all: where the disk is full, an `OSError` names the file, and what was there before is there still.

        Of an `Ephemeris` the text that was searched is written beside it, under the name of the certificate with `.asc`,
        or of several files with `-0001.asc` and so on; and under its name with `.sha256` the sums of all, as `sha256sum
        -c` checks them.
        """
        path = Path(name)
        write_whole(path, self.text.encode("ascii"))
        written = [path.name]
        for number, text in enumerate(self._texts):
            beside = path.with_name(f"{path.name}.asc" if len(self._texts) == 1 else f"{path.name}-{number:04}.asc")
            copy_whole(text, beside)
            written.append(beside.name)
        if self._texts:
            sums = [f"{sha256_of([str(path.with_name(each))])}  {each}\n" for each in written]
            write_whole(path.with_name(f"{path.name}.sha256"), "".join(sums).encode("ascii"))

    @property
    def text(self) -> str:
        """The text, letter for letter as the command prints it."""
        return self.report.text()

    @property
    def request(self) -> str:
        """The request that it names, with its span."""
        return f"{self.report.request} span {self.report.span}"

    @property
    def request_words(self) -> dict[str, str]:
        """The words of the request by their names, with each option at its value or default."""
        return self.report.request_words

    asked = renamed("asked", "request_words")

    @property
    def bodies(self) -> dict[str, str]:
        """Target, second body and observer of the request, by the names of the `Ephemeris` that was searched."""
        return bodies_of(self.request_words, self.names)

    @property
    def tick(self) -> int:
        """The ticks in a second."""
        return self.report.tick

    @property
    def start(self) -> int:
        """The tick after which it begins."""
        return self.report.start

    @property
    def end(self) -> int:
        """The tick up to which it goes."""
        return self.report.end

    def __len__(self) -> int:
        return len(self.report.pieces)

    def __repr__(self) -> str:
        return f"<Certificate of {self.request!r}: {len(self)} pieces>"


@public
@dataclass(frozen=True)
class Verified:
    """What `verify` says of a certificate that breaks no rule: the windows of its pieces, and their number.

    >>> import finder
    >>> year = "examples/de405-2000.asc"
    >>> found = finder.verify(year, finder.certificate(year, "apsis", "earth", observer="sun"))
    >>> finder.names(found.windows)
    ['perihelion', 'aphelion', 'perihelion']
    """

    windows: Windows
    leaves: int


@public
@searches(Wanted)
def certificate(
    files: Files,
    kind: Kind,
    target: Body,
    second: Optional[Body] = None,
    start: Optional[Time] = None,
    end: Optional[Time] = None,
    **wanted: Unpack[Wanted],
) -> Certificate:
    """The certificate of a search, which takes what `find` takes.

    >>> import finder
    >>> made = finder.certificate("examples/de405-2000.asc", "apsis", "earth", end="2000-08-01", observer="sun")
    >>> finder.verify("examples/de405-2000.asc", made).windows.datetime64()
    array(['2000-01-03T05:18:44', '2000-07-03T23:49:58'],
          dtype='datetime64[s]')
    """
    options = options_of(files, kind, target, second, start=start, end=end, **wanted)
    made = Certificate(answer("cert", options, files, dict(wanted), spans.CertificateText))
    if isinstance(files, HasNames):
        made = replace(made, names=names_of(files), sha256=files.sha256, _texts=tuple(files.files))
    return made


@public
def verify(
    files: Files,
    certificate: Union[Certificate, str, os.PathLike[str]],
    *,
    request: Optional[str] = None,
    program: Program = None,
    timeout: Optional[float] = None,
    in_process: bool = False,
) -> Verified:
    """The windows of a certificate, or of the file that has one, whose pieces are all judged again by the files.
    Whoever made it is not trusted: `CertificateRefused` names its first line that is not so.

    What it is of, it says itself: read the `request` of the windows, and whether one of them is undecided; or name the
    request that it has to be of, with its span, as `Certificate.request` has it.

    >>> import finder
    >>> year = "examples/de405-2000.asc"
    >>> found = finder.verify(year, finder.certificate(year, "apsis", "earth", observer="sun"))
    >>> len(found.windows), found.leaves
    (3, 266)
    """
    made = certificate if isinstance(certificate, Certificate) else Certificate.load(certificate)
    if request is not None and request != made.request:
        raise spans.WrongReport(f"a certificate of another request: {made.request}")
    with tempfile.TemporaryDirectory() as folder:
        name = os.path.join(folder, "certificate")
        Path(name).write_bytes(made.text.encode("ascii"))
        words = [f"--{option}={value}" for option, value in request_options(made.report).items()]
        said = runs_of(program, timeout, in_process).run(["verify", *words, f"--cert={name}", "--", *some_names(files)])
    text, found, count = said.rpartition("VERIFIED leaves ")
    windows = Windows(spans.read_report(text), names_of(files))
    if not found or count != f"{len(made)}\n" or f"{windows.request} span {windows.report.span}" != made.request:
        raise spans.WrongReport("no verification of this certificate")
    return Verified(windows, len(made))


def request_options(report: spans.CertificateText) -> dict[str, str]:
    """The options of the program for the request of a certificate."""
    asked = dict(report.request_words)
    values = asked.pop("values").split(",")
    row = KINDS[asked["kind"]]
    names = [name for name in ("ref", "radius1", "radius2") if name in row.options()]
    if not row.frame:
        del asked["frame"]
    start, end = report.span.split(" ")
    options = {name: word for name, word in asked.items() if word != "-"}
    return {**options, "tick": str(report.tick), **dict(zip(names, values)), "from": start, "to": end}

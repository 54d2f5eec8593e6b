"""The command `finder report`: reports of the program as tables."""

from __future__ import annotations

import argparse
import io
from pathlib import Path
from typing import Any, Union

from ..reports.calendar import WrongReport
from ..reports.reading import read_parts
from ..reports.report import CertificateText, Report
from ..reports.sets import TimeSet
from ..reports.windows import Windows
from .streams import read

FORMS = ("table", "csv", "json", "parquet")
DESCRIPTION = """\
Reads reports that the program printed, of windows or of sets of times, and prints them as one table: a row for each
window, or for each sure and each possible span. Each line of a report is checked, and the counts of its last one.

Times are TDB; the columns that end in _ms are milliseconds since J2000. It needs pandas, and parquet needs pyarrow."""
EXAMPLES = """\
examples:
  finder report moons --format csv >moons.csv
  finder find --kind apsis --target moon --observer earth examples/de405-2000.asc | finder report
  finder report moons new-moons --format parquet >events.parquet"""
VERIFIED = "VERIFIED leaves "


def add_words(command: argparse.ArgumentParser) -> None:
    """Adds what the command takes: reports and a form."""
    command.add_argument("reports", nargs="*", metavar="REPORT", help="files of reports; standard input without one")
    command.add_argument("--format", choices=FORMS, default="table", help="table without it")


def run(words: argparse.Namespace) -> bytes:
    """The reports in the form that is asked for."""
    texts = [Path(name).read_bytes() for name in words.reports] or [read()]
    return formatted("".join(text.decode("ascii") for text in texts), words.format)


def formatted(text: str, form: str) -> bytes:
    """Reports, one after the other, in a form."""
    if form not in FORMS:
        raise ValueError(f"no form is {form!r}: there are {', '.join(FORMS)}")
    found = [_read(part) for part in read_parts(_without_count(text))]
    if not found:
        raise WrongReport("no report")
    return _written(_joined(found), form)


def _without_count(text: str) -> str:
    """A text without the line of `verify` after its report."""
    report, found, count = text.rpartition(VERIFIED)
    return report if found and count.count("\n") == 1 else text


def _read(part: Any) -> Union[Windows, TimeSet]:
    if isinstance(part, CertificateText):
        raise WrongReport("a certificate has pieces, and no windows: `finder verify` prints these")
    return Windows(part) if isinstance(part, Report) else TimeSet.of_report(part)


def _joined(found: list[Union[Windows, TimeSet]]) -> Any:
    """One table of several, one below the other."""
    import pandas

    return pandas.concat([each.to_pandas() for each in found], ignore_index=True)


def _written(table: Any, form: str) -> bytes:
    """A table in a form."""
    if form == "table":
        return f"{table.to_string(index=False, na_rep='')}\n".encode()
    if form == "csv":
        import numpy as np

        for name in ("first", "last"):
            table[name] = np.datetime_as_string(table[name].to_numpy().astype("datetime64[ms]"))
        return str(table.to_csv(index=False)).encode()
    if form == "json":
        return f"{table.to_json(orient='records', date_format='iso', date_unit='ms', indent=1)}\n".encode()
    out = io.BytesIO()
    table.to_parquet(out)
    return out.getvalue()

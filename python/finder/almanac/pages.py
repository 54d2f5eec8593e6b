"""The forms in which an almanac is printed."""

from __future__ import annotations

from enum import Enum
from typing import Union

from ..public import public
from ..searches.words import one_of
from ..seen.scales import Clock
from .entries import Almanac
from .tables import csv_of, json_of, text_of


@public
class Format(Enum):
    """A form of an almanac, by the names that `--format` takes.

    >>> import finder
    >>> [form.value for form in finder.Format]
    ['text', 'html', 'csv', 'json', 'ics']
    """

    TEXT = "text"
    HTML = "html"
    CSV = "csv"
    JSON = "json"
    ICS = "ics"


def _html_of(found: Almanac, clock: Clock) -> str:
    # (its drawings and its template are loaded where a page is wanted)
    from .html import html_of

    return html_of(found, clock)


def _ics_of(found: Almanac, clock: Clock) -> str:
    from .ics import ics_of

    return ics_of(found, clock)


MAKERS = {Format.TEXT: text_of, Format.HTML: _html_of, Format.CSV: csv_of, Format.JSON: json_of, Format.ICS: _ics_of}


@public
def page(found: Almanac, form: Union[Format, str] = Format.TEXT, clock: Clock = Clock()) -> str:
    """An almanac in a form, as `"html"`, with its times by a clock, which is UTC unless another is given.

    >>> import finder
    >>> year = "examples/de405-2000.asc"
    >>> made = finder.almanac(year, "2000-03-01", "2000-04-01", groups="seasons")
    >>> finder.page(made, "csv").splitlines()[0].split(",")[:3]
    ['group', 'event', 'name']
    """
    if not isinstance(form, Format):
        one_of("format", form, [each.value for each in Format])
    return MAKERS[Format(form)](found, clock)

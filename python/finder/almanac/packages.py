"""The packages that the forms of an almanac need, and what is said if one is missing."""

from __future__ import annotations

from typing import Any


def icalendar_package() -> Any:
    """The package icalendar; an `ImportError` that names it if it is missing."""
    try:
        import icalendar
    except ImportError:
        raise ImportError(
            "a calendar needs the package icalendar (Debian: python3-icalendar; pip: icalendar); the other forms do not"
        ) from None
    return icalendar


def jinja2_package() -> Any:
    """The package jinja2; an `ImportError` that names it if it is missing."""
    try:
        import jinja2
    except ImportError:
        raise ImportError(
            "a page needs the package jinja2 (Debian: python3-jinja2; pip: jinja2); the other forms do not"
        ) from None
    return jinja2

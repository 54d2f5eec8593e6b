"""The packages that the sky of a place needs, and what is said if one is missing."""

from __future__ import annotations

from typing import Any

from ..seen.apparent import NoErfa


def erfa_package() -> Any:
    """The package erfa; `NoErfa` names it if it is missing."""
    try:
        import erfa
    except ImportError:
        raise NoErfa(
            "the sky of a place needs the package erfa (Debian: python3-erfa; pip: pyerfa); it comes with astropy"
        ) from None
    return erfa


def astropy_iers() -> Any:
    """The tables of the IERS that astropy ships; an `ImportError` that names it if it is missing."""
    try:
        from astropy.utils import iers
    except ImportError:
        raise ImportError(
            "UT1 is by the table of the IERS that astropy ships (Debian: python3-astropy; pip: astropy): install it, "
            "or give delta_t=, TT less UT1 in seconds"
        ) from None
    return iers

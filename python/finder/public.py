"""Public classes and functions show as those of `finder`, whatever module they are in."""

from __future__ import annotations

import typing
import warnings
from typing import Any, TypeVar

T = TypeVar("T", bound=Any)


def public(named: T) -> T:
    """What it is given, which now says that it is of `finder`: in tracebacks, in `help` and in pickles."""
    own = named.__dict__.get("__annotations__") if isinstance(named, type) else None
    if own:
        # (the names of its hints are those of its own module, in which nobody looks for them any more)
        hints = typing.get_type_hints(named)
        named.__annotations__ = {name: hints[name] for name in own}
    named.__module__ = "finder"
    return named


def renamed(old: str, new: str) -> Any:
    """A property by its old name, which gives that of the new one with a `DeprecationWarning`, for one release."""

    def get(self: Any) -> Any:
        name = type(self).__name__
        said = f"{name}.{old} is now {name}.{new}, and goes with the next release"
        warnings.warn(said, DeprecationWarning, stacklevel=2)
        return getattr(self, new)

    return property(get, doc=f"The old name of `{new}`.")

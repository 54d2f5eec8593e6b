"""Names and texts as messages show them: no letter of theirs does anything to a terminal."""

from __future__ import annotations

import os


def shown(text: object) -> str:
    """A name or a text with what cannot be printed escaped, as in a literal of Python.

    >>> print(shown("ascp\\x1b[31m2000.405"))
    ascp\\x1b[31m2000.405
    >>> print(shown("Größe"))
    Größe
    """
    return "".join(
        letter if letter.isprintable() else letter.encode("unicode_escape", "surrogatepass").decode("ascii")
        for letter in str(text)
    )


def shown_lines(text: object) -> str:
    """The same of a text of several lines.

    >>> print(shown_lines("finder: read fault a\\x07\\nlikely: it is not there"))
    finder: read fault a\\x07
    likely: it is not there
    """
    return "\n".join(map(shown, str(text).split("\n")))


def fault_of(error: OSError) -> str:
    """What an error of the system says: the file's name, and the cause.

    >>> fault_of(FileNotFoundError(2, "No such file or directory", "plan"))
    'plan: No such file or directory'
    """
    if error.errno is None:
        return shown(error)
    cause = error.strerror or os.strerror(error.errno)
    return cause if error.filename is None else f"{shown(os.fsdecode(error.filename))}: {cause}"

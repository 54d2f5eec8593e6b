"""Where the program is."""

from __future__ import annotations

import os
import platform
import shutil
from pathlib import Path
from typing import Optional, Union

from ..public import public

# The program of this machine, as it is shipped, and as an installed package has it.
PROGRAM = f"finder-{platform.machine()}-linux"
# The library of this machine, which is shipped for x86-64 alone.
LIBRARY = f"libfinder-{platform.machine()}-linux.so"
# As many bytes of a script tell what runs it: pip names a long path of an interpreter on its second line.
BEGIN = 400


@public
class NoProgram(OSError):
    """There is no command `finder` to run.

    >>> import finder
    >>> try:
    ...     finder.check("examples/de405-2000.asc", program="/no/finder")
    ... except finder.NoProgram as error:
    ...     print(error.strerror)
    /no/finder cannot be run: No such file or directory
    """


def _on_path() -> Optional[str]:
    """The first `finder` on the path that is no script of Python: such a one is this package's own command."""
    for folder in os.get_exec_path():
        found = shutil.which("finder", path=folder)
        if found and not _is_python(found):
            return found
    return None


def _is_python(name: str) -> bool:
    """Whether a file is a script of Python; one that may be run and not read is none."""
    try:
        with open(name, "rb") as file:
            begin = file.read(BEGIN)
    except OSError:
        return False
    return begin.startswith(b"#!") and b"python" in begin


def find_program(named: Optional[Union[str, os.PathLike[str]]] = None) -> str:
    """The command: the one that is named, else $FINDER, else the one that was installed with this package, else
    the clone's that it is in, else `finder` on the path."""
    chosen = named or os.environ.get("FINDER")
    if chosen:
        return os.fspath(chosen)
    here = Path(__file__).resolve().parents[1]
    if (here / PROGRAM).is_file():
        return str(here / PROGRAM)
    top = here.parent.parent
    if (top / "finder").is_file() and (top / "release" / "common").is_file():
        return str(top / "finder")
    found = _on_path()
    if not found:
        raise NoProgram("there is no command finder: name it, by $FINDER too, or put it on the path")
    return found

"""The names and versions of what a text is made by, for its title and its key."""

from __future__ import annotations

import functools
import sys

# The modules that say the version of a package themselves: reading what was installed takes some milliseconds.
MODULES = {"numpy": "numpy", "pyerfa": "erfa"}


def versions(*packages: str) -> str:
    """The versions of this package and of others, as they were installed.

    >>> versions("numpy").split()[::2]
    ['finder', 'numpy']
    """
    from .. import __version__

    return ", ".join([f"finder {__version__}", *(f"{package} {_version(package)}" for package in packages)])


@functools.lru_cache(maxsize=None)
def _version(package: str) -> str:
    known = getattr(sys.modules.get(MODULES.get(package, "")), "__version__", None)
    if known is not None:
        return str(known)
    import importlib.metadata

    try:
        return importlib.metadata.version(package)
    except importlib.metadata.PackageNotFoundError:
        return "of no known version"

"""What developers run over Python and shell: tests and types for each Python that is there, layout, and scripts.

    nox            all of it; what is missing is skipped by name
    nox -l         the sessions
    nox -s layout types-3.9

It needs nox (Debian: `nox`), and uses what is installed: nothing is downloaded. A Python is looked for on the path and
among those of pyenv. `python/` promises 3.9 and later.
"""

from __future__ import annotations

import glob
import os
import re
import shutil
import subprocess
from typing import Optional

import nox

OLDEST, NEWEST = "3.9", "3.13"
VERSIONS = ("3.9", "3.10", "3.11", "3.12", "3.13")
# Folders of Python, and of scripts in either language that have no ending.
PYTHON = ("python/finder", "python/setup.py", "python/tests", "dev", "tools", "tests", "docs/site", "docs/conf.py", "bench")
SCRIPTS = ("dev", "tools", "tests/edits", "tests/system", "tests/support", ".ci", "release", "packaging", "bench", "docs")
# The columns of a line at most, and what a layout may have: imports after a change of the path, and breaks before operators.
WIDTH = 128
IGNORED = "E203,E402,W503"
nox.options.default_venv_backend = "none"


def can(words: "list[str]") -> bool:
    """Whether a command ends well, without a word."""
    try:
        return subprocess.run(words, stdout=subprocess.DEVNULL, stderr=subprocess.DEVNULL, check=False).returncode == 0
    except OSError:
        return False


def interpreter(version: str, module: str = "sys") -> Optional[str]:
    """Returns a Python of this version that has a module: of Debian, of the path, or of pyenv."""
    pyenv = os.path.expanduser(os.environ.get("PYENV_ROOT", "~/.pyenv"))
    kept = sorted(glob.glob(f"{pyenv}/versions/{version}.*/bin/python"))
    places = [f"/usr/bin/python{version}", shutil.which(f"python{version}"), *kept]
    return next((it for it in places if it and can([it, "-c", f"import {module}"])), None)


def any_interpreter(module: str) -> Optional[str]:
    """Returns some Python that has a module."""
    return next((it for it in (interpreter(version, module) for version in VERSIONS) if it), None)


def first_line(path: str) -> str:
    """Returns the first line of a file, or nothing if it is none of text."""
    try:
        with open(path, encoding="utf-8") as file:
            return file.readline()
    except (OSError, UnicodeDecodeError):
        return ""


def scripts(language: str) -> "list[str]":
    """Returns the scripts of a language, by their first line."""
    places = ["finder", "test", *(path for folder in SCRIPTS for path in sorted(glob.glob(f"{folder}/*")))]
    marks = re.compile(rf"#!.*\b{language}$|# shellcheck shell={language}$")
    return [it for it in places if os.path.isfile(it) and marks.match(first_line(it).rstrip())]


@nox.session(python=False)
@nox.parametrize("version", VERSIONS, ids=VERSIONS)
def tests(session: nox.Session, version: str) -> None:
    """The tools of developers and, if there is numpy, the package for Python."""
    python = interpreter(version, "numpy") or interpreter(version)
    if not python:
        session.skip(f"there is no Python {version} here")
    where = {"PYTHONDONTWRITEBYTECODE": "1", "FINDER": os.path.abspath("release/finder-x86_64-linux")}
    session.run(python, "-m", "unittest", "discover", "-q", "-s", "tests/tools", "-t", ".", external=True, env=where)
    session.run(python, "tools/spans", "--help", external=True, silent=True, env=where)
    if not can([python, "-c", "import numpy"]):
        session.skip(f"the package is not tried with Python {version}, which has no numpy here")
    with session.chdir("python"):
        session.run(python, "-m", "unittest", "discover", "-q", external=True, env=where)


@nox.session(python=False)
@nox.parametrize("version", (OLDEST, NEWEST), ids=(OLDEST, NEWEST))
def types(session: nox.Session, version: str) -> None:
    """The types of the package and of the developers' reader of sources, on the oldest and the newest Python."""
    python = any_interpreter("mypy")
    if not python:
        session.skip("there is no mypy here")
    with session.chdir("python"):
        session.run(python, "-m", "mypy", "--python-version", version, "--no-warn-unused-ignores", external=True)
    session.run(python, "-m", "mypy", "--strict", "--python-version", version, "-p", "dev.sources", external=True)


@nox.session(python=False)
def layout(session: nox.Session) -> None:
    """Names that are not used, lines that are too long, and what else a linter sees."""
    files = [*PYTHON, "noxfile.py", *scripts("python3")]
    if shutil.which("ruff"):
        session.run("ruff", "check", "--line-length", str(WIDTH), "--ignore", "E402", *files, external=True)
    elif shutil.which("flake8"):
        session.run("flake8", f"--max-line-length={WIDTH}", f"--extend-ignore={IGNORED}", *files, external=True)
    else:
        session.skip("there is neither ruff nor flake8 here")


@nox.session(python=False)
def shell(session: nox.Session) -> None:
    """Scripts of the shell."""
    if not shutil.which("shellcheck"):
        session.skip("there is no shellcheck here")
    session.run("shellcheck", "-x", "-S", "warning", *scripts("(?:ba)?sh"), external=True)

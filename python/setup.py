"""Puts the shipped program into the package that is built, so that what is installed searches at once.

There is one for Linux on x86-64 and one on 64-bit ARM: `release/finder-x86_64-linux` and `release/finder-aarch64-linux` of
the clone in which this folder lies, or, in a source distribution, the copies of both that stand in `finder/`. A wheel has
the one of the machine, and says so. Elsewhere a wheel has no program, and `program=` or the variable FINDER names one. For
x86-64 there is the library too, by which a search runs in the process of its caller. The
version is that of the clone's `VERSION`, of which what is built has a copy in `finder/`.
"""

from __future__ import annotations

import shutil
import sysconfig
from pathlib import Path

from setuptools import Distribution, setup
from setuptools.command.build_py import build_py
from setuptools.command.sdist import sdist

try:
    from setuptools.command.bdist_wheel import bdist_wheel
except ImportError:
    from wheel.bdist_wheel import bdist_wheel

HERE = Path(__file__).resolve().parent
# What is shipped for each machine: the program, and the library where there is one.
SHIPPED = {
    "x86_64": ("finder-x86_64-linux", "libfinder-x86_64-linux.so"),
    "aarch64": ("finder-aarch64-linux",),
}
VERSION = "VERSION"
# The machine that is built for, if there is a program for it. The program needs the GNU C library 2.34 or later.
MACHINE = next((it for it in SHIPPED if sysconfig.get_platform() == f"linux-{it}"), None)
PLATFORM = f"manylinux_2_34_{MACHINE}" if MACHINE else "any"


def find_version() -> Path:
    """The file with the version: the copy in a source distribution, or that of the clone."""
    found = [path for path in (HERE / "finder" / VERSION, HERE.parent / VERSION) if path.is_file()]
    if not found:
        raise SystemExit(f"the file {VERSION} is neither in .. nor in finder/: build from a clone, or a source distribution")
    return found[0]


def place_version(folder: Path) -> Path:
    """Copies the file with the version into a folder, and says where it is."""
    folder.mkdir(parents=True, exist_ok=True)
    return Path(shutil.copyfile(find_version(), folder / VERSION))


def place_shipped(folder: Path, machine: str) -> None:
    """Copies what is shipped for a machine into a folder."""
    for name in SHIPPED[machine]:
        found = [path for path in (HERE / "finder" / name, HERE.parent / "release" / name) if path.is_file()]
        if not found:
            raise SystemExit(
                f"the file {name} is neither in ../release nor in finder/: build from a clone of the repository, "
                "with pip 21.3 or later, or from a source distribution"
            )
        folder.mkdir(parents=True, exist_ok=True)
        Path(shutil.copyfile(found[0], folder / name)).chmod(0o755)


class BuildWithProgram(build_py):
    """Builds the modules, and puts the version and, if it runs here, the program beside them."""

    def run(self) -> None:
        super().run()
        if getattr(self, "editable_mode", False):
            return
        place_version(Path(self.build_lib, "finder"))
        if MACHINE:
            place_shipped(Path(self.build_lib, "finder"), MACHINE)

    def get_outputs(self, include_bytecode: bool = True) -> list[str]:
        made = list(super().get_outputs(include_bytecode))
        placed = [VERSION, *SHIPPED.get(MACHINE or "", ())]
        return made + [str(Path(self.build_lib, "finder", name)) for name in placed]


class SourceWithProgram(sdist):
    """Makes a source distribution that holds the version and the programs."""

    def make_release_tree(self, base_dir: str, files: list[str]) -> None:
        super().make_release_tree(base_dir, files)
        place_version(Path(base_dir, "finder"))
        for machine in SHIPPED:
            place_shipped(Path(base_dir, "finder"), machine)


class WithProgram(Distribution):
    """What is built holds more than Python where it holds the program."""

    def has_ext_modules(self) -> bool:
        return MACHINE is not None


class WheelOfPlatform(bdist_wheel):
    """Makes a wheel that says for which machines its program is; it is of every Python 3."""

    def get_tag(self) -> tuple[str, str, str]:
        return ("py3", "none", PLATFORM)


setup(
    version=find_version().read_text(encoding="ascii").strip(),
    distclass=WithProgram,
    cmdclass={"build_py": BuildWithProgram, "sdist": SourceWithProgram, "bdist_wheel": WheelOfPlatform},
)

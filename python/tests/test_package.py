"""What is built of the package holds the program, and searches at once where it is put."""

import importlib.util
import os
import shutil
import subprocess
import sys
import sysconfig
import tarfile
import unittest
import unittest.mock
import venv
import zipfile

import finder
from tests.almanacs import has
from tests.common import PROGRAM, REPORT, TOP, YEAR, InFolder, of_the_whole

LINES = """
import finder
words = ({year!r}, "jupiter", "saturn")
found = finder.conjunctions(*words, observer="earth", frame="ecl")
again = finder.conjunctions(*words, observer="earth", frame="ecl", in_process=True)
print(finder.__file__, finder.__version__, found[0].text(), again[0].text())
"""
REQUEST = "find --kind conj --target jupiter --second saturn --observer earth --frame ecl".split()
README_LINES = """
import finder
found = finder.conjunctions("de405-2000.asc", "jupiter", "saturn", observer="earth", frame="ecl")
print(found.time())
"""
ON_ARM = TOP / "release" / "finder-aarch64-linux"
LIBRARY = TOP / "release" / "libfinder-x86_64-linux.so"
HERE = importlib.util.find_spec("setuptools") and importlib.util.find_spec("wheel")


@of_the_whole
@unittest.skipUnless(HERE, "setuptools or wheel is not here")
@unittest.skipUnless(sysconfig.get_platform() == "linux-x86_64", "the program is of Linux on x86-64")
class Built(InFolder):
    def setUp(self):
        super().setUp()
        # (building writes beside the sources)
        clone = self.folder / "clone"
        self.sources = clone / "python"
        left = shutil.ignore_patterns("__pycache__", "build", "*.egg-info", ".mypy_cache")
        shutil.copytree(TOP / "python", self.sources, ignore=left)
        (clone / "release").mkdir()
        for shipped in (PROGRAM, ON_ARM, LIBRARY):
            shutil.copy(shipped, clone / "release")
        shutil.copy(TOP / "VERSION", clone)

    def build(self, sources, kind):
        """What the build makes of sources, by the hook that pip calls."""
        made = self.folder / kind
        made.mkdir()
        hook = f"import setuptools.build_meta as build; print(build.build_{kind}({str(made)!r}))"
        said = subprocess.run([sys.executable, "-c", hook], cwd=sources, capture_output=True, text=True, check=False)
        self.assertEqual(said.returncode, 0, said.stderr)
        return made / said.stdout.splitlines()[-1]

    def run_lines(self, wheel):
        """Puts a wheel where pip would, with the modes that it has, and searches without a variable."""
        place = self.folder / "installed"
        with zipfile.ZipFile(wheel) as file:
            file.extractall(place)
            program = file.getinfo("finder/finder-x86_64-linux")
        self.assertTrue(program.external_attr >> 16 & 0o111)
        (place / program.filename).chmod(0o755)
        variables = {name: value for name, value in os.environ.items() if name not in ("FINDER", "PATH")}
        variables["PYTHONPATH"] = str(place)
        words = [sys.executable, "-c", LINES.format(year=str(YEAR))]
        said = subprocess.run(words, cwd=place, env=variables, capture_output=True, text=True, check=False)
        shown = f"{place}/finder/__init__.py {finder.__version__} 2000-05-28T15:55:49 2000-05-28T15:55:49\n"
        self.assertEqual(said.stdout, shown, said.stderr)

    def test_a_wheel(self):
        wheel = self.build(self.sources, "wheel")
        self.assertEqual(finder.__version__, (TOP / "VERSION").read_text("ascii").strip())
        self.assertEqual(wheel.name, f"finder-{finder.__version__}-py3-none-manylinux_2_34_x86_64.whl")
        self.run_lines(wheel)
        self.install(wheel)

    def test_a_wheel_for_arm(self):
        """It has the program for ARM alone, where the build is one for that machine."""
        with unittest.mock.patch.dict(os.environ, _PYTHON_HOST_PLATFORM="linux-aarch64"):
            wheel = self.build(self.sources, "wheel")
        self.assertEqual(wheel.name, f"finder-{finder.__version__}-py3-none-manylinux_2_34_aarch64.whl")
        with zipfile.ZipFile(wheel) as file:
            names = [it for it in file.namelist() if it.startswith(("finder/finder-", "finder/libfinder-"))]
            self.assertEqual(names, [f"finder/{ON_ARM.name}"])
            self.assertEqual(file.read(names[0]), ON_ARM.read_bytes())

    def install(self, wheel):
        """Installs a wheel in an environment of its own, without the clone and the network, and does what users do."""
        place, pip = self.folder / "env", [sys.executable, "-m", "pip", "--python", str(self.folder / "env/bin/python")]
        venv.EnvBuilder(system_site_packages=True, with_pip=False, symlinks=True).create(place)
        words = [*pip, "install", "--quiet", "--no-deps", "--no-index", str(wheel)]
        said = subprocess.run(words, capture_output=True, text=True, check=False)
        self.assertEqual(said.returncode, 0, said.stderr)
        left = ("FINDER", "PYTHONPATH", "PATH")
        variables = {name: value for name, value in os.environ.items() if name not in left}
        variables["PATH"] = f"{place / 'bin'}:/usr/bin:/bin"
        shutil.copy(YEAR, self.folder / "de405-2000.asc")

        def run(*words):
            done = subprocess.run(
                words, cwd=self.folder, env=variables, capture_output=True, text=True, check=False, encoding="utf-8"
            )
            self.assertEqual(done.returncode, 0, done.stderr)
            return done.stdout

        self.assertEqual(run("finder", "--version"), f"finder {finder.__version__}\n")
        report = run("finder", *REQUEST, "de405-2000.asc")
        self.assertEqual(report, REPORT)
        self.assertEqual(run("python", "-m", "finder", *REQUEST, "de405-2000.asc"), report)
        self.assertIn("/env/", run("python", "-c", "import finder; print(finder.__file__)"))
        if has("astropy"):
            self.assertEqual(run("python", "-c", README_LINES), "['2000-05-28T15:55:49.000']\n")
        if has("erfa"):
            self.assertIn("March equinox", run("finder", "almanac", "2000", "de405-2000.asc", "--only", "seasons"))

    def test_a_source_distribution(self):
        """It holds the program, and a wheel is built of it without the clone."""
        archive = self.build(self.sources, "sdist")
        with tarfile.open(archive) as file:
            file.extractall(self.folder / "unpacked")
        shutil.rmtree(self.folder / "clone")
        self.run_lines(self.build(self.folder / "unpacked" / f"finder-{finder.__version__}", "wheel"))

    def test_sources_without_the_version(self):
        (self.folder / "clone" / "VERSION").unlink()
        hook = "import setuptools.build_meta as build; build.build_wheel('.')"
        said = subprocess.run([sys.executable, "-c", hook], cwd=self.sources, capture_output=True, text=True, check=False)
        self.assertNotEqual(said.returncode, 0)
        self.assertIn("VERSION is neither in .. nor in finder/", said.stderr)

    def test_sources_without_the_program(self):
        shutil.rmtree(self.folder / "clone" / "release")
        hook = "import setuptools.build_meta as build; build.build_wheel('.')"
        words = [sys.executable, "-c", hook]
        said = subprocess.run(words, cwd=self.sources, capture_output=True, text=True, check=False)
        self.assertNotEqual(said.returncode, 0)
        self.assertIn("neither in ../release nor in finder/", said.stderr)


if __name__ == "__main__":
    unittest.main()

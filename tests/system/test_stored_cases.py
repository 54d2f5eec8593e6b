"""The stored cases, each a test: status, output and error output of the program are compared whole, byte for byte, with
the answer of an exact reference.

A search that names no number of workers is run as it stands, and by 1, 2, 7 and 64; in a sample by one of these, each
number in its turn. Devices that fail are preloaded, which needs a C compiler; without one the cases that need them are
skipped. FINDER names another program than the shipped one."""

from __future__ import annotations

import tempfile
import unittest
from pathlib import Path
from typing import Callable, Optional

from tests.support.case_runs import WORKERS, CaseRunner, NoDevices, build_devices, needs_devices
from tests.support.records import Case, CasesError, listed_counts, read_cases
from tests.support.settings import IS_WHOLE, PROGRAM


# (a case that differs is shown without the lines of this module)
__unittest = True


class StoredCases(unittest.TestCase):
    """Runs cases in a folder of their own, with the devices beside it."""

    place: Path
    devices: Optional[Path] = None

    @classmethod
    def setUpClass(cls) -> None:
        place = tempfile.TemporaryDirectory(prefix="finder-cases-")
        cls.addClassCleanup(place.cleanup)
        cls.place = Path(place.name)

    def run_case(self, case: Case, workers: tuple[int, ...]) -> None:
        """Compares each run of a case with its answer."""
        if needs_devices(case) and self.devices is None:
            self.build()
        with tempfile.TemporaryDirectory(dir=self.place) as folder:
            for lines in CaseRunner(PROGRAM, self.devices).run(case, Path(folder), workers):
                if lines:
                    self.fail("\n".join([f"{case.name} differs", *lines]))

    def build(self) -> None:
        """Builds the devices, once; skips the test where they cannot be built."""
        try:
            type(self).devices = build_devices(self.place)
        except NoDevices as error:
            self.skipTest(str(error))


def test_of(case: Case, number: int) -> Callable[[StoredCases], None]:
    """The test of a case."""
    workers = WORKERS if IS_WHOLE else (WORKERS[number % len(WORKERS)],)
    return lambda self: self.run_case(case, workers)


def refusal_of(error: CasesError) -> Callable[[StoredCases], None]:
    """The test of a file that cannot be read."""
    return lambda self: self.fail(str(error))


def tests_of(file: str) -> dict[str, Callable[[StoredCases], None]]:
    """The tests of a file of cases, by name."""
    try:
        return {f"test_{case.name}": test_of(case, number) for number, case in enumerate(read_cases(file))}
    except CasesError as error:
        return {"test_the_file_is_in_the_format": refusal_of(error)}


def class_of(file: str) -> type[StoredCases]:
    """The class of a file of cases, as `RealCertificates` of real-certificates.cases."""
    name = "".join(word.capitalize() for word in file[: -len(".cases")].split("-"))
    members: dict[str, object] = {"__module__": __name__, **tests_of(file)}
    return type(name, (StoredCases,), members)


globals().update({made.__name__: made for made in map(class_of, listed_counts())})

"""The examples in the texts of public names, and that each public name has one, and the units of what it takes."""

import doctest
import importlib
import inspect
import os
import unittest
import warnings

import finder
from tests.almanacs import has
from tests.common import PROGRAM, TOP

FLAGS = doctest.IGNORE_EXCEPTION_DETAIL | doctest.NORMALIZE_WHITESPACE | doctest.ELLIPSIS
# What an example may need besides numpy.
NEEDED = ("astropy", "erfa", "pandas")


def own_text(part):
    """The text of a public name itself, and not that of a class above it."""
    return inspect.getdoc(part) or ""


class Examples(unittest.TestCase):
    def test_each_name_has_an_example(self):
        missing = [name for name in finder.__all__ if ">>> " not in own_text(getattr(finder, name))]
        self.assertEqual(missing, [])

    @unittest.skipUnless(all(map(has, NEEDED)), "no astropy, erfa or pandas")
    def test_each_example(self):
        os.environ["FINDER"] = str(PROGRAM)
        self.addCleanup(os.environ.pop, "FINDER", None)
        self.addCleanup(os.chdir, os.getcwd())
        os.chdir(TOP)
        seek, run = doctest.DocTestFinder(recurse=True), doctest.DocTestRunner(verbose=False, optionflags=FLAGS)
        said = []
        with warnings.catch_warnings():
            warnings.simplefilter("ignore")
            for name in finder.__all__:
                home = importlib.import_module(f"finder.{finder._HOMES[name]}")
                for test in seek.find(getattr(finder, name), name, module=False, globs={**vars(home), "finder": finder}):
                    run.run(test, out=said.append)
        self.assertFalse(said, "".join(said))
        self.assertGreater(run.tries, len(finder.__all__))


if __name__ == "__main__":
    unittest.main()

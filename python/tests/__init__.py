"""Tests of the package, over the shipped program and JPL's year 2000: `tests/system/python` runs them."""

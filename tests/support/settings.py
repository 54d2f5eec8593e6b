"""What a run of the tests is given by variables: which program is tested, and whether all is run or a sample."""

from __future__ import annotations

import os
import unittest
from collections.abc import Iterable, Sequence
from pathlib import Path
from typing import TypeVar

Item = TypeVar("Item")

TOP = Path(__file__).resolve().parents[2]
SHIPPED = TOP / "release" / "finder-x86_64-linux"
PROGRAM = Path(os.environ.get("FINDER") or SHIPPED).resolve()
IS_WHOLE = os.environ.get("FINDER_TESTS") == "whole"
# How many rounds of what is made at random the tests of the reference try.
REFERENCE_ROUNDS = 15 if IS_WHOLE else 1
# Why a check is skipped in a sample, which `./test` prints without the names of what is skipped.
SAMPLED = "this is a sample"
# A test of which a sample has nothing.
of_the_whole = unittest.skipUnless(IS_WHOLE, SAMPLED)


def sample(items: Iterable[Item], every: int) -> Sequence[Item]:
    """All items if the whole is run, else the first of each so many."""
    listed = list(items)
    return listed if IS_WHOLE else listed[::every]

"""Runs the tests of the Python package that is in the search path, and prints `N passed, M failed`.

usage: python3 -m package.run [--without-numpy]

With `--without-numpy` the tests cannot import numpy, also if it is installed. Skipped tests are reported with their reason, and not
counted."""
from __future__ import annotations

import collections
import os
import sys
import unittest
from typing import Any

from tally import Tally


def test_id(test: unittest.TestCase) -> str:
    """Returns the name of a test. A part of a test has the name of the whole test."""
    whole: unittest.TestCase = getattr(test, "test_case", test)
    return whole.id()


def main() -> int:
    """Runs all tests."""
    if "--without-numpy" in sys.argv:
        # The value `None` makes the import of a module fail.
        modules: dict[str, Any] = sys.modules
        modules["numpy"] = None
    here = os.path.dirname(os.path.abspath(__file__))
    tests = unittest.defaultTestLoader.discover(here, top_level_dir=os.path.dirname(here))
    result = unittest.TextTestRunner(stream=sys.stderr, verbosity=0).run(tests)
    # A module that cannot be imported counts as one failed test.
    failed = len({test_id(test) for test, _ in (*result.failures, *result.errors)})
    tally = Tally()
    reasons = collections.Counter(reason for _, reason in result.skipped)
    for reason, count in sorted(reasons.items()):
        print(f"{count} tests skipped: {reason}", file=sys.stderr)
    tally.passed, tally.failed = result.testsRun - len(result.skipped) - failed, failed
    return tally.finish()


if __name__ == "__main__":
    sys.exit(main())

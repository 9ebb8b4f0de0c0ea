#!/usr/bin/env python3
"""Runs the tests of tests/. The last line is 'N passed, M failed'; any failure makes the exit status non-zero."""
import sys
import unittest
from pathlib import Path

TESTS = Path(__file__).resolve().parent / "tests"


def main() -> int:
    suite = unittest.defaultTestLoader.discover(str(TESTS))
    result = unittest.TextTestRunner(stream=sys.stdout, verbosity=1).run(suite)
    # a test fails once, however many of its cases do
    failed = len({getattr(test, "test_case", test).id() for test, _ in result.failures + result.errors})
    passed = max(0, result.testsRun - failed)
    print(f"{passed} passed, {failed} failed")
    return 0 if failed == 0 and passed > 0 else 1


if __name__ == "__main__":
    sys.exit(main())

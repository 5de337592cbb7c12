#!/usr/bin/env python3
"""Runs the package's tests with the program that PLANARBEND names. The last line is 'N passed, M failed, K skipped'; the exit
status is 0 if nothing failed, otherwise 1. Tests that need networkx, Graphviz or rsvg-convert are skipped, by name, if it is
missing.
"""
from __future__ import annotations

import sys
import time
import unittest
from pathlib import Path

sys.dont_write_bytecode = True
TESTS = Path(__file__).resolve().parent


class Counted(unittest.TextTestResult):
    """A result that counts what passed, each test once."""

    def __init__(self, *words, **options):
        super().__init__(*words, **options)
        self.passed = 0

    def addSuccess(self, test):
        super().addSuccess(test)
        self.passed += 1

    def addExpectedFailure(self, test, error):
        super().addExpectedFailure(test, error)
        self.passed += 1


def main() -> int:
    began = time.monotonic()
    sys.path.insert(0, str(TESTS.parent))
    suite = unittest.TestLoader().discover(str(TESTS))
    result = unittest.TextTestRunner(sys.stdout, resultclass=Counted).run(suite)
    for test, reason in result.skipped:
        print(f"skipped: {test.id()}: {reason}")
    failed = len({test.id().partition(" ")[0] for test, _ in [*result.failures, *result.errors]}) + len(result.unexpectedSuccesses)
    print(f"Python tests took {time.monotonic() - began:.0f} s, by {sys.executable}")
    print(f"{result.passed} passed, {failed or not result.passed:d} failed, {len(result.skipped)} skipped")
    return 0 if result.wasSuccessful() and result.passed else 1


if __name__ == "__main__":
    sys.exit(main())

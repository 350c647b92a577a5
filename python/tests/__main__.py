"""Runs all tests: `python3 python/tests`. The last line is `N passed, M failed`; the status is 0 only where M is 0."""

from __future__ import annotations

import sys
import unittest
from pathlib import Path
from typing import Any


class Result(unittest.TextTestResult):
    """Counts the tests that passed. What `testsRun` counts differs from one Python to another."""

    def __init__(self, *given: Any, **named: Any) -> None:
        super().__init__(*given, **named)
        self.passed = 0

    def addSuccess(self, test: unittest.TestCase) -> None:  # noqa: N802
        super().addSuccess(test)
        self.passed += 1


def main() -> int:
    tests = unittest.defaultTestLoader.discover(str(Path(__file__).resolve().parent))
    result = unittest.TextTestRunner(stream=sys.stdout, resultclass=Result).run(tests)
    assert isinstance(result, Result)
    wrong = len(result.failures) + len(result.errors) + len(result.unexpectedSuccesses)
    for test, why in result.skipped:
        print(f"skipped {test.id()}: {why}")
    if result.passed == 0 and wrong == 0:
        print("no test was run")
        wrong = 1
    print(f"{result.passed} passed, {wrong} failed")
    return min(wrong, 1)


if __name__ == "__main__":
    sys.exit(main())

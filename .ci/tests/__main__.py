"""Runs the tests of this folder. The last line on standard output is 'N passed, M failed'.

Those that need the program find it by the variable STABSIM, and are skipped without it. Where it is set, what is skipped failed."""

import os
import sys
import unittest


class Counted(unittest.TextTestResult):
    passed = 0

    def addSuccess(self, test):
        super().addSuccess(test)
        self.passed += 1


def main():
    tests = unittest.defaultTestLoader.discover(os.path.dirname(os.path.abspath(__file__)))
    result = unittest.TextTestRunner(resultclass=Counted).run(tests)
    failed = len(result.failures) + len(result.errors) + len(result.unexpectedSuccesses)
    if os.environ.get("STABSIM"):
        failed += len(result.skipped)
        for test, why in result.skipped:
            print(f"skipped: {test}: {why}")
    print(f"{result.passed} passed, {failed} failed")
    return 1 if failed or not result.passed else 0


sys.exit(main())

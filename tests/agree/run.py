#!/usr/bin/env python3
"""tests/agree/run.py: tests the scripts of `make agree`: they must read the sources correctly, and report wrong pages.

It runs all tests of this directory. The last line is `N passed, M failed`, and the exit status is 1 if a test failed or
none was run.
"""
import pathlib
import sys
import unittest

sys.dont_write_bytecode = True
HERE = pathlib.Path(__file__).resolve().parent
sys.path[:0] = [str(HERE), str(HERE.parent.parent / "scripts")]


def main():
    """Runs the tests, and counts them. If the preparation of a test class fails, this counts as one failed test."""
    tests = unittest.defaultTestLoader.discover(str(HERE))
    result = unittest.TextTestRunner(stream=sys.stdout, verbosity=0).run(tests)
    failed = len({str(test).partition(" (")[0] for test, _ in result.failures + result.errors})
    print(f"{result.testsRun - failed if result.testsRun > failed else 0} passed, {failed} failed", flush=True)
    return failed > 0 or result.testsRun == 0


if __name__ == "__main__":
    sys.exit(main())

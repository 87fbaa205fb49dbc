"""Runs the unittest tests of a folder: `unit_tests.py FOLDER [TOP]`. After what unittest tells stands a line `skipped: ..` for each class of
tests that was left out, with the reason, and a line `failed: ..` for each test that failed. `clients/test` gathers these lines."""

import collections
import os
import re
import sys
import unittest
from typing import Counter, Set, Tuple

NAMED = re.compile(r"\w+ \((.*)\)")  # of a class or a module that couldn't be set up


def name_of(test: unittest.TestCase) -> str:
    """The name of a test, without what it was given in a subtest."""
    found = NAMED.fullmatch(test.id())
    return found[1] if found else test.id().partition(" ")[0]


def tell(result: unittest.TestResult) -> None:
    skipped: Counter[Tuple[str, str]] = collections.Counter((name_of(test).rpartition(".")[0], why) for test, why in result.skipped)
    for (name, why), count in sorted(skipped.items()):
        print(f"skipped: {name}, {count} test{'s' if count > 1 else ''}, since {why}")
    failed: Set[str] = {name_of(test) for test, _ in result.failures + result.errors}
    failed.update(name_of(test) for test in result.unexpectedSuccesses)
    for name in sorted(failed):
        print(f"failed: {name}")


def main() -> int:
    folder = os.path.abspath(sys.argv[1])
    top = os.path.abspath(sys.argv[2]) if len(sys.argv) > 2 else folder
    sys.path.insert(0, top)
    result = unittest.TextTestRunner(verbosity=2).run(unittest.defaultTestLoader.discover(folder, top_level_dir=top))
    sys.stderr.flush()
    tell(result)
    if not result.testsRun:
        print(f"failed: {folder} has no test")
    return 0 if result.wasSuccessful() and result.testsRun else 1


if __name__ == "__main__":
    sys.exit(main())

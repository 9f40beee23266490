"""Runs the examples in docstrings and in docs/PYTHON.md, and every test here. The last line adds up the counts."""

import doctest
import importlib
import os
import sys
import unittest
from pathlib import Path

HERE = Path(__file__).resolve().parent
ROOT = HERE.parent.parent


def main():
    os.chdir(ROOT)
    sys.path[:0] = [str(HERE), str(HERE.parent)]
    import sillgarland

    examples = failures = 0
    for path in sorted(Path(sillgarland.__file__).parent.glob("*.py")):
        name = "sillgarland" if path.stem == "__init__" else f"sillgarland.{path.stem}"
        told = doctest.testmod(importlib.import_module(name))
        examples, failures = examples + told.attempted, failures + told.failed
    page = doctest.testfile(str(ROOT / "docs/PYTHON.md"), module_relative=False)
    examples, failures = examples + page.attempted, failures + page.failed
    if page.attempted == 0:
        failures += 1
        print("docs/PYTHON.md has no example")

    suite = unittest.defaultTestLoader.discover(str(HERE), "test_*.py")
    result = unittest.TextTestRunner(stream=sys.stdout, verbosity=1).run(suite)
    for test, reason in result.skipped:
        print(f"{test}: not run, and not counted: {reason}")
    failed = len(result.failures) + len(result.errors) + failures
    passed = result.testsRun - len(result.skipped) - len(result.failures) - len(result.errors) + examples - failures
    print(f"python: {passed} passed, {failed} failed")
    sys.exit(1 if failed else 0)


if __name__ == "__main__":
    main()

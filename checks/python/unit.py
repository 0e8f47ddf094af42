#!/usr/bin/env python3
"""Runs the package's own tests, as `python -m unittest` in the folder `python` does. The last line says how many there are.

usage: checks/python/unit.py, from anywhere.
"""
import io
import os
import sys
import unittest

import paths

FEWEST = 8


def main() -> bool:
    """Runs all of them, and returns whether one failed or most are missing."""
    os.chdir(os.path.join(paths.ROOT, "python"))
    said = io.StringIO()
    result = unittest.TextTestRunner(said).run(unittest.defaultTestLoader.discover("."))
    if not result.wasSuccessful():
        print(said.getvalue())
    print(f"{result.testsRun} tests of the package: {len(result.failures) + len(result.errors)} failed")
    return not result.wasSuccessful() or result.testsRun < FEWEST


if __name__ == "__main__":
    sys.exit(main())

#!/usr/bin/env python3
"""Checks the types of the package by `mypy --strict`, and its style by `ruff`, where these are installed; else it says that it
did not. The last line says what was found.

usage: checks/python/types_of_package.py, from anywhere. Debian has mypy: `apt-get install mypy`.
"""
import os
import shutil
import subprocess
import sys
import tempfile

import paths

PACKAGE = os.path.join(paths.ROOT, "python")


def found_by(*command: str) -> list[str] | None:
    """The lines of a program's complaints about the package; None if it is not installed."""
    if shutil.which(command[0]) is None:
        return None
    done = subprocess.run(command, cwd=PACKAGE, capture_output=True, text=True)
    lines = (done.stdout + done.stderr).strip().splitlines()
    return lines or ["it failed"] if done.returncode else []


def main() -> bool:
    """Runs both, and returns whether one complains."""
    is_wrong = False
    with tempfile.TemporaryDirectory() as cache:
        for name, words in (("mypy", ("mypy", "--strict", "--cache-dir", cache, "arena")),
                            ("ruff", ("ruff", "check", "--no-cache", "arena", "tests"))):
            lines = found_by(*words)
            if lines:
                print("\n".join(lines))
            is_wrong |= bool(lines)
            print(f"{name}: {'skipped, it is not installed' if lines is None else 'complains' if lines else 'no complaint'}")
    return is_wrong


if __name__ == "__main__":
    sys.exit(main())

#!/usr/bin/env python3
"""Plants each fault of `planted.py` into a copy of the compiler, one at a time, and runs some drawn programs by it, or
drawn ranges, which must find it. The last line says how many there are.

usage: checks/python/faults.py, from anywhere.
"""
import os
import re
import shutil
import subprocess
import sys
import tempfile

import paths
from planted import PLANTED

LANGUAGE = "arena/language"


def is_found(folder, it):
    """Whether its check finds a fault; says why if it can't be planted, or is not found."""
    package = os.path.join(folder, "python")
    shutil.copytree(os.path.join(paths.PACKAGE, "arena"), os.path.join(package, "arena"))
    path = os.path.join(package, LANGUAGE, it.file)
    with open(path) as source:
        text = source.read()
    if text.count(it.old) != 1:
        print(f"{it.file}: {it.what}: the text is there {text.count(it.old)} times")
        return False
    with open(path, "w") as source:
        source.write(text.replace(it.old, it.new))
    check, *words = it.words
    run = subprocess.run([sys.executable, os.path.join(os.path.dirname(os.path.abspath(__file__)), check), *words],
                         env={**os.environ, "ARENA_PYTHON": package}, capture_output=True, text=True)
    found = re.search(r": (\d+) differences$", run.stdout.strip())
    if found and int(found[1]) > 0:
        return True
    print(f"{it.file}: {it.what}: not found; {run.stdout.strip()[-200:]} {run.stderr.strip()[-400:]}")
    return False


def main():
    missed = 0
    for it in PLANTED:
        with tempfile.TemporaryDirectory() as folder:
            missed += not is_found(folder, it)
    passes = {it.file for it in PLANTED}
    print(f"{len(PLANTED)} faults planted in {len(passes)} modules: {missed} not found")
    return missed


if __name__ == "__main__":
    sys.exit(bool(main()))

#!/usr/bin/env python3
"""Builds arena-server or arena-host without proofs with a defect that was planted, on a copy of the repository, and looks how soon the
schedules find it. What is planted in the server could not be proved; some of it was so once.

usage: checks/schedules/planted.py [NAME ..], at the top of the repository: all, or those with these names. Each takes a minute or
two to build. It ends with a status other than 0 if one is not found.
"""
import os
import pathlib
import queue
import subprocess
import sys
import tempfile
import time

from bench import Bench
from defects import PLANTED, Defect
from running import build, find_stops

SECONDS = 600
"""For how long a defect is looked for."""


def plant(defect: Defect, folder: pathlib.Path) -> pathlib.Path:
    """A program with a defect, built on a copy of what is committed."""
    tree = subprocess.run(["git", "archive", "HEAD"], check=True, capture_output=True).stdout
    subprocess.run(["tar", "-x", "-C", folder], input=tree, check=True)
    for edit in defect.edits:
        file = folder / edit.file
        text = file.read_text()
        assert text.count(edit.old) == 1, edit
        file.write_text(text.replace(edit.old, edit.new))
    subprocess.run(["checks/build/unproved.py", defect.program], cwd=folder, check=True, stdout=subprocess.DEVNULL)
    return folder / "out/unproved" / defect.program


def is_found(name: str, program: pathlib.Path, library: pathlib.Path, is_host: bool) -> bool:
    """Whether a defect is found, which is printed with its seed and the time that it took."""
    stops = library.with_name("stops")
    find_stops(program, stops)
    bench = Bench(program, None, library, stops, queue.SimpleQueue(), is_host)
    bench.processors.put(min(os.sched_getaffinity(0)))
    began, seed = time.monotonic(), 0
    while time.monotonic() < began + SECONDS:
        outcome = bench.tried(seed)
        if outcome.faults:
            print(f"{name}: found by seed {seed}, after {time.monotonic() - began:.0f} s: {outcome.faults[0]}", flush=True)
            return True
        seed += 1
    print(f"{name}: not found by {seed} seeds in {SECONDS} s", flush=True)
    return False


def main() -> None:
    """Plants the defects, one after another."""
    names = sys.argv[1:] or list(PLANTED)
    found = 0
    for name in names:
        with tempfile.TemporaryDirectory() as folder:
            library = build(pathlib.Path(folder))
            tree = pathlib.Path(folder) / "tree"
            tree.mkdir()
            found += is_found(name, plant(PLANTED[name], tree), library, PLANTED[name].program == "arena-host")
    print(f"{found} of {len(names)} planted defects found")
    sys.exit(found < len(names))


main()

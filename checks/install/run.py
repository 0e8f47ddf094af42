#!/usr/bin/env python3
"""Installs into folders of its own, builds the Debian package and the archive, and runs what is in them.

usage: checks/install/run.py [WORD..], from anywhere, after `rt ci`, `make build` or `checks/build/unproved.py`: all checks,
or those whose names have one of the words. What needs something that is not there says so, and is skipped. Only root with
REALLY_INSTALL=1 installs the package on this machine, and purges it.
"""
import os
import pathlib
import sys
import tempfile
import time
import traceback
from concurrent.futures import ThreadPoolExecutor

import room  # first: it says where the other modules' imports are
import archive
import debian
import pages
import tree
import units

CHECKS = (*tree.CHECKS, *debian.CHECKS, *archive.CHECKS, *units.CHECKS, *pages.CHECKS)


def tried(check: room.Check, programs: pathlib.Path) -> tuple[str, str]:
    """Runs a check in a folder of its own. Returns `passed`, `skipped` or `failed`, and what is to be said of it."""
    name = check.__name__.replace("_", " ")
    with tempfile.TemporaryDirectory(prefix="arena-install-") as folder:
        try:
            check(room.Room(pathlib.Path(folder), programs))
        except room.Skipped as why:
            return "skipped", f"{name}: {why}: skipped\n"
        except Exception:
            return "failed", f"{name}: failed\n{traceback.format_exc()}"
    return "passed", ""


def main(words: list[str]) -> int:
    """Runs the checks side by side, and says what there is to say in their order. Returns how many failed. Ends the program
    if a word is in no check's name."""
    start, ends = time.monotonic(), []
    if unknown := [word for word in words if not any(word in it.__name__ for it in CHECKS)]:
        sys.exit(f"no check's name has {', '.join(unknown)}")
    with tempfile.TemporaryDirectory(prefix="arena-install-") as folder:
        programs = room.stage(pathlib.Path(folder) / "programs")
        if not any(programs.iterdir()):
            print("no program is built: checks of installations are skipped")
            return 0
        chosen = [it for it in CHECKS if not words or any(word in it.__name__ for word in words)]
        with ThreadPoolExecutor(len(os.sched_getaffinity(0))) as pool:
            for end, text in pool.map(lambda check: tried(check, programs), chosen):
                print(text, end="", flush=True)
                ends.append(end)
    passed, failed, skipped = (ends.count(it) for it in ("passed", "failed", "skipped"))
    print(f"{time.monotonic() - start:.0f} s")
    print(f"{passed} checks of installations passed, {failed} failed, {skipped} skipped")
    return failed


if __name__ == "__main__":
    sys.exit(bool(main(sys.argv[1:])))

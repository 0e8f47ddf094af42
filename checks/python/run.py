#!/usr/bin/env python3
"""Runs the checks of the Python package side by side, each in a process of its own, and passes on what it prints. The last line says
how many there are, and how many found a difference.

usage: checks/python/run.py [CHECK..], from anywhere, after `rt ci` or `make build`: all checks, if none is named.
"""
import os
import subprocess
import sys
import time
from collections.abc import Sequence
from concurrent.futures import ThreadPoolExecutor

CHECKS = ("language", "faults", "assembler", "trace", "page", "commands", "fuel", "lint", "refusals", "damaged", "worked",
          "client", "completions", "host", "top", "metrics", "metrics_page", "orders", "advise", "lost_jobs",
          "interrupts", "interrupted_commands", "awaited_calls", "strange_replies", "unproved_builds", "drawn_ranges",
          "damaged_dumps", "unit", "nested", "customers", "types_of_package")
FOLDER = os.path.dirname(os.path.abspath(__file__))


def run(check: str) -> tuple[bool, str]:
    """Runs a check. Returns whether it passed, and what it printed, with how long it took."""
    start = time.monotonic()
    pipes = {"stdout": subprocess.PIPE, "stderr": subprocess.STDOUT, "text": True}
    done = subprocess.run([sys.executable, os.path.join(FOLDER, f"{check}.py")], **pipes)
    said = "ok" if done.returncode == 0 else f"status {done.returncode}"
    return done.returncode == 0, f"{done.stdout}{check}: {said}, {time.monotonic() - start:.0f} s"


def main(checks: Sequence[str]) -> list[str]:
    """Runs checks side by side, as many as there are processors, the longest first. Returns those that failed, and ends
    the program if one is named that is not there."""
    checks, failed = checks or CHECKS, []
    if unknown := [check for check in checks if check not in CHECKS]:
        sys.exit(f"no check is called {', '.join(unknown)}")
    with ThreadPoolExecutor(len(os.sched_getaffinity(0))) as pool:
        for check, (passed, text) in zip(checks, pool.map(run, checks)):
            print(text, flush=True)
            if not passed:
                failed.append(check)
    print(f"{len(checks)} checks of the package: {len(failed)} with differences{': ' if failed else ''}{', '.join(failed)}")
    return failed


if __name__ == "__main__":
    sys.exit(bool(main(sys.argv[1:])))

#!/usr/bin/env python3
"""Fails each allocation in turn of `failed_allocations`, of `arena-script`, by each of its words, and of `arena-server` with three
sessions; each fifth one of `arena-host` with two terms and the start after it; and each third one of a start of it in a folder that a
killed one left (`recovering.py`): or each one of a program that is named.

With one allocation failed, `failed_allocations` makes the call that failed again and prints the same. A script ends for lack of memory
after a first part of its answers, or refuses one line and answers the others as if that were not there. The server does not start,
or refuses one line, which is answered when it is sent again, or has one of the other effects of `sessions.py`; the host has those of
`hosting.py`, and the next start has all that it acknowledged. Each effect must come up.

usage: checks/failed_allocations/run.py [NAME ..], after `rt ci`, or `rt run` in crates/failed_allocations, crates/script_program,
crates/server_program and crates/host_program: of all programs, or of those with these names.
It needs `cc` on the path.
"""
import argparse
import collections
import itertools
import os
import pathlib
import subprocess
import sys
import tempfile
from collections.abc import Iterable
from concurrent.futures import ThreadPoolExecutor

from calls import Calls
from hosting import Host
from outcomes import Program
from recovering import LeftHost
from scripts import scripts
from sessions import Server

# A sweep ends after so many runs in a row in which no allocation failed, or after so many that are wrong.
WHOLE_RUNS, WRONG_RUNS = 3, 10
# How often a program is swept at most until each effect has come up: by how threads take turns an allocation has
# another number, and so the only one of an effect may be missed.
SWEEPS = 4


def swept(program: Program, failing: pathlib.Path, stride: int) -> tuple[int, list[str]]:
    """Sweeps a program until each of its effects has come up, or something is wrong. Returns how many allocations
    failed, and a line for each fault that was found."""
    effects = collections.Counter[str]()
    for turn in range(SWEEPS):
        wrong = sweep(program, failing, range(1 + turn * stride // SWEEPS, sys.maxsize, stride), effects)
        if wrong or all(effects[it] for it in program.effects):
            return effects.total(), wrong
    missing = [it for it in program.effects if not effects[it]]
    return effects.total(), [f"{program.name}, whichever allocation failed, never: {it}" for it in missing]


def sweep(program: Program, failing: pathlib.Path, which: Iterable[int],
          effects: collections.Counter[str]) -> list[str]:
    """Fails these allocations of a program in turn, and counts what that did. Returns a line for each fault that was
    found. Runs that wait most of their time go on side by side."""
    wrong, whole, numbers = [], 0, iter(which)
    with ThreadPoolExecutor(program.lanes) as pool:
        while whole < WHOLE_RUNS and len(wrong) < WRONG_RUNS:
            batch = list(itertools.islice(numbers, program.lanes))
            rooms = [{**os.environ, "LD_PRELOAD": str(failing), "FAIL": str(number)} for number in batch]
            for number, outcome in zip(batch, pool.map(program.run, rooms), strict=True):
                whole = 0 if outcome.has_failed else whole + 1
                effects[outcome.effect] += outcome.has_failed
                if outcome.effect is None or not outcome.has_failed and outcome.effect != "nothing":
                    wrong.append(f"{program.name}, where allocation {number} was to fail: {outcome.seen}")
    return wrong


def main() -> None:
    """Sweeps the programs, and says what was otherwise."""
    parser = argparse.ArgumentParser()
    parser.add_argument("names", nargs="*")
    words = parser.parse_args()
    count, wrong = 0, []
    with tempfile.TemporaryDirectory() as folder:
        failing = pathlib.Path(folder) / "fail.so"
        source = pathlib.Path(__file__).with_name("fail.c")
        subprocess.run(["cc", "-shared", "-fPIC", "-O2", "-o", failing, source], check=True)
        for program in [Calls(), *scripts(), Server(), Host(), LeftHost()]:
            if words.names and program.name not in words.names:
                continue
            failed, others = swept(program, failing, 1 if words.names else program.stride)
            print(f"{program.name}: {failed} allocations failed", flush=True)
            count, wrong = count + failed, wrong + others
    print(*wrong, sep="\n", end="\n" if wrong else "")
    print(f"{count} allocations failed in turn: {len(wrong)} with other answers")
    sys.exit(bool(wrong))


main()

#!/usr/bin/env python3
"""Runs the scripts of the gate, one after another, and stops at the first that fails. Before each it says which it is, what is left, and
when it should be done, by the minutes of the table below and by how fast this machine has been so far.

With --try it runs those that need no proof, over programs that are built without proofs first; those that no clock can disturb run
side by side.

usage: checks/run.py [--try], at the top of the repository; `make test` and `make try` call it.
"""
import argparse
import datetime
import os
import pathlib
import subprocess
import sys
import time
from collections.abc import Sequence
from concurrent.futures import ThreadPoolExecutor
from dataclasses import dataclass

TOP = pathlib.Path(__file__).resolve().parents[1]
PROCESSORS = 4
"""For how many processors the minutes are."""


@dataclass(frozen=True)
class Step:
    """A script with its words, how many minutes it takes, and whether it wants what `rt ci` proves and builds."""

    words: tuple[str, ...]
    minutes: float
    is_over_proofs: bool = True
    scales: bool = False
    """Whether it takes longer on fewer processors."""
    is_timed: bool = False
    """Whether it looks at times, so that nothing else should run beside it."""

    def takes(self) -> float:
        """How many minutes it should take here."""
        processors = len(os.sched_getaffinity(0))
        return self.minutes * (max(1.0, PROCESSORS / processors) if self.scales else 1.0)


def step(words: str, minutes: float, over_proofs: bool = True, scales: bool = False, timed: bool = False) -> Step:
    """A step, by its words."""
    return Step(tuple(words.split()), minutes, over_proofs, scales, timed)


# What tells of a slip within seconds comes first: a page with a name that is gone should not be found after an hour.
STEPS = (
    step("checks/pages/run.py", 0.1, over_proofs=False),
    step("checks/edges/run.py", 0.1, over_proofs=False),
    step("checks/sizes/run.py", 0.1, over_proofs=False),
    step("checks/numbers/run.py", 0.1, over_proofs=False),
    step("checks/build/recorded.py", 0.1, over_proofs=False),
    step("checks/edits/run.py --read", 0.1, over_proofs=False),
    step("checks/examples/run.sh", 0.6, over_proofs=False),
    step("checks/gate/run.py", 60, scales=True),
    step("checks/edits/run.py", 13, scales=True),
    step("checks/stored_runs/run.sh", 0.1),
    step("checks/scripts/run.py", 0.2),
    step("checks/evaluator/run.py", 0.4),
    step("checks/ranges/run.py", 0.1),
    step("checks/server/run.py", 0.7),
    step("checks/schedules/run.py", 1),
    step("checks/host/run.py", 3),
    step("checks/failed_allocations/run.py", 2.5),
    step("checks/fuzz/run.py", 0.3),
    step("checks/compile/run.py", 0.4, over_proofs=False),
    step("checks/python/run.py", 2, over_proofs=False, scales=True, timed=True),
    step("checks/queue/run.py", 0.7, over_proofs=False, timed=True),
    step("checks/cost/run.py --built .", 0.7),
    step("checks/install/run.py", 0.6, over_proofs=False),
    step("checks/haproxy/run.py", 0.6),
)
PROGRAMS = ("arena-script", "arena-server", "arena-host", "arena-compile")


def told(minutes: float) -> str:
    """Some minutes in words."""
    return "a minute" if minutes < 1.5 else f"{minutes:.0f} minutes"


def passed(batch: Sequence[Step]) -> int:
    """Runs scripts, side by side if there are several, each of which is then printed whole; the status of the first that fails, or 0."""
    if len(batch) == 1:
        return subprocess.run(batch[0].words, cwd=TOP).returncode
    how = {"cwd": TOP, "stdout": subprocess.PIPE, "stderr": subprocess.STDOUT, "text": True}
    status = 0
    with ThreadPoolExecutor(len(batch)) as pool:
        for done in pool.map(lambda it: subprocess.run(it.words, **how), batch):
            print(done.stdout, end="", flush=True)
            status = status or done.returncode
    return status


def run(batches: Sequence[Sequence[Step]]) -> int:
    """Runs the scripts; the status of the first that fails, or 0."""
    began, expected = time.monotonic(), 0.0
    minutes = [max(it.takes() for it in batch) for batch in batches]
    for number, batch in enumerate(batches):
        name = ", ".join(" ".join(it.words) for it in batch)
        spent = (time.monotonic() - began) / 60
        pace = max(0.3, spent / expected) if expected > 2 else 1.0  # proofs that were kept take no time; the rest does
        left = sum(minutes[number:]) * pace
        end = datetime.datetime.now() + datetime.timedelta(minutes=left)
        print(f"== {name} ({number + 1} of {len(batches)}): {told(minutes[number] * pace)}; {told(left)} left, until {end:%H:%M}", flush=True)
        if status := passed(batch):
            print(f"== {name} failed after {told((time.monotonic() - began) / 60 - spent)}, with status {status}", flush=True)
            return status
        expected += minutes[number]
    count, took = sum(map(len, batches)), told((time.monotonic() - began) / 60)
    print(f"== all {count} passed in {took}, on {len(os.sched_getaffinity(0))} processors", flush=True)
    return 0


def batches_to_try() -> list[list[Step]]:
    """The scripts that need no proof, after the build of the programs: those that no clock can disturb side by side, then the others."""
    steps = [it for it in STEPS if not it.is_over_proofs]
    build = step(f"checks/build/unproved.py {' '.join(PROGRAMS)}", 1.6, scales=True)
    return [[build], [it for it in steps if not it.is_timed], *([it] for it in steps if it.is_timed)]


def main() -> None:
    """Runs the gate, or what can be tried without proofs."""
    parser = argparse.ArgumentParser()
    parser.add_argument("--try", dest="is_try", action="store_true")
    if parser.parse_args().is_try:
        sys.exit(run(batches_to_try()))
    status = run([[it] for it in STEPS])
    if not status:
        print((TOP / "out/gate.md").read_text().splitlines()[-1])
    sys.exit(status)


if __name__ == "__main__":
    main()

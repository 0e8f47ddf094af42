#!/usr/bin/env python3
"""Runs `arena_fuzz` on drawn rounds, with drawn jobs and the worked ones: the arena and the plain evaluator must not
differ, and every kind of answer, error and fault must have come up, or the comparison means little. The program is
built first if a source is newer than it. The jobs stay in out/fuzz_jobs, so that a round can be done again:
crates/arena_fuzz/out/arena_fuzz ITS_SEED 1 < out/fuzz_jobs.

usage: checks/fuzz/run.py [SEED [ROUNDS]]
"""
import json
import pathlib
import random
import subprocess
import sys
import time
from collections.abc import Iterator

ROOT = pathlib.Path(__file__).resolve().parents[2]
sys.path += [str(ROOT / "checks" / folder) for folder in ("evaluator", "scripts")]

from draws import Draws
from script import worked_jobs

CRATE = ROOT / "crates/arena_fuzz"
PROGRAM = CRATE / "out/arena_fuzz"
JOBS = ROOT / "out/fuzz_jobs"

SEED, ROUNDS = 1, 400
# How long the rounds may take at most, in seconds: some minutes, and as long again for each round beyond those of the gate.
PATIENCE = 300
MOST_JOBS = 10_000
# As many procedures as a program may have. Each but the last runs the next one as a region.
REGIONS = {"args": [3, 4], "fuel": 1000,
           "procs": [*([["isolate", 2, number + 1, 0, 1], ["ret", 2]] for number in range(15)), [["ret", 0]]]}

KINDS = [
    *(f"advance: {it}" for it in ("ran", "nested", "freed", "left", "idle", "stale", "full")),
    *(f"arrive: {it}" for it in ("arrived", "none", "full")),
    *(f"ask: {it}" for it in ("made", "placed", "pending", "cells", "no cells", "arena", "epoch", "released")),
    *(f"ask: cancelled {it}" for it in ("first", "again")),
    *(f"status: {it}" for it in ("running", "cancelled", "complete")),
    *(f"status: fault {number}" for number in (1, 2, 3, 4, 5)),
    *(f"error {number}" for number in (3, 6, 7, 8, 10, 12)),
]


def build() -> None:
    """Builds the program unless it is newer than every source."""
    if PROGRAM.exists():
        built = PROGRAM.stat().st_mtime
        if all(it.stat().st_mtime <= built for it in ROOT.glob("crates/*/src/**/*.rt")):
            return
    with open(CRATE / "stdin") as few:
        run = subprocess.run(["rt", "run"], cwd=CRATE, stdin=few, capture_output=True, text=True)
    if run.returncode:
        print(*run.stdout.splitlines()[-40:], run.stderr[-4000:], sep="\n")
        sys.exit(1)


def jobs(seed: int, count: int) -> Iterator[dict]:
    """Yields the worked jobs, and as many drawn ones as are wanted."""
    yield from (job for name, job in worked_jobs().items() if name != "NOT_VALID")
    yield REGIONS
    draws = Draws(random.Random(seed))
    ways = [draws.job, lambda: draws.job(is_serial=True), draws.nest, draws.tower, draws.tree]
    for draw in draws.random.choices(ways, [10, 2, 4, 1, 3], k=count):
        yield draw()


def main() -> None:
    """Runs the rounds, and says what differed or never came up."""
    given = [int(word) for word in sys.argv[1:3]]
    seed, rounds = given + [SEED, ROUNDS][len(given):]
    build()
    JOBS.parent.mkdir(exist_ok=True)
    JOBS.write_text("".join(json.dumps(job) + "\n" for job in jobs(seed, min(rounds, MOST_JOBS))))
    begun = time.monotonic()
    with open(JOBS) as given_jobs:
        run = subprocess.run([PROGRAM, str(seed), str(rounds)], stdin=given_jobs, capture_output=True, text=True,
                             timeout=PATIENCE * max(rounds / ROUNDS, 1))
    seconds = time.monotonic() - begun
    lines = run.stdout.splitlines()
    if run.returncode or f"{rounds} rounds from seed {seed}: no difference" not in lines:
        print(run.stdout, run.stderr, sep="")
        sys.exit(1)
    counts = dict(line.rsplit(": ", 1) for line in lines if ": " in line)
    missing = [kind for kind in KINDS if int(counts.get(kind, 0)) == 0]
    steps = next(line.split()[0] for line in lines if line.endswith(" steps"))
    for kind in missing:
        print(f"never: {kind}")
    print(f"{rounds} rounds from seed {seed} in {seconds:.0f} s, {steps} steps: no difference, {len(missing)} of {len(KINDS)} kinds missing")
    sys.exit(1 if missing else 0)


main()

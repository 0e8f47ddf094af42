#!/usr/bin/env python3
"""Runs the queue with hosts as they were built, kills and freezes its processes, and looks whether each job that was acknowledged
has exactly one outcome, the right one. The last line says how many checks passed; without a built host all is skipped.

usage: checks/queue/run.py [--seconds S] [--seed N] [--postgres] [--without-fence], at the top of the repository

S is how long processes are killed and frozen, 12 seconds if it is not said. With --postgres nothing is done but that, with a queue in
PostgreSQL, whose server is killed too. With --without-fence dispatchers are frozen until an outcome is changed, S seconds at most, and
what is found is printed; this is for a package that lacks the fence.
"""
import argparse
import contextlib
import os
import pathlib
import subprocess
import sys
import tempfile
import time
from collections.abc import Callable, Iterator, Sequence
from concurrent.futures import ThreadPoolExecutor
from functools import partial

import first
import places
import plain
import power
import proxy
import web
from chaos import IN_A_FILE, IN_POSTGRES, Chaos, Found
from planted import without_fence
from processes import place
from tests.postgres_server import programs, served

RATE = 6.0
"""How many batches of 7 jobs, on the average, each submitter submits in a second."""

PLANTED_SECONDS = 300.0
"""How long dispatchers are frozen at most until what a missing fence leads to is there."""


LONGEST = 1200.0
"""How many seconds a part may take beside those in which processes are killed, on a machine that is busy."""


@contextlib.contextmanager
def chaos(seed: int, postgres: bool) -> Iterator[Chaos]:
    """The processes, with a queue in a file or in PostgreSQL."""
    with contextlib.ExitStack() as opened:
        server = opened.enter_context(served()) if postgres else None
        at = opened.enter_context(place(None if server is None else server.url))
        yield Chaos(at, seed, RATE, server)


def told(found: Found) -> str:
    """What was done and found, on a line."""
    def counts(of: dict[str, int]) -> str:
        """Counts by their names."""
        return ", ".join(f"{name} {count}" for name, count in sorted(of.items())) or "nothing"

    return (f"{found.acknowledged} jobs acknowledged ({counts(found.states)}), {found.run_again} run more than once, {found.run_alone} "
            f"alone for a fault by load; "
            f"harm: {counts(found.done)}; wrong: {counts(found.wrong)}")


def each_acknowledged_job_has_its_outcome(seconds: float, seed: int, postgres: bool = False) -> None:
    """Nothing is wrong."""
    with chaos(seed, postgres) as it:
        it.run(seconds, IN_POSTGRES if postgres else IN_A_FILE)
        found = it.audit()
    print(told(found))
    assert found.acknowledged and not found.wrong, found.examples
    assert all(found.done[it] for it in ("dispatcher", "host", "freeze", "server" if postgres else "clock")), "too little was harmed"


def each_acknowledged_job_has_its_outcome_in_postgresql(seconds: float, seed: int) -> None:
    """The same with a queue in PostgreSQL, by an interpreter that has what it needs."""
    python = places.python_with("psycopg2")
    if python is None or programs() is None:
        print("psycopg2 or PostgreSQL is not installed (apt install postgresql python3-psycopg2): the queue was not tried there")
        return
    words = [python, str(pathlib.Path(__file__).resolve()), "--postgres", "--seed", str(seed), "--seconds", str(seconds)]
    assert subprocess.run(words, timeout=seconds + LONGEST).returncode == 0


def a_missing_fence_is_found(seed: int) -> None:
    """Without the fence the same check finds outcomes that are changed."""
    with tempfile.TemporaryDirectory() as folder:
        words = [sys.executable, str(pathlib.Path(__file__).resolve()), "--without-fence", "--seed", str(seed), "--seconds",
                 str(PLANTED_SECONDS)]
        done = subprocess.run(words, capture_output=True, text=True, timeout=PLANTED_SECONDS + LONGEST,
                              env={**os.environ, "ARENA_PYTHON": without_fence(pathlib.Path(folder))})
    said = done.stdout.splitlines()[-1] if done.stdout else ""
    print(f"without the fence: {said}")
    assert done.returncode == 1 and "not one outcome" in said, done


def main() -> None:
    """Runs all checks, some side by side. One that finds a fault ends the run, once the others have ended."""
    parser = argparse.ArgumentParser()
    parser.add_argument("--seconds", type=float, default=12.0)
    parser.add_argument("--seed", type=int, default=int(time.time()))
    parser.add_argument("--postgres", action="store_true")
    parser.add_argument("--without-fence", action="store_true")
    words = parser.parse_args()
    if places.host_program() is None:
        print("no arena-host is built (checks/build/unproved.py arena-host builds one): the checks of the queue were skipped")
        return
    if words.without_fence:
        with chaos(words.seed, words.postgres) as it:
            it.run(words.seconds, {"freeze": 1}, until_changed=True)
            found = it.audit()
        print(told(found))
        sys.exit(bool(found.wrong))
    if words.postgres:
        each_acknowledged_job_has_its_outcome(words.seconds, words.seed, postgres=True)
        return
    harmed = partial(each_acknowledged_job_has_its_outcome, words.seconds, words.seed)
    in_postgresql = partial(each_acknowledged_job_has_its_outcome_in_postgresql, words.seconds, words.seed)
    by_hand = [*first.CHECKS, *plain.CHECKS, *web.CHECKS, *proxy.CHECKS]
    lanes = [by_hand, [partial(a_missing_fence_is_found, words.seed), *power.CHECKS], [harmed], [in_postgresql]]
    with ThreadPoolExecutor(len(lanes)) as pool:
        done = sum(pool.map(run_all, lanes))
    print(f"{done} checks of the queue passed, by {places.host_program().relative_to(places.TOP)} (seed {words.seed})")


def run_all(checks: Sequence[Callable[[], None]]) -> int:
    """Runs checks, one after another; how many. Raises what the first raises that finds a fault."""
    for check in checks:
        began = time.monotonic()
        check()
        name = check.func.__name__ if isinstance(check, partial) else check.__name__
        print(f"{name}: {time.monotonic() - began:.1f} s", flush=True)
    return len(checks)


if __name__ == "__main__":
    main()

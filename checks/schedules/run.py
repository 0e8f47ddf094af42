#!/usr/bin/env python3
"""Runs arena-server and arena-host as they were built under drawn schedules, with clients as threads of the same process, and
judges what they saw. A seed gives the configuration, the clients and the schedule, and by each second one the host is killed and started
again; the same seed gives the same run.

usage: checks/schedules/run.py [--first S] [--steps N] [--host], at the top of the repository: the seeds from S on until a million
steps are taken, or N, of the server and then of the host, or of the host alone; or
checks/schedules/run.py --seed S [--host] [--trace FILE]: that seed of the server, or of the host. --program and --script name other
builds of arena-server (or arena-host) and arena-script. After `rt ci`, or `rt run` in the programs' crates. It needs `cc` on the
path, and `nm`, without which there are fewer points.
"""
import argparse
import math
import os
import pathlib
import queue
import sys
import tempfile
import time
from collections.abc import Iterator

from bench import Bench, Outcome
from running import build, find_stops

PROGRAM = pathlib.Path("crates/server_program/out/server_program")
HOST = pathlib.Path("crates/host_program/out/host_program")
SCRIPT = pathlib.Path("crates/script_program/out/script_program")
STEPS, SECONDS = 1_000_000, 30
"""How many steps of a program are taken if none are said, and for how many seconds at most."""


def tell(outcome: Outcome, program: pathlib.Path, is_host: bool) -> None:
    """Prints what was found by a seed, and how to see it again."""
    for fault in outcome.faults:
        print(f"seed {outcome.seed}, {outcome.steps} steps: {fault}")
        print(f"  again: checks/schedules/run.py{' --host' * is_host} --seed {outcome.seed} --trace trace.txt --program {program}", flush=True)


def read_words() -> argparse.Namespace:
    """The words that it was called with."""
    parser = argparse.ArgumentParser()
    parser.add_argument("--steps", type=int)
    parser.add_argument("--seed", type=int)
    parser.add_argument("--first", type=int, default=0)
    parser.add_argument("--host", action="store_true")
    parser.add_argument("--trace", type=pathlib.Path)
    parser.add_argument("--program", type=pathlib.Path)
    parser.add_argument("--script", type=pathlib.Path, default=SCRIPT)
    return parser.parse_args()


def outcomes_of(words: argparse.Namespace, program: pathlib.Path, is_host: bool) -> Iterator[Outcome]:
    """Tries a program."""
    with tempfile.TemporaryDirectory() as folder:
        script = words.script.resolve() if words.script.exists() else None
        stops = pathlib.Path(folder) / "stops"
        find_stops(program, stops)
        bench = Bench(program.resolve(), script, build(pathlib.Path(folder)), stops, queue.SimpleQueue(), is_host)
        for processor in os.sched_getaffinity(0):
            bench.processors.put(processor)
        if words.seed is not None:
            if words.trace:
                words.trace.unlink(missing_ok=True)  # each process of the schedule adds to it
            yield bench.tried(words.seed, words.trace.resolve() if words.trace else None)
        else:
            yield from bench.all_tried(words.first, words.steps or STEPS, math.inf if words.steps else SECONDS)


def try_program(words: argparse.Namespace, program: pathlib.Path, is_host: bool) -> bool:
    """Tries a program, if it is there, and says what came of it. Returns whether nothing was wrong."""
    if not program.exists():
        print(f"schedules: skipped, there is no {program}")
        return True
    began, outcomes = time.monotonic(), []
    for outcome in outcomes_of(words, program, is_host):
        tell(outcome, program, is_host)
        outcomes.append(outcome)
    bad, steps = sum(bool(it.faults) for it in outcomes), sum(it.steps for it in outcomes)
    name = "arena-host" if is_host else "arena-server"
    kills = f", {sum(it.kills for it in outcomes)} kills" if is_host else ""
    print(f"{name}: {len(outcomes)} schedules of {steps} steps{kills} in {time.monotonic() - began:.0f} s: {bad} with faults")
    return not bad


def main() -> None:
    """Tries the server and the host, or one of them."""
    words = read_words()
    programs = [(words.program or HOST, True)] if words.host else [(words.program or PROGRAM, False)]
    if not words.host and not words.program and words.seed is None:
        programs.append((HOST, True))
    sys.exit(not all([try_program(words, program, is_host) for program, is_host in programs]))


main()

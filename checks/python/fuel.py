#!/usr/bin/env python3
"""Compares the fuel of compiled sources with that of jobs written by hand, by the second evaluator of checks/evaluator
on a tenant of one slot: a compiled source may use at most 1.5 times as much. The last line says how many there are.

usage: checks/python/fuel.py, from anywhere.
"""
import os
import sys
from collections.abc import Iterator

import paths
from arena.jobs import GREATEST_FUEL
from arena.language import compile_source
from by_hand import BY_HAND

sys.path.append(os.path.join(paths.ROOT, "checks/evaluator"))

from tenant import Tenant

MOST = 1.5
CONFIG = {"name": "a", "priority": "low", "reserved": 1, "rows": 4_096, "slots": 1, "steps": 1_048_576}


def used(job: dict) -> tuple[int, int | None]:
    """The fuel that a job uses on one slot, and its value."""
    tenant = Tenant(CONFIG)
    tenant.ask({"op": "execute", "job": job})
    while tenant.advance(0) != {"moved": "freed"}:
        pass
    it, = tenant.jobs
    return job["fuel"] - it.fuel, tenant.status(it).get("value")


def differences() -> Iterator[str]:
    """Prints the fuel of each, and yields what is wrong."""
    texts = dict(paths.examples())
    for name, it in BY_HAND.items():
        hand = {"args": list(it.args), "fuel": GREATEST_FUEL, "procs": it.procs}
        source = it.source or texts[it.example]
        compiled = compile_source(source, args=it.args).job.to_value()
        (by_hand, hand_value), (by_compiler, value) = used(hand), used(compiled)
        print(f"{name}: {by_hand} by hand, {by_compiler} compiled, {by_compiler / by_hand:.2f} times")
        if (hand_value, value) != (it.value, it.value):
            yield f"{name}: the value is {hand_value} by hand, {value} compiled, and not {it.value}"
        if by_compiler > MOST * by_hand:
            yield f"{name}: the compiled source uses more than {MOST} times the fuel"


def main() -> list[str]:
    """Compares all of them, and returns what is wrong."""
    found = list(differences())
    for it in found:
        print(it)
    print(f"{len(BY_HAND)} jobs by hand: {len(found)} differences")
    return found


if __name__ == "__main__":
    sys.exit(bool(main()))

#!/usr/bin/env python3
"""Compiles drawn sources, runs each job by `arena-script own` under a drawn schedule, and compares its outcome with a
walk over the syntax tree that was drawn; a serial one is also given to `arena-script serial`. The last line says how
many.

usage: checks/python/language.py [--rehearsed] [SEED [PROGRAMS [DIFFERENCES]]]: the seed is 1, and 2,000 programs are run, if
none is said; it ends early after so many differences, or 3. With --rehearsed jobs run in this process, by the replay of
histories, and no program has to be built.
"""
import random
import sys
from collections import Counter

import paths  # noqa: F401: it makes the package known
from arena.language import SourceFault, compile_source
from drawn_sources import Drawer
from printed import Printer
from runs import Stage, Tenant, serial_values
from walk import DivisionByZero, TooLong, Walk

EXPECTED_REFUSALS = {"needs more than 8 registers": "registers", "no group is left for": "groups",
                     "a job has at most 16 procedures": "procedures", "a procedure has at most 256": "instructions"}
SERIAL_SHARE = 0.5
NEEDED = ("complete", "fault 1", "serial", "not serial", "registers", "groups")
MOVES_OF_A_ROW = 8


class Check:
    """The programs that were run, and the differences that were found."""

    def __init__(self, seed, is_rehearsed):
        self.is_rehearsed = is_rehearsed
        self.draws, self.seen, self.differences = random.Random(seed), Counter(), []
        self.serial_jobs, self.tenant = [], None

    def differs(self, source, args, what):
        self.differences.append(f"{what}, of arguments {args}:\n{source}")

    def compiled(self, source, args):
        """The compiled source, or None if it is refused as some must be."""
        try:
            return compile_source(source, args=args)
        except SourceFault as fault:
            kind = next((kind for words, kind in EXPECTED_REFUSALS.items() if words in fault.message), "other refusals")
            self.seen[kind] += 1
            if kind not in EXPECTED_REFUSALS.values():
                self.differs(source, args, f"refused: {fault}")
            return None

    def program(self):
        """Draws one program; returns whether it was run."""
        items = Drawer(self.draws, self.draws.random() > SERIAL_SHARE).program()
        source = Printer(self.draws).program(items)
        args = tuple(self.draws.randint(-5, 9) for _ in range(2))
        compiled = self.compiled(source, args)
        if compiled is None:
            return False
        if self.tenant is None or self.tenant.is_spent():
            self.renew()
        walk = Walk(items, self.tenant.slots)
        try:
            wanted = {"status": "complete", "value": walk.root(args)}
        except DivisionByZero:
            wanted = {"status": "fault", "fault": 1}
        except TooLong:
            self.seen["too long"] += 1
            return False
        self.compare(source, args, compiled, wanted, walk.rows * MOVES_OF_A_ROW)
        return True

    def compare(self, source, args, compiled, wanted, moves):
        found = self.tenant.outcome(compiled.job.to_value(), moves)
        found.pop("job", None)
        if found["status"] == "running":
            self.renew()
        else:
            self.tenant.retire()
        if found != wanted:
            self.differs(source, args, f"{found}, and not {wanted}")
        self.seen[wanted["status"] if "value" in wanted else "fault 1"] += 1
        self.seen["serial" if compiled.serial else "not serial"] += 1
        if compiled.serial and not self.is_rehearsed:
            self.serial_jobs.append((source, args, compiled.job.to_value(), wanted.get("value", "none")))

    def serial(self):
        """Compares the values of the serial jobs."""
        values = serial_values([job for _, _, job, _ in self.serial_jobs])
        for (source, args, _, wanted), value in zip(self.serial_jobs, values, strict=True):
            if value != wanted:
                self.differs(source, args, f"serial value {value}, and not {wanted}")

    def renew(self):
        if self.tenant:
            self.tenant.close()
        self.tenant = Stage(self.draws) if self.is_rehearsed else Tenant(self.draws)


def main(seed=1, programs=2_000, most_differences=3, *, is_rehearsed=False):
    check, ran = Check(seed, is_rehearsed), 0
    while ran < programs and len(check.differences) < most_differences:
        ran += check.program()
    check.serial()
    if check.tenant:
        check.tenant.close()
    for it in check.differences:
        print(it)
    missing = [it for it in NEEDED if not check.seen[it]] if programs >= 1_000 else []
    if missing:
        print(f"no program is one of {missing}")
    shown = ", ".join(f"{count} {kind}" for kind, count in sorted(check.seen.items()))
    print(f"{ran} drawn programs ({shown}): {len(check.differences)} differences")
    return check.differences or missing


if __name__ == "__main__":
    words = [it for it in sys.argv[1:] if it != "--rehearsed"]
    sys.exit(bool(main(*map(int, words), is_rehearsed="--rehearsed" in sys.argv)))

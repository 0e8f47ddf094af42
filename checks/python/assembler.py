#!/usr/bin/env python3
"""Takes jobs apart and puts them together: the worked jobs, the examples in the language and drawn valid jobs must be
the same after `disassemble` and `assemble`, and each compiled example after `assemble` of its listing. Whole assemblies
must give the jobs that stand beside them, and wrong ones be refused with their exact words. The last line says how
many.

usage: checks/python/assembler.py, from anywhere.
"""
import random
import sys

import paths
from arena.assembler import AssemblyFault, assemble, disassemble
from arena.jobs import INSTRUCTIONS, Job, Operand
from arena.language import compile_source
from arena.lint import first_fault_of_job
from assemblies import ASSEMBLIES, REFUSALS

DRAWN_JOBS = 500
ENDS = {Operand.DESTINATION: 7, Operand.SOURCE: 7, Operand.GROUP: 3, Operand.KEY: 7}
NUMBERS = (0, 1, -1, 255, 2**63 - 1, -(2**63))


def drawn_job(draws):
    """A valid job of a few procedures."""
    sizes = [draws.choice((1, 2, 5, 20, 256)) for _ in range(draws.choice((1, 2, 5, 16)))]
    return {"args": [draws.choice(NUMBERS), draws.choice(NUMBERS)], "fuel": draws.choice((1, 77, 1_000_000)),
            "procs": [[instruction(draws, at, size, len(sizes)) for at in range(size)] for size in sizes]}


def instruction(draws, at, size, procedures):
    ends = {**ENDS, Operand.TARGET: size - 1, Operand.PROCEDURE: procedures - 1}
    name = draws.choice(("ret", "jmp") if at == size - 1 else tuple(INSTRUCTIONS))
    return [name, *(draws.choice(NUMBERS) if it is Operand.NUMBER else draws.randint(0, ends[it])
                    for it in INSTRUCTIONS[name])]


def round_trip_differences(jobs):
    """The jobs that are others after both ways."""
    for name, value in jobs:
        text = disassemble(Job.from_value(value))
        if assemble(text).to_value() != value:
            yield f"{name}: another job after both ways"


def listing_differences():
    """The examples whose listing assembles to another job."""
    for name, text in paths.examples():
        compiled = compile_source(text, args=(3, -4), fuel=500)
        if assemble(compiled.listing(), args=(3, -4), fuel=500) != compiled.job:
            yield f"{name}: the listing is that of another job"
        lines = [len(it["lines"]) for it in compiled.source_map()["procedures"]]
        if lines != [len(it) for it in compiled.job.procedures]:
            yield f"{name}: the map has {lines} lines"


def worked_differences():
    """The assemblies that give other jobs, or are refused in other words, or not at all."""
    for text, expected in ASSEMBLIES:
        if assemble(text).to_value() != expected:
            yield f"{text}: {assemble(text).to_line()}"
    for text, expected in REFUSALS:
        try:
            found = assemble(text, file="a").to_line()
        except AssemblyFault as fault:
            found = str(fault)
        if found != expected:
            yield f"{text!r}:\n  {found}\n  {expected}"


def main():
    draws = random.Random(1)
    drawn = [(f"drawn job {number}", drawn_job(draws)) for number in range(DRAWN_JOBS)]
    worked = [it for it in paths.worked_jobs().items() if first_fault_of_job(it[1]) is None]
    invalid = [name for name, value in drawn if first_fault_of_job(value)]
    found = [*(f"{name} is not valid" for name in invalid), *round_trip_differences([*worked, *drawn]),
             *listing_differences(), *worked_differences()]
    for it in found:
        print(it)
    print(f"{len(worked)} worked jobs, {DRAWN_JOBS} drawn ones, {len(ASSEMBLIES)} assemblies, {len(REFUSALS)} "
          f"refusals: {len(found)} differences")
    return found


if __name__ == "__main__":
    sys.exit(bool(main()))

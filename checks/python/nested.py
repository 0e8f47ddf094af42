#!/usr/bin/env python3
"""Compares drawn sources, whose blocks nest in each other, with an interpreter that was written from docs/LANGUAGE.md alone:
what the compiler makes is rehearsed on drawn schedules, in this process. Some are also written in the usual form. The last line
says how many.

usage: checks/python/nested.py [SEED [PROGRAMS [DIFFERENCES]]]: the seed is 1, and 2,000 programs are run, if none is said; it
ends early after so many differences, or 3.
"""
import random
import sys
from collections import Counter

import paths  # noqa: F401: it makes the package known
from arena.language import SourceFault, compile_source
from arena.language.formatting import formatted
from arena.replies import Complete, Fault, FaultCode
from arena.trace.rehearsal import rehearse
from nested_sources import Nest
from reference import TooLong, interpreted

LIMITS = {"needs more than 8 registers": "registers", "no group is left for": "groups", "a procedure has at most": "instructions",
          "a job has at most 16 procedures": "procedures"}
FEWEST = {"complete": 0.5, "fault": 0.01, "refused": 0.005}
"""Which share of the programs is at least so."""


FORMED = 0.05
"""Which share of the programs is also written in the usual form."""


def outcome(source: str, arguments: tuple[int, int], draws: random.Random) -> tuple[str, object]:
    """What the compiled job gives: its kind, and its value."""
    try:
        job = compile_source(source, args=arguments).job
    except SourceFault as fault:
        kind = next((kind for words, kind in LIMITS.items() if words in fault.message), "")
        return ("refused", kind) if kind else ("refused for no limit", str(fault))
    match rehearse(job.to_value(), draws.randint(1, 4), draws).outcome:
        case Complete(value=value):
            return "complete", value
        case Fault(code=FaultCode.DIVISION):
            return "fault", None
        case other:
            return "another end", str(other)


def difference(source: str, arguments: tuple[int, int], draws: random.Random, seen: Counter[str]) -> str:
    """What is wrong with a program, if something is."""
    try:
        wanted = interpreted(source, arguments)
    except TooLong:
        seen["too long"] += 1
        return ""
    kind, found = outcome(source, arguments, draws)
    seen[kind] += 1
    if kind == "refused":
        seen[str(found)] += 1
        return ""
    if (kind, found) != (("fault", None) if wanted is None else ("complete", wanted)):
        return f"{kind}, {found}, and not {wanted}, of arguments {arguments}:\n{source}"
    return ""


def form_difference(source: str) -> str:
    """What is wrong with the usual form of a source: it must be that of itself, and compile to the same job."""
    form = formatted(source)
    if formatted(form) != form:
        return f"its usual form has another one:\n{source}"
    try:
        return "" if compile_source(form).job == compile_source(source).job else f"its usual form is another job:\n{source}"
    except SourceFault:
        return ""


def main(seed: int = 1, programs: int = 2_000, most: int = 3) -> list[str]:
    """Compares programs, and returns what differs."""
    draws, seen, found = random.Random(seed), Counter(), []
    nest = Nest(draws)
    while sum(seen[it] for it in FEWEST) < programs and len(found) < most:
        source, arguments = nest.source(), (draws.randint(-5, 9), draws.randint(-5, 9))
        said = difference(source, arguments, draws, seen)
        found += [said] if said else []
        if draws.random() < FORMED:
            seen["formatted"] += 1
            said = form_difference(source)
            found += [said] if said else []
    for it in found:
        print(it)
    rare = [it for it, share in FEWEST.items() if seen[it] < share * programs] if programs >= 1_000 and not found else []
    if rare:
        print(f"too few programs are {', '.join(rare)}")
    shown = ", ".join(f"{count} {kind}" for kind, count in sorted(seen.items()))
    print(f"{programs} nested programs ({shown}): {len(found)} differences")
    return found or rare


if __name__ == "__main__":
    sys.exit(bool(main(*map(int, sys.argv[1:]))))

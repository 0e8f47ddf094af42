#!/usr/bin/env python3
"""Damages the examples in the language, and the listings of what they compile to, at drawn places: the compiler and the
assembler must refuse each with a place in it, or make a valid job of it, and do nothing else. The last line says how
many there are.

usage: checks/python/damaged.py [SEED], from anywhere.
"""
import random
import re
import sys

import paths
from arena.assembler import assemble
from arena.language import compile_source
from arena.lint import first_fault_of_job
from arena.texts import TextFault

SOURCES, ASSEMBLIES, LEAST = 300, 300, 60
WORD = re.compile(r"\w+|\s+|[^\w\s]")


def damaged(draws, text, words):
    """A text with up to four of its words left out, put in, changed or exchanged."""
    parts = WORD.findall(text)
    for _ in range(draws.choice((1, 1, 2, 4))):
        at, other = draws.randrange(len(parts)), draws.randrange(len(parts))
        match draws.choice(("out", "in", "in", "other", "exchange")):
            case "out":
                del parts[at]
            case "in":
                parts.insert(at, draws.choice(words))
            case "other":
                parts[at] = draws.choice(words)
            case "exchange":
                parts[at], parts[other] = parts[other], parts[at]
    return "".join(parts)


def differences(make, texts, count, draws, seen):
    """What is wrong with what is made of damaged texts."""
    words = [word for text in texts for word in WORD.findall(text)]
    for _ in range(count):
        text = damaged(draws, draws.choice(texts), words)
        try:
            job = make(text)
        except TextFault as fault:
            seen.append("refused")
            if not 0 <= fault.line <= text.count("\n") + 1 or not fault.message:
                yield f"{fault}:\n{text}"
        except Exception as other:  # whatever else it is, it must not come
            yield f"{type(other).__name__}: {other}:\n{text}"
        else:
            seen.append("made")
            if place := first_fault_of_job(job.to_value()):
                yield f"{place}:\n{text}"


def main(seed=1):
    draws, seen = random.Random(seed), []
    sources = [text for _, text in paths.examples()]
    listings = [compile_source(it).listing() for it in sources]
    found = [*differences(lambda it: compile_source(it).job, sources, SOURCES, draws, seen),
             *differences(assemble, listings, ASSEMBLIES, draws, seen)]
    for it in found:
        print(it)
    made, refused = seen.count("made"), seen.count("refused")
    print(f"{made} damaged texts that are jobs, {refused} refused: {len(found)} differences")
    return found or min(made, refused) < LEAST


if __name__ == "__main__":
    sys.exit(bool(main(*map(int, sys.argv[1:]))))

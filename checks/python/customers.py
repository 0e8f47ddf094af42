#!/usr/bin/env python3
"""Jobs as someone wrote them who had read docs/LANGUAGE.md and nothing else, with values that Python gives: each compiles as it
was first written, and gives its value on drawn schedules. The last line says how many there are.

usage: checks/python/customers.py, from anywhere.
"""
import os
import random
import sys
from collections.abc import Iterator

import paths
from arena.language import SourceFault
from arena.language.examples import differences, examples_of

FOLDER = os.path.join(paths.ROOT, "checks/python/data/customers")
FEWEST, SCHEDULES = 12, 4


def wrong(name: str, text: str) -> Iterator[str]:
    """What is wrong with a job."""
    draws = random.Random(1)
    examples = examples_of(text)
    if not examples:
        yield f"{name}: no example"
    for it in examples:
        try:
            for found in differences(text, it, draws, SCHEDULES, name):
                yield f"{name}: {it.text}: {found.found} on {found.slots} slots"
        except SourceFault as fault:
            yield str(fault)


def main() -> list[str]:
    """Runs all of them, and returns what is wrong."""
    names, found = sorted(os.listdir(FOLDER)), []
    for name in names:
        with open(os.path.join(FOLDER, name)) as it:
            found += wrong(name, it.read())
    if len(names) < FEWEST:
        found.append(f"{len(names)} jobs")
    for it in found:
        print(it)
    print(f"{len(names)} jobs as first written: {len(found)} differences")
    return found


if __name__ == "__main__":
    sys.exit(bool(main()))

#!/usr/bin/env python3
"""Compiles each example in the language and runs it by `arena-script own` under drawn schedules: its value, and the
cells that it leaves, must be those that its comments say; a walk over its tree, and `arena-script serial` for a serial
one, must give the same. The last line says how many there are.

usage: checks/python/worked.py, from anywhere.
"""
import os
import random
import re
import sys

import paths
from arena.assembler import assemble
from arena.language import compile_source
from arena.language.examples import examples_of, unit_of
from arena.language.parser import parse
from runs import Tenant, serial_values
from walk import Walk

SCHEDULES = 3
EXAMPLES, BLOCKS = 12, 5
TURNS, ROWS = 1_000_000, 10_000
MOVES = 200


def differences(draws, name, text):
    """What is wrong with a source, by the first example in its comments."""
    example = examples_of(text)[0]
    args, value, keys = example.args, example.value, unit_of(text).cells
    compiled = compile_source(text, args=args, file=name)
    for _ in range(SCHEDULES):
        tenant = Tenant(draws)
        status = tenant.outcome(compiled.job.to_value(), MOVES)
        if status != {"job": 1, "status": "complete", "value": value}:
            yield f"{name}: {status} on {tenant.slots} slots"
        for cell, total in example.cells.items():
            if tenant.cells(keys[cell])["sum"] != total:
                yield f"{name}: {tenant.cells(keys[cell])}"
        tenant.close()
    if Walk(rooted(text), turns=TURNS, rows=ROWS).root(args) != value:
        yield f"{name}: the walk gives another value"
    if compiled.serial and serial_values([compiled.job.to_value()]) != [value]:
        yield f"{name}: another serial value"


def rooted(text):
    """The items of a source, the first function called `main` if none is."""
    items = parse(text)
    if any(it.name == "main" for it in items):
        return items
    return parse(text + "\nfn main(x, y) { return call " + items[0].name + "("
                 + ", ".join("xy"[:len(items[0].parameters)]) + ") }\n")


def blocks_of_page():
    """The blocks of code in the page of the language."""
    with open(os.path.join(paths.ROOT, "docs/LANGUAGE.md")) as it:
        return re.findall(r"^```\n(.*?)^```$", it.read(), re.M | re.S)


def page_differences():
    """What is wrong with the blocks of the page: those that are sources must compile, and those that name an example be
    that; the assembly must give the sum of its range."""
    blocks, texts = blocks_of_page(), dict(paths.examples())
    for block in blocks:
        if re.search(r"^fn ", block, re.M):
            job = compile_source(block).job
            named = re.match(r"# (\w+\.job), ", block)
            if named and job != compile_source(texts[named[1]]).job:
                yield f"the page's {named[1]} is another job"
        elif re.search(r"^proc ", block, re.M):
            if serial_values([assemble(block, args=(0, 1_000)).to_value()]) != [499_500]:
                yield "the page's assembly gives another sum"
    if len(blocks) < BLOCKS:
        yield f"{len(blocks)} blocks in the page"


def main():
    draws, found, examples = random.Random(1), [], list(paths.examples())
    for name, text in examples:
        found += differences(draws, name, text)
    found += page_differences()
    if len(examples) != EXAMPLES:
        found.append(f"{len(examples)} examples, and not {EXAMPLES}")
    for it in found:
        print(it)
    print(f"{len(examples)} examples, {SCHEDULES} schedules each: {len(found)} differences")
    return found


if __name__ == "__main__":
    sys.exit(bool(main()))

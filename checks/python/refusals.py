#!/usr/bin/env python3
"""Compiles each source of `refused_sources.py`, which must be refused with its exact words, and sees to it that every
refusal of the compiler is one of them. The last line says how many there are.

usage: checks/python/refusals.py, from anywhere.
"""
import ast
import os
import re
import sys

import paths
from arena.language import SourceFault, compile_source
from arena.language.faults import Place
from refused_sources import REFUSED

LANGUAGE = os.path.join(paths.PACKAGE, "arena/language")


def places_of_refusals():
    """The file and the lines of each place in the compiler that makes a fault."""
    for name in sorted(os.listdir(LANGUAGE)):
        if name.endswith(".py") and name != "examples.py":  # comments, which are no part of the language
            with open(os.path.join(LANGUAGE, name)) as it:
                tree = ast.parse(it.read())
            for node in ast.walk(tree):
                if isinstance(node, ast.Call) and isinstance(node.func, ast.Attribute) and node.func.attr == "fault":
                    yield name, range(node.lineno, node.end_lineno + 1)


def watch(seen):
    """Notes in `seen` from which file and line each fault is made."""
    made = Place.fault

    def fault(place, message):
        caller = sys._getframe(1)
        seen.add((os.path.basename(caller.f_code.co_filename), caller.f_lineno))
        return made(place, message)

    Place.fault = fault


def said_of(it):
    """What the compiler says of a source."""
    try:
        compile_source(it.source, parameters=it.parameters, file="")
    except SourceFault as fault:
        return str(fault)
    return "accepted"


def main():
    seen, found = set(), []
    watch(seen)
    for it in REFUSED:
        said = said_of(it)
        if not re.fullmatch(re.escape(it.words).replace(re.escape("{}"), "[0-9]+"), said):
            found.append(f"{it.source[:200]}\n  {said}\n  {it.words}")
    places = list(places_of_refusals())
    for name, lines in places:
        if not any((name, line) in seen for line in lines):
            found.append(f"no source is refused by {name}, line {lines[0]}")
    for it in found:
        print(it)
    print(f"{len(REFUSED)} refused sources for {len(places)} places in the compiler: {len(found)} differences")
    return found


if __name__ == "__main__":
    sys.exit(bool(main()))

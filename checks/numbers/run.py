#!/usr/bin/env python3
"""Looks for functions that take two numbers of one type without a contract. Slots, tenants, jobs, rows and moments are plain numbers
here; where a contract says which is which, a function that takes them the wrong way round is not proved, and elsewhere nothing would
tell.

usage: checks/numbers/run.py, at the top of the repository. It exits with a status other than 0 if there is such a function beside
those named here.
"""
import collections
import re
import sys
from collections.abc import Iterator
from pathlib import Path

# What makes a guess that is checked afterwards needs no contract, nor what words a message.
WITHOUT = {
    "arena_compile/src/messages.rt": {"names_of"},
    "job_json/src/canonical/instructions.rt": {"guessed_after_s"},
    "register_choice/src/choose.rt": {"give_colour", "set_colour", "free", "taken"},
}
# Crates of tests, of benchmarks and of programs of checks.
OTHERS = {"arena_fuzz", "benchmarks", "failed_allocations", "worked_jobs", "worked_parts", "worked_sessions", "worked_threads"}
FUNCTION = re.compile(r"\bfn (\w+)")
NUMBER = re.compile(r"\w+: (u8|u16|u32|u64|usize|i64)\b")
BODY = re.compile(r"\n\s*\{\n")


def parameters_of(text: str, at: int) -> str:
    """What stands between the next parentheses that belong together."""
    begin = text.index("(", at)
    depth = 0
    for end in range(begin, len(text)):
        depth += {"(": 1, ")": -1}.get(text[end], 0)
        if depth == 0:
            return text[begin + 1:end]
    return text[begin + 1:]


def loose_functions(text: str) -> Iterator[tuple[str, bool]]:
    """Yields the functions of a source that take two numbers of one type, and whether each has a contract that says something
    of its end."""
    for function in FUNCTION.finditer(text):
        parameters = parameters_of(text, function.end())
        counts = collections.Counter(NUMBER.findall(parameters))
        if counts and max(counts.values()) > 1:
            behind = text.index(parameters, function.end()) + len(parameters)
            body = BODY.search(text, behind)
            yield function[1], "ensures" in text[behind:body.start() if body else behind]


def main() -> None:
    """Looks at each crate, and says which functions have none."""
    sources = [source for source in sorted(Path("crates").glob("*/src/**/*.rt")) if source.parts[1] not in OTHERS and "tests" not in source.parts]
    found = [(source, name, has_contract) for source in sources for name, has_contract in loose_functions(source.read_text())]
    wrong = [f"{source}: {name} takes two numbers of one type, and has no contract" for source, name, has_contract in found
             if not has_contract and name not in WITHOUT.get(str(source.relative_to("crates")), set())]
    print(*wrong, f"{len(found)} functions take two numbers of one type: {len(wrong)} without a contract that should have one", sep="\n")
    sys.exit(bool(wrong))


if __name__ == "__main__":
    main()

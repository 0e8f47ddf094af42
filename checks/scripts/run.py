#!/usr/bin/env python3
"""Gives `arena-script`, as `rt ci` or `make build` built it, the worked rows (`rows.py`), whole scripts
(`whole.py`), dumps (`dumps.py`) and dumps whose ends are missing (`finishes.py`), and compares what it prints,
its status, and what it says on standard error. It builds the program first if a source is newer than it. The
last line says how many there are.
"""
import json
import sys

from dumps import DUMPS
from finishes import differing_finishes
from rows import COUNTS, OUTCOMES, ROWS, SERIAL
from script import advance, arrive, build, collect, execute, line_of, poll, run, submit, tenant
from whole import SCRIPTS


def answers(first, steps):
    """The lines that a script prints, if it ends well, else how it ends."""
    status, printed, said = run([], "".join(it + "\n" for it in [first, *steps]))
    return printed.splitlines() if (status, said) == (0, "") else [f"status {status}: {said}"]


def lines_of(way, job, advances):
    """The lines of a job that is executed on a reserved slot, or by an arrival at a worker's slot."""
    moves = [advance(0)] * advances
    if way == "executed":
        return answers(tenant(1, 1), [execute(job), *moves, collect(1)])
    return answers(tenant(1, 0), [submit(job), arrive(0), *moves, poll(1)])


def differing_rows():
    for name, first, steps in ROWS:
        printed = answers(first, [step for step, _ in steps])
        expected = [line for _, line in steps]
        for number, pair in enumerate(zip(printed, expected), 1):
            if pair[0] != pair[1]:
                yield f"{name}: step {number} printed {pair[0]}, not {pair[1]}"
                break
        else:
            if len(printed) != len(expected):
                yield f"{name}: {len(printed)} lines, not {len(expected)}"


def differing_outcomes():
    for job, advances, expected in OUTCOMES:
        for way in ("executed", "arrived"):
            last = lines_of(way, job, advances)[-1]
            if last != expected:
                yield f"{way}, {line_of(job)}: {last}, not {expected}"
    for way, job, advances, counts in COUNTS:
        words = [json.loads(line).get("moved") for line in lines_of(way, job, advances)]
        found = {word: words.count(word) for word in counts}
        if found != counts:
            yield f"{way}, {line_of(job)}: {found}, not {counts}"


def differing_values():
    printed = run(["serial"], "".join(line_of(job) + "\n" for job, _ in SERIAL))
    expected = (0, "".join(line_of(value) + "\n" for _, value in SERIAL), "")
    if printed != expected:
        yield f"serial: {printed}, not {expected}"


def differing_texts():
    dumps = [(["check"], *dump) for dump in DUMPS]
    for words, text, printed, (status, said) in [*SCRIPTS, *dumps]:
        found = run(words, text)
        if found != (status, printed, said):
            yield f"{words} {text[:200]!r} .. {text[-200:]!r}: {found}"


def main():
    build()
    differences = [*differing_rows(), *differing_outcomes(), *differing_values(), *differing_texts(), *differing_finishes()]
    for difference in differences:
        print(difference)
    jobs = len(OUTCOMES) + len(COUNTS) + len(SERIAL)
    print(f"{len(ROWS)} rows, {jobs} jobs, {len(SCRIPTS)} scripts, {len(DUMPS)} dumps: {len(differences)} differences")
    sys.exit(1 if differences else 0)


main()

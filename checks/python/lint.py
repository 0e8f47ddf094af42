#!/usr/bin/env python3
"""Compares what `arena.lint` says with the rules of docs/PROTOCOL.md: the places of worked refusals, the rows of
checks/ranges, and jobs with one drawn change each, which `arena-script serial` accepts or refuses. The last line says
how many there are.

usage: checks/python/lint.py, from anywhere.
"""
import copy
import json
import random
import sys

import paths
from arena.lint import first_fault_of_config, first_fault_of_job, first_fault_of_tenant, read_value
from places import CONFIGS, JOBS, TEXTS
from runs import serial_answers, serial_values

CHANGED_JOBS = 2_000
SHORT_FUEL = 50
BAD_JSON, BAD_PROGRAM = (json.dumps({"code": code, "error": name}, separators=(",", ":"))
                         for code, name in ((2, "bad_json"), (4, "bad_program")))
CHANGES = (0, 1, 2, 3, 4, 7, 8, 9, 15, 16, -1, 2**63 - 1, 2**63, -(2**63), -(2**63) - 1, 1.0, True, None, "ret", "jmp",
           [], {}, ["ret", 0])


def worked_differences():
    """The worked refusals that have another place or other words."""
    for text, expected in JOBS:
        yield from differing(text, first_fault_of_job(read_value(text)), expected)
    for value, expected in CONFIGS:
        yield from differing(value, first_fault_of_config(value), expected)


def differing(value, place, expected):
    found = place and (str(place), place.procedure, place.instruction)
    if found != (expected and (expected.words, expected.procedure, expected.instruction)):
        yield f"{value}: {found}, and not {expected}"


def text_differences():
    """The texts that are read though the program refuses them, or are not read though it reads them."""
    answers = serial_answers(text for text, _ in TEXTS)
    for (text, is_read), answer in zip(TEXTS, answers, strict=True):
        if is_read != (answer != BAD_JSON):
            yield f"{text[:60]}: the program says {answer}"
        try:
            read_value(text)
            found = True
        except ValueError:
            found = False
        if found != is_read:
            yield f"{text[:60]}: {'read' if found else 'not read'}"


def range_differences(ranges):
    """The rows of checks/ranges that are accepted or refused otherwise."""
    for text, answer in ranges.JOBS:
        yield from accepted(text, first_fault_of_job(read_value(text)), answer != ranges.BAD)
    for value, is_valid in ranges.TENANTS:
        yield from accepted(value, first_fault_of_tenant(value), is_valid)
        if value is not None:
            config = {"tenants": [value], "workers": 1}
            yield from accepted(config, first_fault_of_config(config), is_valid)
    for value, is_valid in ranges.CONFIGURATIONS:
        yield from accepted(value, first_fault_of_config(value), is_valid)


def accepted(value, place, is_valid):
    if (place is None) != is_valid:
        yield f"{str(value)[:200]}: {place or 'accepted'}"


def places_in(value, path=()):
    """The paths of all parts of a value."""
    yield path
    if isinstance(value, list | dict):
        for key in (value if isinstance(value, dict) else range(len(value))):
            yield from places_in(value[key], (*path, key))


def changed(draws, job):
    """A job with one drawn change."""
    job = copy.deepcopy(job)
    path = draws.choice(list(places_in(job))[1:])
    holder = job
    for key in path[:-1]:
        holder = holder[key]
    pick = draws.random()
    if pick < 0.15:
        del holder[path[-1]]
    elif pick < 0.25 and isinstance(holder, list):
        holder.insert(path[-1], draws.choice(CHANGES))
    else:
        holder[path[-1]] = draws.choice(CHANGES)
    return job


def change_differences(draws, jobs):
    """The changed jobs that the program accepts and `arena.lint` refuses, or the other way round."""
    drawn = [changed(draws, {**draws.choice(jobs), "fuel": SHORT_FUEL}) for _ in range(CHANGED_JOBS)]
    faults = [first_fault_of_job(read_value(json.dumps(it))) for it in drawn]
    for job, fault, answer in zip(drawn, faults, serial_values(drawn), strict=True):
        if (fault is None) == (answer == BAD_PROGRAM):
            yield f"{json.dumps(job)}: {fault or 'accepted'}, and the program says {answer}"
    if not 0.1 < sum(it is None for it in faults) / CHANGED_JOBS < 0.9:
        yield f"{sum(it is None for it in faults)} of {CHANGED_JOBS} changed jobs are valid: draw others"


def main():
    ranges = paths.module_of("ranges", "checks/ranges/run.py")
    jobs = [it for it in paths.worked_jobs().values() if first_fault_of_job(it) is None]
    found = [*worked_differences(), *text_differences(), *range_differences(ranges),
             *change_differences(random.Random(1), jobs)]
    for it in found:
        print(it)
    worked = len(JOBS) + len(CONFIGS) + len(TEXTS)
    rows = len(ranges.JOBS) + len(ranges.TENANTS) + len(ranges.CONFIGURATIONS)
    print(f"{worked} worked refusals, {rows} rows, {CHANGED_JOBS} changed jobs: {len(found)} differences")
    return found


if __name__ == "__main__":
    sys.exit(bool(main()))

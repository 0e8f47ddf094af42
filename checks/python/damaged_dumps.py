#!/usr/bin/env python3
"""Puts strange values into dumps, jobs and source maps at drawn places: what reads them must refuse each with its place, or
take it, and do nothing else. The last line says how many there are.

usage: checks/python/damaged_dumps.py [SEED], from anywhere.
"""
import contextlib
import io
import os
import random
import re
import sys
import tempfile
from collections import Counter

import paths
from arena.command import main as arena
from arena.lint import first_fault_of_job, read_value

DATA = os.path.join(paths.ROOT, "checks/python/data")
DUMPS = ("isolated_waiter.jsonl", "plain_waiter.jsonl", "four_workers.jsonl")
DRAWN = 500
DEEP = "[" * 100_000 + "]" * 100_000
STRANGE = ("{}", "[]", "null", "true", "-1", "0", "1.0", "1e400", "9" * 5_000, '"x"', '"\\ud800"', "[[1]]", '{"job":{}}', "-0",
           "NaN", str(2**64), DEEP)
VALUE = re.compile(r'(?<=:)("[^"]*"|-?\d+|true|false)')
# What must be refused, as a line of a dump, with words of its refusal.
LINES = (('{"step":"ask","request":{"op":"poll","job":1},"reply":{"job":{}}}', "no entry of a history"),
         ('{"step":"ask","request":{"op":"poll","job":1},"reply":{"job":"\\ud800"}}', "no entry of a history"),
         ('{"step":"ask","request":{"op":"dance"},"reply":{}}', "no entry of a history"),
         ('{"step":"ask","request":{"op":[]},"reply":{}}', "no entry of a history"),
         ('{"step":"ask","request":{"op":"execute","job":1},"reply":{"job":1,"slot":"0"}}', "no entry of a history"),
         ('{"step":"ask","request":{"op":"poll","job":1},"reply":{}}', "its reply names no job"),
         (DEEP, "no entry of a history"), ('{"step":' + DEEP + "}", "no entry of a history"))


def said(*words: str) -> tuple[int | None, str]:
    """The status of a call of the command, and what it said on standard error; None if it ended by an exception."""
    error = io.StringIO()
    out = io.TextIOWrapper(io.BytesIO(), "utf-8", newline="")  # which takes no half of a surrogate pair
    try:
        with contextlib.redirect_stdout(out), contextlib.redirect_stderr(error):
            status = int(arena(words))
        error.getvalue().encode()
        return status, error.getvalue()
    except Exception as fault:  # whatever it is, it must not come
        return None, f"{type(fault).__name__}: {fault}"


def damaged(draws: random.Random, text: str) -> str:
    """A text with a strange value in the place of another one, or a strange line."""
    lines = text.splitlines(keepends=True)
    at = draws.choice((0, draws.randrange(len(lines)), draws.randrange(len(lines))))
    found = list(VALUE.finditer(lines[at]))
    if not found or draws.random() < 0.1:
        lines[at] = draws.choice(STRANGE) + "\n"
    else:
        here = draws.choice(found)
        lines[at] = lines[at][:here.start()] + draws.choice(STRANGE) + lines[at][here.end():]
    return "".join(lines)


def dumps_differ(draws: random.Random, path: str, seen: Counter) -> list[str]:
    """What is wrong with what is said of damaged dumps: they are refused with a line, or read."""
    found = []
    texts = [open(os.path.join(DATA, name), encoding="utf-8").read() for name in DUMPS]
    for number in range(DRAWN):
        text = damaged(draws, draws.choice(texts))
        with open(path, "w", encoding="utf-8") as it:
            it.write(text)
        status, error = said("stat", path, *draws.choice(((), ("--json",), ("--csv",))))
        seen[f"status {status}"] += 1
        if status not in (0, 9) or (status == 9 and not re.match(rf"arena: {re.escape(path)}:\d+: .", error)):
            found.append(f"dump {number}: {status}, {error[:300]}")
    first = texts[0].splitlines()[0]
    for line, words in LINES:
        with open(path, "w", encoding="utf-8") as it:
            it.write(f"{first}\n{line}\n")
        status, error = said("stat", path)
        if status != 9 or f"{path}:2: " not in error or words not in error:
            found.append(f"{line[:80]}: {status}, {error[:300]}")
    return found


def jobs_differ(path: str) -> list[str]:
    """What is wrong with what `arena lint` says of some jobs."""
    found = []
    for text, words in (('{"args":[0,-0],"fuel":10,"procs":[[["ret",0]]]}', r"args: .*, not \[0,-0\]$"),
                        ('{"args":[0,0],"fuel":10,"procs":[[["\\ud800",0]]]}',
                         r"procs\[0\]\[0\]\[0\]: .*half of a surrogate pair"),
                        ('{"\\udc00":[0,0]}', "half of a surrogate pair"),
                        ('{"args":' + DEEP + "}", "nested"), (DEEP, "nested"),
                        ('{"args":[0,' + "9" * 5_000 + '],"fuel":10,"procs":[[["ret",0]]]}', "")):
        with open(path, "w", encoding="utf-8") as it:
            it.write(text)
        status, error = said("lint", path)
        if status != 5 or not re.search(words, error.strip()):
            found.append(f"{text[:80]}: {status}, {error[:300]}")
    assert first_fault_of_job(read_value('{"args":[0,-5],"fuel":10,"procs":[[["ret",0]]]}')) is None
    return found


def main(seed: int = 1) -> object:
    draws, seen = random.Random(seed), Counter()
    with tempfile.TemporaryDirectory() as folder:
        found = [*dumps_differ(draws, os.path.join(folder, "damaged.jsonl"), seen),
                 *jobs_differ(os.path.join(folder, "damaged.json"))]
    for it in found[:20]:
        print(it)
    shown = ", ".join(f"{count} {what}" for what, count in sorted(seen.items()))
    print(f"{DRAWN} damaged dumps ({shown}), {len(LINES)} lines, 6 jobs: {len(found)} differences")
    return found or not seen["status 0"] or not seen["status 9"]


if __name__ == "__main__":
    sys.exit(bool(main(*map(int, sys.argv[1:]))))

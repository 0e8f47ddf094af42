#!/usr/bin/env python3
"""Draws the pictures of the README: the two waiters, from the scripts of `examples/own` with the lines that they
print; and the Fibonacci job by two workers and four workers at one tenant, from dumps of the server that stand beside
this script.

usage: docs/pictures/make.py [again], at the top of the repository. With the word `again` the server makes the two dumps
anew, by crates/server_program/out/server_program. """
import json
import os
import sys

sys.path[:0] = [os.path.abspath("python"), os.path.abspath("checks/python")]

from arena.trace import replay
from arena.trace.axis import Axis
from arena.trace.dump import parse_dump
from arena.trace.svg import svg
from arena.trace.timeline import Choice, timeline_of

FOLDER = os.path.dirname(os.path.abspath(__file__))
ENTRIES = ("arrived", "nested", "ran", "freed")


def dump_of_example(name):
    """The dump of a script of examples/own: its first line, and each step that is an entry, with what is printed of
    it."""
    with open(f"examples/own/{name}.jsonl") as script, open(f"examples/own/{name}.out") as printed:
        steps, answers = (list(map(json.loads, filter(str.strip, it))) for it in (script, printed))
    lines = [json.dumps(steps[0])]
    for step, answer in zip(steps[1:], answers, strict=True):
        if step["step"] == "ask" and "moved" not in answer:
            lines.append(json.dumps({**step, "reply": answer}))
        elif answer.get("moved") in ENTRIES:
            lines.append(json.dumps({**step, **answer}))
    return lines


def keep(server, name):
    """Keeps the dump of a server beside this script."""
    with open(server.dump()) as dump, open(os.path.join(FOLDER, f"{name}.jsonl"), "w") as kept:
        kept.write(dump.read())


def run_fib():
    """Lets the server run the Fibonacci job of the README with two workers, and keeps the dump."""
    import arena
    from arena.language import compile_source
    from serving import Server, tenant
    with open("examples/jobs/fib.job") as source:
        job = compile_source(source.read(), args=(4, 0)).job
    with Server(tenant(slots=2, reserved=0, steps=1000), workers=2) as server:
        with arena.Client(server.path, "acme") as client:
            client.collect(client.submit(job))
        keep(server, "fib")


def run_four_workers():
    """Lets the server run jobs with four workers, and keeps the dump."""
    import arena
    from serving import COUNT, DIVIDES, FIB, Server, job, tenant
    keeper = job([["set", 2, 5], ["store", 0, 2], ["isolate", 3, 1, 0, 1], ["load", 5, 0], ["ret", 5]],
                 [["spawn", 0, 2, 0, 1], ["spawn", 0, 2, 0, 1], ["wait", 2, 3, 0], ["ret", 2]],
                 [["set", 2, 50], ["set", 3, 1], ["jz", 2, 5], ["sub", 2, 2, 3], ["jmp", 2], ["ret", 0]])
    with Server(tenant(slots=4, reserved=0, steps=2000), workers=4) as server:
        with arena.Client(server.path, "acme") as client:
            with client.pipeline() as line:
                made = [line.submit(it) for it in ({**FIB, "args": [7, 0]}, keeper, {**COUNT, "args": [2_000, 0]},
                                                   DIVIDES, keeper)]
                line.cancel(3)
            for number in made:
                client.collect(number.result())
        keep(server, "four_workers")


def draw(name, lines, axis):
    """Draws a dump into docs/pictures."""
    dump = parse_dump(lines)
    path = os.path.join(FOLDER, f"{name}.svg")
    with open(path, "w") as it:
        it.write(svg(timeline_of(replay(dump), dump.tenant, Choice(axis))))
    print(os.path.relpath(path))


def main():
    if sys.argv[1:] == ["again"]:
        run_fib()
        run_four_workers()
    for name in ("plain_waiter", "isolated_waiter"):
        draw(name, dump_of_example(name), Axis.ENTRIES)
    for name in ("fib", "four_workers"):
        with open(os.path.join(FOLDER, f"{name}.jsonl")) as dump:
            draw(name, dump.readlines(), Axis.ENTRIES)


main()

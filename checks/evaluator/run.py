#!/usr/bin/env python3
"""Compares what arena-script answers to drawn scripts of tenants and of worlds, and to drawn jobs with the word
`serial`, with what a second evaluator answers (`tenant.py`, `world.py`, `serial.py`), which shares nothing with the
Rattle code. A tenant's own steps of a world must also be answered the same without its neighbours, and a serial job
that completes, whatever the order of arrivals and advances, must do so with its serial value.

usage: checks/evaluator/run.py [SEED [SCRIPTS]], at the top of the repository, after `rt ci`, or `rt run` in
crates/script_program. The seed is 1, and there are 300 scripts of each kind, if none is said.
"""
import json
import os
import random
import subprocess
import sys
from collections import Counter
from collections.abc import Iterable, Sequence

from draws import Draws
from serial import serial_value
from tenant import Tenant, moved
from world import World

PROGRAM = os.path.abspath("crates/script_program/out/script_program")
NUMBERED = {"fault": "fault", "code": "error", "market": "market"}
FINDS = ["ran", "freed", "nested", "arrived", "idle", "left", "none", "full", "pending", "bad_step", "complete",
         "canceled", *(f"fault {code}" for code in (1, 2, 3, 4, 5)),
         *(f"error {code}" for code in (3, 6, 8, 10, 12)),
         # In worlds, by the steps that have these answers.
         *(f"line: error {code}" for code in (1, 2, 3, 4)), "push: market queued", "pop: market held", "pop: market none",
         "arrive: arrived", "arrive: none", "arrive: full", "advance: nested", "advance: left", "advance: full",
         *(f"{step}: market not_now" for step in ("line", "master", "push", "pop", "arrive", "advance")),
         # Of a job with a serial value, after moves in a drawn order.
         "order: complete"]

# How long a script may take at most, in seconds.
PATIENCE = 60
# In how many drawn orders a job with a serial value is run.
ORDERS = 10


def text(value: object) -> str:
    return json.dumps(value, separators=(",", ":"), sort_keys=True)


def printed(words: Sequence[str], lines: Iterable[object]) -> list[str]:
    """The lines that arena-script prints of a script, given these words."""
    script = "\n".join(map(text, lines))
    done = subprocess.run([PROGRAM, *words], input=script, capture_output=True, text=True, check=True, timeout=PATIENCE)
    return done.stdout.splitlines()


def answer(tenant: Tenant, step: dict) -> dict:
    """What the second evaluator answers to a step of a tenant."""
    if step["step"] == "ask":
        return tenant.ask(step["request"]) or moved("pending")
    if step["slot"] >= tenant.config["slots"]:
        return moved("bad_step")
    return tenant.arrive(step["slot"]) if step["step"] == "arrive" else tenant.advance(step["slot"])


def kind(answered: dict) -> str:
    """What is counted of an answer."""
    numbered = [f"{word} {answered[name]}" for name, word in NUMBERED.items() if name in answered]
    named = [answered[name] for name in ("moved", "status") if name in answered]
    return (numbered or named or ["other"])[0]


def differs(words: Sequence[str], first: dict, steps: Sequence[dict], wanted: Sequence[dict]) -> bool:
    """Whether a script is answered in another way than is wanted; says where."""
    lines = printed(words, [first, *steps])
    places = [at for at, line in enumerate(map(text, wanted)) if lines[at : at + 1] != [line]]
    if places:
        at = places[0]
        print(f"{text(first)}\nstep {at + 1}, {text(steps[at])}: {lines[at : at + 1]}, and not {text(wanted[at])}")
    return bool(places) or len(lines) != len(wanted)


def script_differs(draws: Draws, seen: Counter) -> bool:
    """Whether a drawn script of a tenant is answered in another way."""
    config = draws.tenant()
    steps, tenant = list(draws.steps(config["slots"])), Tenant(config)
    wanted = [answer(tenant, step) for step in steps]
    seen.update(map(kind, wanted))
    return differs([], {"tenant": config}, steps, wanted)


def world_differs(draws: Draws, seen: Counter) -> bool:
    """Whether a drawn script of a world is answered in another way, or the steps of one of its tenants are, alone."""
    config = draws.world()
    steps, wanted, world = [], [], World(config)
    for _ in range(draws.random.randint(100, 600)):
        steps.append(draws.world_step(world))
        wanted.append(world.answer(steps[-1]))
    seen.update(f"{step['step']}: {kind(answered)}" for step, (_, answered) in zip(steps, wanted))
    if differs(["run"], config, steps, [answered for _, answered in wanted]):
        return True
    tenant = draws.random.choice(config["tenants"])
    own = [(step, answered) for step, (name, answered) in zip(steps, wanted) if name == tenant["name"]]
    alone = {**config, "tenants": [tenant]}
    return differs(["run"], alone, [step for step, _ in own], [answered for _, answered in own])


def serial_jobs_differ(draws: Draws, seen: Counter, count: int) -> int:
    """How many of the drawn jobs have another serial value, or complete with another value than that."""
    jobs = [draws.job(is_serial=draws.random.random() < 0.9) for _ in range(count)]
    values = [serial_value(job) for job in jobs]
    wanted = [text({"serial": value}) for value in values]
    pairs = list(zip(jobs, wanted, printed(["serial"], jobs), strict=True))
    for job, want, line in pairs:
        if want != line:
            print(f"{text(job)}: {line}, and not {want}")
    numbers = [(job, value) for job, value in zip(jobs, values) if isinstance(value, int)]
    orders = [order_differs(draws, seen, *it) for it in numbers for _ in range(ORDERS)]
    return sum(want != line for _, want, line in pairs) + sum(orders)


def order_differs(draws: Draws, seen: Counter, job: dict, value: int) -> bool:
    """Whether a job with this serial value completes with another one, after moves in a drawn order."""
    steps = list(draws.order(job))
    outcome = json.loads(printed([], steps)[-1])
    seen.update([f"order: {outcome['status']}"])
    if outcome.get("value", value) != value:
        print(f"{text(job)}: {text(outcome)}, and its serial value is {value}, after {text(steps)}")
        return True
    return False


def main(seed: int = 1, scripts: int = 300) -> bool:
    """Draws and compares. Returns whether anything differs, or never came up."""
    sys.setrecursionlimit(100_000)
    draws, seen = Draws(random.Random(seed)), Counter()
    differ = sum(script_differs(draws, seen) + world_differs(draws, seen) for _ in range(scripts))
    differ += serial_jobs_differ(draws, seen, scripts)
    missing = [it for it in FINDS if not seen[it]] if scripts >= 300 else []
    if missing:
        print(f"no answer is one of {missing}")
    print(f"{scripts} tenants and {scripts} worlds, {seen.total()} steps, {scripts} serial jobs: {differ} differences")
    return bool(differ or missing)


sys.exit(main(*map(int, sys.argv[1:])))

#!/usr/bin/env python3
"""Submits drawn jobs under keys of its own, and writes a line for each that was acknowledged, until a file `stop` is there.

usage: submitter.py FOLDER NAME SEED RATE, with the lines in FOLDER and the queue at ARENA_QUEUE; RATE is how many batches a second.
A new process begins three batches before the last one that an earlier one has written: it can't know whether more was kept.
"""
import itertools
import json
import os
import pathlib
import random
import sys
import time
from collections.abc import Callable
from dataclasses import dataclass
from typing import TypeVar

from jobs import PROGRAMS, Drawn
from stepped import follow

from arena.queue import NewJob, QueueError, State, Store
from arena.queue.base import faults_of
from arena.queue.model import SECOND

Value = TypeVar("Value")

QUEUE = os.environ["ARENA_QUEUE"]
TENANTS = ("acme", "beta", "gamma")
MOST_READY = 100
"""How many jobs wait at most before a submitter waits for them."""


@dataclass(frozen=True, slots=True)
class Planned:
    """A job that is to be submitted."""

    key: str
    tenant: str
    drawn: Drawn
    priority: int
    is_late: bool

    def new(self) -> NewJob:
        """It for the queue."""
        it = self.drawn
        return NewJob(self.tenant, PROGRAMS[it.name], (it.x, it.y), it.fuel, self.key, self.priority,
                      delay=SECOND // 2 if self.is_late else 0)

    def line(self, batch: int, job: int) -> bytes:
        """The line that says that it was acknowledged."""
        it = self.drawn
        said = {"batch": batch, "job": job, "key": self.key, "tenant": self.tenant, "of": [it.name, it.x, it.y, it.fuel]}
        return json.dumps(said).encode() + b"\n"


def batch_of(name: str, seed: str, number: int) -> list[Planned]:
    """The jobs of a batch, which are the same each time."""
    draws = random.Random(f"{name} {seed} {number}")
    return [Planned(f"{name}-{number}-{at}", draws.choice(TENANTS), Drawn.by(draws), draws.randrange(3), draws.random() < 0.1)
            for at in range(draws.choice([1, 1, 1, 5, 30]))]


def asked(call: Callable[[Store], Value]) -> Value:
    """What a call of the queue gives. One that fails is not acknowledged, and is made again, with the same keys."""
    while True:
        try:
            with Store(QUEUE) as queue:
                return call(queue)
        except (*faults_of(QUEUE), QueueError) as fault:
            print(fault, file=sys.stderr)
            time.sleep(0.05)


def main(folder: str, name: str, seed: str, rate: str) -> None:
    """Submits until it is to stop."""
    follow(os.path.join(folder, "clock"))
    lines = pathlib.Path(folder, f"{name}.lines")
    log = os.open(lines, os.O_CREAT | os.O_APPEND | os.O_WRONLY)
    written = [json.loads(it) for it in lines.read_text().splitlines(keepends=True) if it.endswith("\n")]
    first = max((it["batch"] for it in written if "key" in it), default=1)
    pace = random.Random()
    for number in itertools.count(max(0, first - 2)):
        if os.path.exists(os.path.join(folder, "stop")):
            return
        batch = batch_of(name, seed, number)
        numbers = [it.job for it in asked(lambda queue: queue.submit([one.new() for one in batch]))]
        os.write(log, b"".join(one.line(number, job) for one, job in zip(batch, numbers, strict=True)))
        if pace.random() < 0.05:
            cancelled = pace.choice(numbers)
            os.write(log, json.dumps({"cancelled": cancelled}).encode() + b"\n")
            asked(lambda queue: queue.cancel(cancelled))
        time.sleep(pace.expovariate(float(rate)))
        while asked(lambda queue: queue.counts(State.READY)) > MOST_READY and not os.path.exists(os.path.join(folder, "stop")):
            time.sleep(0.1)


if __name__ == "__main__":
    main(*sys.argv[1:])

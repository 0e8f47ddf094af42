#!/usr/bin/env python3
"""Kills a host of 64 tenants with 32 workers about once a minute, while a client of each tenant submits jobs and collects some of them,
and starts it again in its folder. At the end each job that was acknowledged must have its outcome, with the value that it gives, and no
job number may have come twice.

usage: checks/host/kills.py [MINUTES [ASKS [DURABLE]]], at the top of the repository, after `rt ci` or `make build`: for an hour, ASKS
submissions a second together (200), by `--durable` write, if nothing else is said. It prints what it has seen, and ends with a status
other than 0 if something is wrong.
"""
import collections
import contextlib
import os
import random
import sys
import threading
import time

from hosts import FIB, FULL, Host, ask, hang_up, tenant
from outcomes import not_kept, outcomes

TENANTS, CONNECTIONS, WORKERS = 64, 64, 32
# Seconds between two kills.
SECONDS = (30, 90)
# Fibonacci numbers, by their places.
FIBONACCI = [0, 1, 1, 2, 3, 5, 8, 13, 21]


class Client:
    """A tenant's client, which comes again whenever its connection ends."""

    def __init__(self, all_clients: "Clients", name: str) -> None:
        self.of, self.name, self.draw = all_clients, name, random.Random(name)
        self.told: list[tuple[int, int]] = []
        self.seen: collections.Counter[str] = collections.Counter()
        self.wrong: list[object] = []
        self.thread = threading.Thread(target=self.go, daemon=True)
        self.thread.start()

    def go(self) -> None:
        """Submits until the time is over."""
        while not self.of.is_over.is_set():
            with contextlib.suppress(OSError, ValueError):
                connection = self.of.host.connect(self.name)
                self.seen["connections"] += 1
                try:
                    while not self.of.is_over.is_set() and self.submit(connection):
                        time.sleep(self.draw.expovariate(self.of.asks / TENANTS))
                finally:
                    hang_up(connection)
            time.sleep(0.05)

    def submit(self, connection: object) -> bool:
        """Submits a job, and says whether the connection goes on."""
        n = self.draw.randrange(len(FIBONACCI))
        made = ask(connection, {"op": "submit", "job": {"args": [n, 0], "fuel": 1_000_000, "procs": FIB}})
        if made is None:
            return False
        if made.get("error") == "job_limit":
            open(self.of.host.path(f"rotate.{self.name}"), "w").close()
            time.sleep(0.2)
        elif "job" in made:
            self.told.append((made["job"], n))
            if self.draw.random() < 0.5:
                outcome = ask(connection, {"op": "collect", "job": made["job"]})
                self.seen["collected"] += outcome is not None
                if outcome not in (None, {"job": made["job"], "status": "complete", "value": FIBONACCI[n]}, FULL):
                    self.wrong.append(outcome)
        elif made != FULL:
            self.wrong.append(made)
        return True


class Clients:
    """The clients, and the host that serves them now."""

    def __init__(self, host: Host, asks: float) -> None:
        self.host, self.asks = host, asks
        self.is_over = threading.Event()
        self.all = [Client(self, it) for it in names()]

    def end(self) -> None:
        """Lets all of them end."""
        self.is_over.set()
        for it in self.all:
            it.thread.join()


def names() -> list[str]:
    """The tenants."""
    return [f"t{number}" for number in range(TENANTS)]


def started(durable: str, after: Host | None = None) -> Host:
    """A host."""
    tenants = [tenant(name, steps=20_000) for name in names()]
    return Host(tenants, "--connections", CONNECTIONS, "--keep", 999_999, "--durable", durable, workers=WORKERS, after=after)


def main(minutes: float = 60, asks: float = 200, durable: str = "write") -> int:
    """Kills hosts, and compares; how many jobs have not the outcome that they must have."""
    os.environ["MALLOC_MMAP_THRESHOLD_"] = "16384"  # as docs/HOST.md says, Memory
    draw, end = random.Random(int(minutes)), time.monotonic() + 60 * minutes
    host, kills, recovered = started(durable), 0, 0
    clients = Clients(host, asks)
    while time.monotonic() < end:
        time.sleep(min(draw.uniform(*SECONDS), max(0.0, end - time.monotonic())))
        host.kill()
        kills += 1
        host = clients.host = started(durable, after=host)
        recovered += sum(it["jobs"] for it in host.told("recovered"))
    clients.end()
    status = host.stop()
    wrong = [(it.name, fault) for it in clients.all for fault in it.wrong]
    for it in clients.all:
        told = [(job, {"status": "complete", "value": FIBONACCI[n]}) for job, n in it.told]
        wrong += [(it.name, fault) for fault in not_kept(told, outcomes(host.run, it.name))]
    seen = sum((it.seen for it in clients.all), collections.Counter())
    print(f"{sum(len(it.told) for it in clients.all)} jobs acknowledged, {dict(seen)}, {kills} kills, {recovered} jobs in journals at "
          f"starts; the last host ended with {status}; {len(wrong)} wrong: {wrong[:5]}")
    return len(wrong) + (status != 0)


if __name__ == "__main__":
    sys.exit(bool(main(*[kind(word) for kind, word in zip((float, float, str), sys.argv[1:])])))

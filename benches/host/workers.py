#!/usr/bin/env python3
"""Measures what several workers at one tenant of arena-host, or of arena-server, take for its jobs, as times of what one takes: a
job of short tasks, submitted, and executed beside a worker; by a host also several such jobs, and one that takes longer than calls
are held back; a job of tasks of 300 instructions; one of four long tasks; and several long jobs.

usage: benches/host/workers.py [ROUNDS [PROGRAM]], at the top of the repository. Each row is the median of ROUNDS, nine if none are
said and nine at most of a server, whose histories have no room for more; the two programs of a row are asked in turn. It needs
out/arena-host of `make build` if no program is said. One whose name has `server` in it is taken for an arena-server.
"""
import contextlib
import json
import os
import socket
import statistics
import subprocess
import sys
import tempfile
import time
from collections.abc import Callable
from dataclasses import dataclass
from typing import Self, TextIO

ROUNDS = int(sys.argv[1]) if len(sys.argv) > 1 else 9
PROGRAM = os.path.abspath(sys.argv[2] if len(sys.argv) > 2 else "out/arena-host")
IS_SERVER = "server" in os.path.basename(PROGRAM)
FIB = [[["set", 2, 2], ["lt", 3, 0, 2], ["jz", 3, 4], ["ret", 0], ["set", 2, 1], ["sub", 3, 0, 2], ["spawn", 0, 0, 3, 1],
        ["sub", 3, 3, 2], ["spawn", 0, 0, 3, 1], ["wait", 4, 5, 0], ["ret", 4]]]
COUNTED = [["set", 2, 1], ["jz", 0, 4], ["sub", 0, 0, 2], ["jmp", 1], ["ret", 0]]
# Fibonacci's tree, whose leaves count 100 turns of three instructions before they end.
LEAVES = [[["set", 2, 2], ["lt", 3, 0, 2], ["jz", 3, 9], ["set", 4, 100], ["set", 5, 1], ["jz", 4, 8], ["sub", 4, 4, 5], ["jmp", 5],
           ["ret", 0], ["set", 2, 1], ["sub", 3, 0, 2], ["spawn", 0, 0, 3, 1], ["sub", 3, 3, 2], ["spawn", 0, 0, 3, 1],
           ["wait", 4, 5, 0], ["ret", 4]]]
FOUR_TASKS = [[["set", 2, 80_000], *[["spawn", 0, 1, 2, 2]] * 4, ["wait", 3, 4, 0], ["ret", 3]], COUNTED]
SHORT = {"args": [20, 0], "fuel": 1_000_000, "procs": FIB}  # 76,616 entries
SHORTER = {"args": [16, 0], "fuel": 1_000_000, "procs": FIB}  # 11,177 entries
LASTING = {"args": [23, 0], "fuel": 1_000_000, "procs": FIB}  # 324,600 entries
FEW = {"args": [16, 0], "fuel": 1_000_000, "procs": LEAVES}  # 1,597 leaves of 300 instructions, 11,177 entries
TASKS = {"args": [0, 0], "fuel": 1_000_000, "procs": FOUR_TASKS}  # 240,003 instructions each
LONG = {"args": [250_000, 0], "fuel": 1_000_000, "procs": [COUNTED]}  # 750,003 instructions
JOBS = 20


@dataclass
class Client:
    """A connection that is bound to the tenant."""

    socket: socket.socket
    replies: TextIO

    def ask(self, request: dict) -> dict:
        """The reply, which is no error."""
        self.socket.sendall((json.dumps(request) + "\n").encode())
        reply = json.loads(self.replies.readline())
        assert "error" not in reply, reply
        return reply

    def submitted(self, job: dict, count: int = 1) -> float:
        """How many milliseconds so many jobs take from their submission to their outcomes."""
        began = time.perf_counter()
        numbers = [self.ask({"op": "submit", "job": job})["job"] for _ in range(count)]
        outcomes = [self.ask({"op": "collect", "job": number}) for number in numbers]
        took = 1000 * (time.perf_counter() - began)
        assert all(it["status"] == "complete" for it in outcomes)
        self.ask({"op": "retire"})
        return took

    def executed(self, job: dict) -> float:
        """How many milliseconds a job takes that is executed."""
        began = time.perf_counter()
        outcome = self.ask({"op": "execute", "job": job})
        assert outcome["status"] == "complete"
        return 1000 * (time.perf_counter() - began)


class Service:
    """A host or a server with one tenant, until its socket is removed."""

    def __init__(self, workers: int, reserved: int) -> None:
        self.folder = tempfile.TemporaryDirectory()
        path = os.path.join(self.folder.name, "socket")
        tenant = {"name": "acme", "priority": "normal", "reserved": reserved, "rows": 4096, "slots": workers + reserved, "steps": 1_048_576}
        config = os.path.join(self.folder.name, "config.json")
        with open(config, "w") as it:
            json.dump({"tenants": [tenant], "workers": max(workers, 1)}, it)
        own = ["--socket", path, "--connections", "1"] if IS_SERVER else ["--run", self.folder.name, "--durable", "off"]
        command = [PROGRAM, "--config", config, *own]
        self.process = subprocess.Popen(command, stdout=subprocess.PIPE, stderr=subprocess.DEVNULL, text=True)
        assert self.process.stdout and self.process.stdout.readline() == "listening\n"
        client = socket.socket(socket.AF_UNIX)
        client.connect(path)
        self.client = Client(client, client.makefile())
        self.client.ask({"op": "hello", "tenant": "acme"})

    def __enter__(self) -> Self:
        return self

    def __exit__(self, *_: object) -> None:
        os.unlink(os.path.join(self.folder.name, "socket"))
        self.client.replies.close()
        self.client.socket.close()
        self.process.communicate(timeout=60)
        assert self.process.returncode == 0
        self.folder.cleanup()


def row(what: str, beside: str, services: tuple[tuple[int, int], tuple[int, int]], measure: Callable[[Client], float]) -> None:
    """Prints a row: the medians of two of them, with so many workers and reserved slots each, and their ratio."""
    with contextlib.ExitStack() as stack:
        clients = [stack.enter_context(Service(*it)).client for it in services]
        times = [[measure(client) for client in clients] for _ in range(ROUNDS)]
    own, other = (statistics.median(it) for it in zip(*times, strict=True))
    print(f"| {what} | {beside} | {own:.2f} | {other:.2f} | {own / other:.2f} |", flush=True)


def main() -> None:
    """Prints the table."""
    print("| What | Beside | ms | The other's, ms | Ratio |\n|---|---|---|---|---|")
    for workers in (2, 4):
        row(f"FIB(20), submitted, {workers} workers", "one", ((workers, 0), (1, 0)), lambda it: it.submitted(SHORT))
    if not IS_SERVER:
        row("FIB(23), submitted, 4 workers", "one", ((4, 0), (1, 0)), lambda it: it.submitted(LASTING))
        row(f"{JOBS} of FIB(16), submitted, 4 workers", "one", ((4, 0), (1, 0)), lambda it: it.submitted(SHORTER, JOBS))
    row("FIB(16) with leaves of 300 instructions, submitted, 4 workers", "one", ((4, 0), (1, 0)), lambda it: it.submitted(FEW))
    row("FIB(20), executed, beside a worker", "without one", ((1, 1), (0, 1)), lambda it: it.executed(SHORT))
    for workers in (2, 4):
        row(f"a job of four tasks of 240,003 instructions, {workers} workers", "one", ((workers, 0), (1, 0)), lambda it: it.submitted(TASKS))
        row(f"{JOBS} jobs of 750,003 instructions, {workers} workers", "one", ((workers, 0), (1, 0)), lambda it: it.submitted(LONG, JOBS))


if __name__ == "__main__":
    main()

#!/usr/bin/env python3
"""Measures how long a quiet tenant's small job waits beside a noisy one by the host, and compares it with a bound:
with w workers, and s slots of the noisy tenant for workers, s / w of its rows, rounded down.

usage: benches/host/waits.py [ROUNDS [HOST]], at the top of the repository. For each row there are ROUNDS, eight if none are
said, each with a host of its own, which the noisy tenant asks for as many jobs as its history has room for. It needs
out/arena-host of `make build` if no program is said. The quiet client asks each few milliseconds, so its waits are those of any
moment, and only those count that began while the noisy tenant had rows for all its slots.
"""
import json
import multiprocessing
import os
import socket
import statistics
import subprocess
import sys
import tempfile
import time
from ctypes import c_byte
from dataclasses import dataclass, field

ROUNDS = int(sys.argv[1]) if len(sys.argv) > 1 else 8
PROGRAM = sys.argv[2] if len(sys.argv) > 2 else os.path.abspath("out/arena-host")
# Workers, and slots of the noisy tenant for them.
SETTINGS = ((4, 4), (4, 8), (4, 16), (2, 8), (1, 8))
# Jobs that are there at a time, and how often; each takes 750 entries of 1,048,576.
BATCH, BATCHES = 100, 12
EVERY = 0.003  # seconds between two small jobs
COUNTING = [[["set", 2, 1], ["jz", 0, 6], ["sub", 0, 0, 2], ["add", 1, 1, 2], ["lt", 3, 1, 0], ["jmp", 1], ["ret", 1]]]
LARGE = {"args": [150_000, 0], "fuel": 1_000_000, "procs": COUNTING}     # 750,003 instructions
SMALL = {"args": [7, 0], "fuel": 10, "procs": [[["ret", 0]]]}
Flag = c_byte  # that processes share


def tenant(name: str, slots: int, reserved: int) -> dict:
    """A tenant of a configuration."""
    return {"name": name, "priority": "normal", "reserved": reserved, "rows": 200, "slots": slots, "steps": 1_048_576}


class Line:
    """A connection that is a tenant's."""

    def __init__(self, path: str, name: str) -> None:
        self.socket = socket.socket(socket.AF_UNIX)
        self.socket.connect(path)
        self.replies = self.socket.makefile()
        self.ask({"op": "hello", "tenant": name})

    def ask(self, *requests: dict) -> list[dict]:
        """Sends requests, and returns their replies, none of which is an error."""
        self.socket.sendall("".join(json.dumps(it) + "\n" for it in requests).encode())
        replies = [json.loads(self.replies.readline()) for _ in requests]
        assert not any("error" in it for it in replies), replies
        return replies

    def done(self, job: dict) -> float:
        """How many seconds a job takes from its submission to its outcome."""
        began = time.perf_counter()
        [made] = self.ask({"op": "submit", "job": job})
        self.ask({"op": "collect", "job": made["job"]})
        return time.perf_counter() - began


def batch(line: Line, slots: int, is_busy: Flag) -> tuple[float, float]:
    """One batch of large jobs of the noisy tenant. It is busy from when all are there until there may be too few for all slots.
    Returns when it began and ended."""
    began = time.perf_counter()
    made = line.ask(*[{"op": "submit", "job": LARGE}] * BATCH)
    is_busy.value = True
    collects = [{"op": "collect", "job": it["job"]} for it in made]
    line.ask(*collects[:BATCH - 2 * slots])
    is_busy.value = False
    line.ask(*collects[BATCH - 2 * slots:])
    ended = time.perf_counter()
    line.ask({"op": "retire"})
    return began, ended


def noise(path: str, slots: int, is_busy: Flag, times: multiprocessing.Queue) -> None:
    """The noisy tenant's client, which is a process of its own."""
    line = Line(path, "noisy")
    times.put([batch(line, slots, is_busy) for _ in range(BATCHES)])


def asked(quiet: Line, is_busy: Flag, process: multiprocessing.Process, times: multiprocessing.Queue) -> list[tuple[float, float]]:
    """Small jobs, until the noise is over: when each began that did while all slots had work, and how long it took."""
    found, count = [], 0
    while times.empty() and process.is_alive():
        counts, began = is_busy.value, time.perf_counter()
        took = quiet.done(SMALL)
        if counts:
            found.append((began, took))
        count += 1
        if count % BATCH == 0:
            quiet.ask({"op": "retire"})
        time.sleep(EVERY)
    return found


@dataclass
class Seen:
    """What the rounds of a row have seen: large jobs alone and rows beside others, in milliseconds, and waits of small jobs in
    milliseconds and in rows of the batch that they were beside."""

    alone: list[float] = field(default_factory=list)
    rows: list[float] = field(default_factory=list)
    waits: list[float] = field(default_factory=list)
    in_rows: list[float] = field(default_factory=list)

    def take(self, path: str, workers: int, slots: int) -> None:
        """A round, by a host that runs."""
        line, quiet = Line(path, "noisy"), Line(path, "quiet")
        self.alone += [1000 * line.done(LARGE) for _ in range(10)]
        line.ask({"op": "retire"})
        is_busy, times = multiprocessing.Value("b", False, lock=False), multiprocessing.Queue()
        process = multiprocessing.Process(target=noise, args=(path, slots, is_busy, times))
        process.start()
        found = asked(quiet, is_busy, process, times)
        for began, ended in times.get(timeout=10):
            self.compare(began, ended, 1000 * (ended - began) * workers / BATCH, found)
        process.join()

    def compare(self, began: float, ended: float, row: float, found: list[tuple[float, float]]) -> None:
        """Takes the waits that began beside a batch, whose rows took so long."""
        self.rows.append(row)
        beside = [1000 * took for at, took in found if began <= at <= ended]
        self.waits += beside
        self.in_rows += [it / row for it in beside]

    def line(self, workers: int, slots: int) -> str:
        """A row of the table."""
        times, rows, bound = sorted(self.waits), sorted(self.in_rows), slots // workers
        middle, late = len(times) // 2, len(times) * 99 // 100
        return (f"| {workers} | {slots} | {statistics.median(self.alone):.2f} | {statistics.median(self.rows):.2f} | "
                f"{times[middle]:.2f} | {times[late]:.2f} | {bound} | {rows[middle]:.2f} | {rows[late]:.2f} | "
                f"{sum(it > bound for it in rows)} of {len(rows)} |")


def hosted(seen: Seen, workers: int, slots: int) -> None:
    """A round by a host of its own."""
    with tempfile.TemporaryDirectory() as folder:
        config, path = os.path.join(folder, "config.json"), os.path.join(folder, "socket")
        with open(config, "w") as it:
            json.dump({"tenants": [tenant("noisy", slots, 0), tenant("quiet", 1, 0)], "workers": workers}, it)
        command = [PROGRAM, "--config", config, "--run", folder, "--rotate-at", "100"]
        with subprocess.Popen(command, stdout=subprocess.PIPE, stderr=subprocess.DEVNULL, text=True) as host:
            assert host.stdout.readline() == "listening\n"
            try:
                seen.take(path, workers, slots)
            finally:
                os.unlink(path)
                out, _ = host.communicate(timeout=120)
    assert host.returncode == 0 and "fault" not in out, out


def main() -> None:
    """Prints the table."""
    print("| Workers | Slots | A large job alone, ms | A row beside the others, ms | p50, ms | p99, ms | Bound, rows | p50, rows "
          "| p99, rows | Above the bound |\n|---|---|---|---|---|---|---|---|---|---|")
    for workers, slots in SETTINGS:
        seen = Seen()
        for _ in range(ROUNDS):
            hosted(seen, workers, slots)
        print(seen.line(workers, slots), flush=True)


if __name__ == "__main__":
    main()

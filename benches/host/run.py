#!/usr/bin/env python3
"""Measures arena-host beside arena-server, in turn, by the same clients, how long a quiet tenant's small job waits beside
a noisy tenant, and how long a request waits while the host rotates.

usage: benches/host/run.py [SECONDS [ROUNDS [SERVER HOST]]], at the top of the repository. Each measure takes SECONDS, two
if none are said, and there are ROUNDS of each, five if none are said. It needs `cc`, and out/arena-server and
out/arena-host of `make build` if no programs are said.
"""
import json
import os
import pathlib
import socket
import statistics
import subprocess
import sys
import tempfile
import threading
import time

HERE = pathlib.Path(__file__).resolve().parent
SECONDS = float(sys.argv[1]) if len(sys.argv) > 1 else 2.0
ROUNDS = int(sys.argv[2]) if len(sys.argv) > 2 else 5
PROGRAMS = dict(zip(("arena-server", "arena-host"), sys.argv[3:]))
HELLO = '{"op":"hello","tenant":"acme"}'
SMALL = json.dumps({"op": "execute", "job": {"args": [7, 0], "fuel": 10, "procs": [[["ret", 0]]]}}, separators=(",", ":"))
CONFIG = {"tenants": [{"name": "acme", "priority": "normal", "reserved": 1, "rows": 200, "slots": 2, "steps": 1_048_576}],
          "workers": 1}
# Four workers, a noisy tenant with eight slots for them, and a quiet one with one.
NOISY = {"tenants": [{"name": "acme", "priority": "normal", "reserved": 1, "rows": 200, "slots": 2, "steps": 1_048_576},
                     {"name": "noisy", "priority": "normal", "reserved": 0, "rows": 200, "slots": 8, "steps": 1_048_576}],
         "workers": 4}
SUBMIT = SMALL.replace("execute", "submit")
COLLECT = '{"job":@,"op":"collect"}'
COUNTING = [[["set", 2, 1], ["jz", 0, 6], ["sub", 0, 0, 2], ["add", 1, 1, 2], ["lt", 3, 1, 0], ["jmp", 1], ["ret", 1]]]
LARGE = {"args": [150_000, 0], "fuel": 1_000_000, "procs": COUNTING}     # 750,003 instructions


class Running:
    """A server or a host, until its socket is removed."""

    def __init__(self, program, setting=CONFIG):
        self.folder = tempfile.TemporaryDirectory()
        self.path = os.path.join(self.folder.name, "socket")
        config = os.path.join(self.folder.name, "config.json")
        with open(config, "w") as it:
            json.dump(setting, it)
        where = ["--run", self.folder.name, "--rotate-at", "100"] if program == "arena-host" else ["--socket", self.path]
        command = [PROGRAMS.get(program, os.path.abspath(f"out/{program}")), "--config", config, *where, "--connections", "64"]
        self.process = subprocess.Popen(command, stdout=subprocess.PIPE, stderr=subprocess.DEVNULL, text=True)
        assert self.process.stdout.readline() == "listening\n"

    def __enter__(self):
        return self

    def __exit__(self, *_):
        # A server that has served all its connections ends by itself.
        pathlib.Path(self.path).unlink(missing_ok=True)
        out, _ = self.process.communicate(timeout=120)
        assert self.process.returncode == 0 and "fault" not in out, out


def rate(clients, program, connections, line):
    """How many turns a second clients take."""
    with Running(program) as running:
        words = [clients, running.path, str(connections), str(SECONDS), HELLO, line]
        out = subprocess.run(words, check=True, capture_output=True, text=True).stdout
        return float(out.split()[1])


def compared(clients, name, connections, line):
    """A row of the table: the medians of both, and of the ratios of each round."""
    rounds = [(rate(clients, "arena-server", connections, line), rate(clients, "arena-host", connections, line))
              for _ in range(ROUNDS)]
    server, host = (statistics.median(it) for it in zip(*rounds))
    ratio = statistics.median(host / server for server, host in rounds)
    print(f"| {name} | {connections} | {server:,.0f} | {host:,.0f} | {ratio:.2f} |", flush=True)


class Noise:
    """A client that submits a hundred large jobs, collects and retires them, and begins again until it is told to end."""

    def __init__(self, path):
        self.socket = socket.socket(socket.AF_UNIX)
        self.socket.connect(path)
        self.lines = self.socket.makefile()
        self.jobs, self.began, self.is_over = 0, time.monotonic(), threading.Event()
        self.ask([HELLO.replace("acme", "noisy")])
        self.thread = threading.Thread(target=self.run)

    def ask(self, requests):
        self.socket.sendall("".join(line + "\n" for line in requests).encode())
        replies = [json.loads(self.lines.readline()) for _ in requests]
        assert not any("error" in reply for reply in replies), replies
        return replies

    def run(self):
        while not self.is_over.is_set():
            made = self.ask([json.dumps({"job": LARGE, "op": "submit"})] * 100)
            done = self.ask([COLLECT.replace("@", str(reply["job"])) for reply in made])
            assert all(reply["value"] == 150_000 for reply in done), done
            self.ask(['{"op":"retire"}'])
            self.jobs += len(done)
        self.rate = self.jobs / (time.monotonic() - self.began)

    def __enter__(self):
        self.thread.start()
        return self

    def __exit__(self, *_):
        self.is_over.set()
        self.thread.join()
        self.lines.close()
        self.socket.close()


def beside(clients, program):
    """A quiet tenant's small jobs beside a noisy tenant: how many a second, the 50th and 99th wait of 100 in milliseconds, and
    how many large jobs a second the noisy tenant has."""
    with Running(program, NOISY) as running, Noise(running.path) as noise:
        words = [clients, running.path, "1", str(SECONDS), HELLO, SUBMIT, COLLECT]
        out = subprocess.run(words, check=True, capture_output=True, text=True).stdout
    _, rate, middle, late = (float(word) for word in out.split())
    return rate, middle / 1000, late / 1000, noise.rate


def quiet(clients):
    print("\n| A small job of a quiet tenant beside a noisy one | A second | p50, ms | p99, ms | large jobs a second |\n|---|---|---|---|---|")
    rounds = [[beside(clients, program) for program in ("arena-server", "arena-host")] for _ in range(ROUNDS)]
    for number, name in enumerate(("the server's workers, which stay", "the host's, which share")):
        rate, middle, late, jobs = (statistics.median(it) for it in zip(*(both[number] for both in rounds)))
        print(f"| {name} | {rate:,.0f} | {middle:.2f} | {late:.2f} | {jobs:,.0f} |", flush=True)
    print(f"| the noisy tenant's jobs, host to server | | | | {statistics.median(host[3] / server[3] for server, host in rounds):.2f} |")


def visit(path):
    """How long a client takes that comes, asks once and goes, in milliseconds."""
    began = time.perf_counter()
    with socket.socket(socket.AF_UNIX) as client:
        client.connect(path)
        client.sendall(f'{HELLO}\n{{"op":"arena"}}\n'.encode())
        with client.makefile() as replies:
            assert [json.loads(replies.readline()) for _ in range(2)][1]["slots"] == 2
    return 1000 * (time.perf_counter() - began)


def visits(running, seconds, every):
    """The times of visits, while a file asks for a rotation every so many seconds, or never."""
    times, end, following = [], time.monotonic() + seconds, time.monotonic()
    while time.monotonic() < end:
        if every and time.monotonic() >= following:
            following += every
            open(os.path.join(running.folder.name, "rotate"), "w").close()
        times.append(visit(running.path))
    return sorted(times)


def rotations():
    print("\n| A client that comes, asks once and goes, ms | p50 | p99 | the longest |\n|---|---|---|---|")
    for name, every in (("no rotation", None), ("a rotation each half second", 0.5)):
        with Running("arena-host") as running:
            times = visits(running, 2 * SECONDS, every)
        middle, late = times[len(times) // 2], times[len(times) * 99 // 100]
        print(f"| {name} | {middle:.2f} | {late:.2f} | {times[-1]:.1f} |", flush=True)


def main():
    with tempfile.TemporaryDirectory() as built:
        clients = os.path.join(built, "clients")
        source = HERE.parent / "server" / "clients.c"
        subprocess.run(["cc", "-O2", "-pthread", "-o", clients, source], check=True)
        print("| A second | Connections | arena-server | arena-host | ratio |\n|---|---|---|---|---|")
        compared(clients, "`arena`, one after another", 1, '{"op":"arena"}')
        compared(clients, "`arena`, one after another", 64, '{"op":"arena"}')
        compared(clients, "a small job, executed", 1, SMALL)
        quiet(clients)
    rotations()


main()

#!/usr/bin/env python3
"""Measures small jobs over 64 connections, each of a tenant of its own: by the server, by one host, and by two and four hosts
side by side on this machine that share the tenants and connections; and by one host with one worker, of 64 tenants and of one.

usage: benches/host/many.py [SECONDS [ROUNDS [SERVER HOST]]], at the top of the repository. Each measure takes SECONDS, three if
none are said, and there are ROUNDS of each, three if none are said. It needs `cc`, and out/arena-server and out/arena-host of
`make build` if no programs are said; what is not built is left out. Clients share the processors with what they ask. A rate is
the turns of all clients by the time from the first one's start to the last one's end.
"""
import contextlib
import json
import os
import pathlib
import statistics
import subprocess
import sys
import tempfile
import time
from collections.abc import Callable, Iterator
from dataclasses import dataclass

HERE = pathlib.Path(__file__).resolve().parent
SECONDS = float(sys.argv[1]) if len(sys.argv) > 1 else 3.0
ROUNDS = int(sys.argv[2]) if len(sys.argv) > 2 else 3
PROGRAMS = dict(zip(("arena-server", "arena-host"), sys.argv[3:]))
CONNECTIONS = 64
WORKERS = 4
EXECUTE = json.dumps({"op": "execute", "job": {"args": [7, 0], "fuel": 10, "procs": [[["ret", 0]]]}}, separators=(",", ":"))
SUBMIT = EXECUTE.replace("execute", "submit")
COLLECT = '{"job":@,"op":"collect"}'
TAKE = COLLECT.replace("}", ',"release":true}')


def path_of(program: str) -> str:
    """Where a program is."""
    return PROGRAMS.get(program, os.path.abspath(f"out/{program}"))


@dataclass
class Running:
    """A server or a host with some tenants, until its socket is removed."""

    program: str
    names: list[str]
    workers: int = WORKERS

    def __enter__(self) -> "Running":
        self.folder = tempfile.TemporaryDirectory()
        there = pathlib.Path(self.folder.name)
        self.socket = there / "socket"
        steps = 1_048_576 if len(self.names) == 1 else 262_144  # one connection alone is fast
        tenants = [{"name": it, "priority": "normal", "reserved": 1, "rows": 200, "slots": 2, "steps": steps} for it in self.names]
        (there / "config.json").write_text(json.dumps({"tenants": tenants, "workers": self.workers}))
        where = ["--run", there, "--rotate-at", 100] if self.program == "arena-host" else ["--socket", self.socket]
        command = [path_of(self.program), "--config", there / "config.json", *where, "--connections", CONNECTIONS]
        self.process = subprocess.Popen([str(it) for it in command], stdout=subprocess.PIPE, stderr=subprocess.DEVNULL, text=True)
        assert self.process.stdout.readline() == "listening\n"
        return self

    def __exit__(self, *_: object) -> None:
        self.socket.unlink(missing_ok=True)  # a server that has served all its connections ends by itself
        out, _ = self.process.communicate(timeout=300)
        self.folder.cleanup()
        assert self.process.returncode == 0 and "fault" not in out, out


def rate(clients: pathlib.Path, places: list[tuple[Running, str]], lines: tuple[str, ...]) -> float:
    """How many turns a second clients take together, each with a connection of a tenant of its own."""
    began = time.monotonic()
    asking = [subprocess.Popen([clients, running.socket, "1", str(SECONDS), json.dumps({"op": "hello", "tenant": name},
                                separators=(",", ":")), *lines], stdout=subprocess.PIPE, text=True) for running, name in places]
    said = [it.communicate()[0] for it in asking]
    took = time.monotonic() - began
    assert all(it.returncode == 0 for it in asking), said
    return sum(int(it.split()[0]) for it in said) / took


@contextlib.contextmanager
def of_one_worker(tenants: int) -> Iterator[list[tuple[Running, str]]]:
    """All connections, of so many tenants in turn, at a host with one worker."""
    names = [f"tenant-{n}" for n in range(tenants)]
    with Running("arena-host", names, workers=1) as running:
        yield [(running, names[n % tenants]) for n in range(CONNECTIONS)]


@contextlib.contextmanager
def places(program: str, count: int, connections: int = CONNECTIONS) -> Iterator[list[tuple[Running, str]]]:
    """So many connections, spread over so many servers or hosts."""
    names = [f"tenant-{n}" for n in range(connections)]
    with contextlib.ExitStack() as stack:
        running = [stack.enter_context(Running(program, names[n::count])) for n in range(count)]
        yield [(running[n % count], name) for n, name in enumerate(names)]


def measures(clients: pathlib.Path) -> dict[str, Callable[[], float]]:
    """What is measured in each round, by the programs that are built."""
    def by(program: str, count: int, connections: int, *lines: str) -> Callable[[], float]:
        def measured() -> float:
            with places(program, count, connections) as found:
                return rate(clients, found, lines)
        return measured
    def by_one_worker(tenants: int) -> Callable[[], float]:
        def measured() -> float:
            with of_one_worker(tenants) as found:
                return rate(clients, found, (SUBMIT, TAKE))
        return measured
    rows = {
        "executed, 1 connection, a host": ("arena-host", 1, 1, EXECUTE),
        "executed, 64 connections, a host": ("arena-host", 1, CONNECTIONS, EXECUTE),
        "executed, 64 connections, the server": ("arena-server", 1, CONNECTIONS, EXECUTE),
        "executed, 64 connections, two hosts": ("arena-host", 2, CONNECTIONS, EXECUTE),
        "executed, 64 connections, four hosts": ("arena-host", 4, CONNECTIONS, EXECUTE),
        "submitted, 1 connection, a host": ("arena-host", 1, 1, SUBMIT, COLLECT),
        "submitted, 64 connections, a host": ("arena-host", 1, CONNECTIONS, SUBMIT, COLLECT),
        "submitted, 64 connections, the server": ("arena-server", 1, CONNECTIONS, SUBMIT, COLLECT),
        "submitted, 64 connections, four hosts": ("arena-host", 4, CONNECTIONS, SUBMIT, COLLECT),
    }
    shared = {f"submitted, 64 connections of {tenants}, a host of one worker": by_one_worker(count)
              for count, tenants in ((1, "one tenant"), (CONNECTIONS, "a tenant each")) if os.path.exists(path_of("arena-host"))}
    return {name: by(*words) for name, words in rows.items() if os.path.exists(path_of(words[0]))} | shared


def report(rounds: list[dict[str, float]]) -> None:
    """The medians, each with its ratio to what one host did over all connections in the same round."""
    print("| Small jobs a second | | Times what one host did over 64 connections |\n|---|---|---|")
    for name in rounds[0]:
        base = f"{name.split(',')[0]}, 64 connections, a host"
        ratio = statistics.median(it[name] / it[base] for it in rounds)
        print(f"| {name} | {statistics.median(it[name] for it in rounds):,.0f} | {ratio:.2f} |")


def main() -> None:
    """Takes the rounds."""
    with tempfile.TemporaryDirectory() as built:
        clients = pathlib.Path(built) / "clients"
        subprocess.run(["cc", "-O2", "-pthread", "-o", clients, HERE.parent / "server/clients.c"], check=True)
        rounds = [{name: measured() for name, measured in measures(clients).items()} for _ in range(ROUNDS)]
    report(rounds)


if __name__ == "__main__":
    main()

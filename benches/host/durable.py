#!/usr/bin/env python3
"""Measures what each `--durable` of arena-host costs beside `off`, in turn, by the same clients, and how many requests it keeps
with `reply` beside what Redis keeps with `appendfsync always`, where redis-server is installed.

usage: benches/host/durable.py [SECONDS [ROUNDS [HOST]]], at the top of the repository. Each measure takes SECONDS, two if none
are said, and there are ROUNDS of each, five if none are said. It needs `cc`, and out/arena-host of `make build` if no program
is said.
"""
import json
import os
import pathlib
import shutil
import statistics
import subprocess
import sys
import tempfile
import time

CLIENTS = pathlib.Path(__file__).resolve().parents[1] / "server" / "clients.c"
SECONDS = float(sys.argv[1]) if len(sys.argv) > 1 else 2.0
ROUNDS = int(sys.argv[2]) if len(sys.argv) > 2 else 5
HOST = os.path.abspath(sys.argv[3] if len(sys.argv) > 3 else "out/arena-host")
WORDS = ("off", "write", "second", "reply")
TOGETHER = 16
ARENA, INCR = '{"op":"arena"}', "INCR number"
HELLO = '{"op":"hello","tenant":"acme"}'
CONFIG = {"tenants": [{"name": "acme", "priority": "normal", "reserved": 1, "rows": 200, "slots": 2, "steps": 1_048_576}],
          "workers": 1}
FIB = [[["set", 2, 2], ["lt", 3, 0, 2], ["jz", 3, 4], ["ret", 0], ["set", 2, 1], ["sub", 3, 0, 2], ["spawn", 0, 0, 3, 1],
        ["sub", 3, 3, 2], ["spawn", 0, 0, 3, 1], ["wait", 4, 5, 0], ["ret", 4]]]


def executes(procs: list, argument: int) -> str:
    """The line of a request that executes a job."""
    return json.dumps({"op": "execute", "job": {"args": [argument, 0], "fuel": 100_000, "procs": procs}}, separators=(",", ":"))


def rate(clients: str, durable: str, connections: int, line: str) -> float:
    """How many turns a second clients take."""
    with tempfile.TemporaryDirectory(dir=os.environ.get("TMPDIR", "/var/tmp")) as folder:
        config = pathlib.Path(folder, "config.json")
        config.write_text(json.dumps(CONFIG))
        command = [HOST, "--config", config, "--run", folder, "--rotate-at", "100", "--durable", durable]
        with subprocess.Popen(command, stdout=subprocess.PIPE, stderr=subprocess.DEVNULL, text=True) as host:
            assert host.stdout and host.stdout.readline() == "listening\n"
            words = [clients, f"{folder}/socket", str(connections), str(SECONDS), HELLO, line]
            out = subprocess.run(words, check=True, capture_output=True, text=True).stdout
            os.unlink(f"{folder}/socket")
            host.communicate(timeout=120)
            assert host.returncode == 0
    return float(out.split()[1])


def redis_rate(clients: str, connections: int, line: str) -> float:
    """How many turns a second clients take at Redis, each of which adds 1 to a number and waits until that is on the disk."""
    with tempfile.TemporaryDirectory(dir=os.environ.get("TMPDIR", "/var/tmp")) as folder:
        socket = os.path.join(folder, "socket")
        command = ["redis-server", "--port", "0", "--unixsocket", socket, "--dir", folder, "--save", "", "--appendonly", "yes",
                   "--appendfsync", "always"]
        with subprocess.Popen(command, stdout=subprocess.DEVNULL) as redis:
            while not os.path.exists(socket):
                assert redis.poll() is None
                time.sleep(0.01)
            words = [clients, socket, str(connections), str(SECONDS), "PING", line]
            out = subprocess.run(words, check=True, capture_output=True, text=True).stdout
            redis.terminate()
            redis.wait(timeout=60)
    return float(out.split()[1])


def beside_redis(clients: str, connections: int, count: int) -> None:
    """A row of the second table, of so many requests sent together: the medians, and the median of each round's ratio."""
    own_lines, its_lines = "\n".join([ARENA] * count), "\n".join([INCR] * count)
    rounds = [(rate(clients, "reply", connections, own_lines), redis_rate(clients, connections, its_lines)) for _ in range(ROUNDS)]
    own, redis = (statistics.median(it) for it in zip(*rounds, strict=True))
    print(f"| {count} | {connections} | {own:,.0f} | {redis:,.0f} | {statistics.median(mine / its for mine, its in rounds):.2f} |", flush=True)


def compared(clients: str, name: str, connections: int, line: str) -> None:
    """A row of the table: the medians, and the medians of each round's ratios to `off`."""
    rounds = [{durable: rate(clients, durable, connections, line) for durable in WORDS} for _ in range(ROUNDS)]
    cells = [f"{statistics.median(it['off'] for it in rounds):,.0f}"]
    cells += [f"{statistics.median(it[durable] / it['off'] for it in rounds):.2f}" for durable in WORDS[1:]]
    print(f"| {name} | {connections} | {' | '.join(cells)} |", flush=True)


def main() -> None:
    """Prints the table."""
    with tempfile.TemporaryDirectory() as folder:
        clients = os.path.join(folder, "clients")
        subprocess.run(["cc", "-O2", "-pthread", "-o", clients, CLIENTS], check=True)
        print("| A second | Connections | `off` | `write` | `second` | `reply` |\n|---|---|---|---|---|---|")
        for connections in (1, 64):
            compared(clients, "`arena`", connections, ARENA)
            compared(clients, f"{TOGETHER} `arena`, sent together", connections, "\n".join([ARENA] * TOGETHER))
        compared(clients, "a small job, executed", 1, executes([[["ret", 0]]], 7))
        compared(clients, "fib(6), executed", 1, executes(FIB, 6))
        if shutil.which("redis-server"):
            print("\n| Together | Connections | `arena`, `--durable reply` | `INCR`, Redis, `appendfsync always` | Ratio |\n|---|---|---|---|---|")
            for count in (1, TOGETHER):
                for connections in (1, 64):
                    beside_redis(clients, connections, count)


main()

#!/usr/bin/env python3
"""Measures arena-server from outside, by clients over its socket, beside an echo server in C and a plain server in Rust.

usage: benches/server/run.py [SECONDS [PROGRAM]], at the top of the repository. Each measure takes SECONDS, two if none
are said. It needs `cc`, `rustc`, and out/arena-server of `make build` if no program is said.
"""
import contextlib
import json
import os
import pathlib
import socket
import subprocess
import sys
import tempfile
import threading
import time

HERE = pathlib.Path(__file__).resolve().parent
SECONDS = float(sys.argv[1]) if len(sys.argv) > 1 else 2.0
PROGRAM = sys.argv[2:] or [os.path.abspath("out/arena-server")]

FIB = [[["set", 2, 2], ["lt", 3, 0, 2], ["jz", 3, 4], ["ret", 0], ["set", 2, 1], ["sub", 3, 0, 2], ["spawn", 0, 0, 3, 1],
        ["sub", 3, 3, 2], ["spawn", 0, 0, 3, 1], ["wait", 4, 5, 0], ["ret", 4]]]
COUNTING = [[["set", 2, 1], ["jz", 0, 6], ["sub", 0, 0, 2], ["add", 1, 1, 2], ["lt", 3, 1, 0], ["jmp", 1], ["ret", 1]]]
SMALL = {"args": [7, 0], "fuel": 10, "procs": [[["ret", 0]]]}
LARGE = {"args": [150_000, 0], "fuel": 1_000_000, "procs": COUNTING}     # 750,003 instructions
BRANCHING = {"args": [15, 0], "fuel": 1_000_000, "procs": FIB}           # 1,973 tasks
COLLECT = '{"job":@,"op":"collect"}'
ARENA = '{"op":"arena"}'
AHEAD = 16


def text(request):
    return json.dumps(request, separators=(",", ":"))


def hello(name):
    return text({"op": "hello", "tenant": name})


def tenant(name, slots, reserved, priority="normal", rows=200):
    return {"name": name, "priority": priority, "reserved": reserved, "rows": rows, "slots": slots, "steps": 1_048_576}


class Server:
    """A server on a socket of its own, until its connections have ended."""

    def __init__(self, command):
        self.folder = tempfile.TemporaryDirectory()
        self.path = os.path.join(self.folder.name, "socket")
        self.process = subprocess.Popen(command(self.folder.name, self.path), stdout=subprocess.PIPE, text=True)
        assert self.process.stdout.readline() == "listening\n"

    def __enter__(self):
        return self

    def __exit__(self, *_):
        out, _ = self.process.communicate(timeout=120)
        assert self.process.returncode == 0 and "fault" not in out, out


def arena(tenants, workers, connections):
    def command(folder, path):
        config = os.path.join(folder, "config")
        with open(config, "w") as it:
            json.dump({"tenants": tenants, "workers": workers}, it)
        return [*PROGRAM, "--config", config, "--socket", path, "--connections", str(connections)]
    return Server(command)


class Desk:
    """A connection to a tenant."""

    def __init__(self, path, name):
        self.socket = socket.socket(socket.AF_UNIX)
        self.socket.connect(path)
        self.lines = self.socket.makefile()
        self.ask([hello(name)])

    def ask(self, requests):
        self.socket.sendall("".join(line + "\n" for line in requests).encode())
        replies = [json.loads(self.lines.readline()) for _ in requests]
        assert not any("error" in reply for reply in replies), replies
        return replies

    def run(self, jobs):
        """Submits jobs, waits for their outcomes, and retires them."""
        made = self.ask([text({"job": job, "op": "submit"}) for job in jobs])
        done = self.ask([COLLECT.replace("@", str(reply["job"])) for reply in made])
        self.ask(['{"op":"retire"}'])
        return [reply["value"] for reply in done]

    def close(self):
        self.lines.close()
        self.socket.close()


class Bench:
    def __init__(self, built):
        self.echo, self.plain, self.clients = (os.path.join(built, it) for it in ("echo", "plain", "clients"))
        for program in (self.echo, self.clients):
            source = HERE / f"{os.path.basename(program)}.c"
            subprocess.run(["cc", "-O2", "-pthread", "-o", program, source], check=True)
        subprocess.run(["rustc", "--edition", "2021", "-O", "-o", self.plain, HERE / "plain.rs"], check=True)

    def servers(self, connections):
        """The servers that answer `arena`, each with its name."""
        yield "the echo server", Server(lambda _, path: [self.echo, path, str(connections)])
        yield "the plain server", Server(lambda _, path: [self.plain, path, str(connections)])
        yield "`arena`, one tenant", arena([tenant("acme", 2, 1)], 1, connections)

    def turns(self, server, connections, *lines, seconds=SECONDS):
        """Returns how many turns a second while turns are taken, and the 50th and 99th of 100, in microseconds."""
        words = [self.clients, server.path, str(connections), str(seconds), *lines]
        out = subprocess.run(words, check=True, capture_output=True, text=True).stdout
        _, rate, middle, late = (float(word) for word in out.split())
        return f"{rate:,.0f} | {middle:.0f} | {late:.0f}"

    def requests(self):
        print("\n| One request after another | Connections | A second | p50, µs | p99, µs |\n|---|---|---|---|---|")
        for connections in (1, 64):
            for name, server in self.servers(connections):
                with server:
                    print(f"| {name} | {connections} | {self.turns(server, connections, hello('acme'), ARENA)} |", flush=True)

    def ahead(self):
        print("\n| Requests sent together, one connection | How many | Times a second | p50, µs | p99, µs |\n|---|---|---|---|---|")
        lines = "\n".join([ARENA] * AHEAD)
        for name, server in self.servers(1):
            with server:
                # A history has room for 65,536 times.
                turns = self.turns(server, 1, hello("acme"), lines, seconds=min(SECONDS, 0.5))
                print(f"| {name} | {AHEAD} together | {turns} |", flush=True)

    def jobs(self):
        print("\n| A small job to its outcome, one connection | A second | p50, µs | p99, µs |\n|---|---|---|---|")
        execute, submit = (text({"job": SMALL, "op": op}) for op in ("execute", "submit"))
        with arena([tenant("acme", 2, 1)], 1, 1) as server:
            print(f"| executed by its own session | {self.turns(server, 1, hello('acme'), execute)} |", flush=True)
        with arena([tenant("acme", 2, 1)], 1, 1) as server:
            print(f"| submitted and collected | {self.turns(server, 1, hello('acme'), submit, COLLECT)} |", flush=True)

    def beside(self, name, slots, priority, *lines):
        """A quiet tenant, while another one runs large jobs, a hundred at a time."""
        tenants = [tenant("quiet", 2, 1, priority), tenant("noisy", slots, 0)]
        with arena(tenants, 4, 2) as server:
            noise, is_over = Desk(server.path, "noisy"), threading.Event()

            def keep_busy():
                with contextlib.closing(noise):
                    while not is_over.is_set():
                        noise.run([LARGE] * 100)

            busy = threading.Thread(target=keep_busy)
            busy.start()
            # The noisy tenant's history has room for some 1,390 of its jobs, which are made within a second or two.
            print(f"| {name} | {self.turns(server, 1, hello('quiet'), *lines, seconds=min(SECONDS, 0.5))} |", flush=True)
            is_over.set()
            busy.join()

    def noise(self):
        print("\n| A small job of a quiet tenant beside a noisy one, 4 workers | A second | p50, µs | p99, µs |\n|---|---|---|---|")
        execute, submit = (text({"job": SMALL, "op": op}) for op in ("execute", "submit"))
        self.beside("executed; the noisy tenant has 8 slots", 8, "normal", execute)
        self.beside("submitted; the noisy tenant has 3 slots", 3, "normal", submit, COLLECT)
        self.beside("submitted; the noisy tenant has 8 slots", 8, "normal", submit, COLLECT)
        self.beside("the same, and the quiet tenant's priority is high", 8, "high", submit, COLLECT)

    def batch(self, tenants, workers, jobs, value):
        """Returns the milliseconds that jobs take, the fewest of five times, spread over some tenants."""
        names = [f"t{number}" for number in range(tenants)]
        best = None
        with arena([tenant(name, 8, 0, rows=1_000) for name in names], workers, tenants) as server:
            desks = [Desk(server.path, name) for name in names]
            for _ in range(5):
                wrong = []

                def one(desk):
                    wrong.extend(got for got in desk.run(jobs) if got != value)

                threads = [threading.Thread(target=one, args=(desk,)) for desk in desks]
                begun = time.monotonic()
                for thread in threads:
                    thread.start()
                for thread in threads:
                    thread.join()
                took = time.monotonic() - begun
                assert not wrong, wrong
                best = took if best is None else min(best, took)
            for desk in desks:
                desk.close()
        return f"{1e3 * best:.0f}"

    def workers(self):
        print("\n| Milliseconds, by number of workers | 1 | 2 | 4 |\n|---|---|---|---|")
        for name, tenants, jobs, value in [
            ("100 jobs of 750,003 instructions, one tenant", 1, [LARGE] * 100, 150_000),
            ("the same, 25 for each of four tenants", 4, [LARGE] * 25, 150_000),
            ("a job of 1,973 tasks, one tenant", 1, [BRANCHING], 610),
            ("such a job for each of four tenants", 4, [BRANCHING], 610),
        ]:
            times = " | ".join(self.batch(tenants, workers, jobs, value) for workers in (1, 2, 4))
            print(f"| {name} | {times} |", flush=True)


def main():
    with tempfile.TemporaryDirectory() as built:
        bench = Bench(built)
        bench.requests()
        bench.ahead()
        bench.jobs()
        bench.noise()
        bench.workers()


main()

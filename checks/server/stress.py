#!/usr/bin/env python3
"""Serves 64 tenants to 64 connections by 32 workers, round after round: each client asks at random for some seconds,
and then every tenant must close. Some clients go in the midst of a wait, and some servers are stopped while their
clients ask. Replies are compared with what the jobs give under any schedule.

usage: checks/server/stress.py [MINUTES [PROGRAM]], at the top of the repository. It runs for ten minutes if none are
said, by out/arena-server, and ends with a status other than 0 at the first thing that is not as it must be.
"""
import collections
import contextlib
import json
import os
import random
import socket
import subprocess
import sys
import tempfile
import threading
import time

TENANTS, CONNECTIONS, WORKERS = 64, 64, 32
SECONDS = 15          # how long the clients of a round ask
PATIENCE = 120        # how long a round's last replies, or its closing, may take

FIB = [[["set", 2, 2], ["lt", 3, 0, 2], ["jz", 3, 4], ["ret", 0], ["set", 2, 1], ["sub", 3, 0, 2], ["spawn", 0, 0, 3, 1],
        ["sub", 3, 3, 2], ["spawn", 0, 0, 3, 1], ["wait", 4, 5, 0], ["ret", 4]]]
COUNTING = [[["set", 2, 1], ["jz", 0, 6], ["sub", 0, 0, 2], ["add", 1, 1, 2], ["lt", 3, 1, 0], ["jmp", 1], ["ret", 1]]]
ISOLATED = [[["set", 2, 5], ["store", 0, 2], ["isolate", 3, 1, 0, 1], ["load", 5, 0], ["ret", 5]],
            [["spawn", 0, 2, 0, 1], ["wait", 2, 3, 0], ["ret", 2]], [["ret", 0]]]
DIVIDING = [[["set", 2, 1], ["div", 2, 2, 3], ["ret", 2]]]

# each job with the outcome that every schedule gives it
JOBS = [
    ({"args": [7, 0], "fuel": 10, "procs": [[["ret", 0]]]}, {"status": "complete", "value": 7}),
    ({"args": [6, 0], "fuel": 1000, "procs": FIB}, {"status": "complete", "value": 8}),
    ({"args": [5000, 0], "fuel": 100000, "procs": COUNTING}, {"status": "complete", "value": 5000}),
    ({"args": [0, 0], "fuel": 1000, "procs": ISOLATED}, {"status": "complete", "value": 5}),
    ({"args": [0, 0], "fuel": 10, "procs": DIVIDING}, {"fault": 1, "status": "fault"}),
]
# errors that a good request may get: history full, job limit, unknown (since retired), open rows, busy
MAY_FAIL = {6, 7, 8, 10, 12}


class Wrong(Exception):
    """Something was not as it must be."""


class Ended(Exception):
    """The server ended a session that waits for a job, as it does when the tenant's history becomes full, or any
    session, once it is stopped."""


class Gone(Exception):
    """A client went while it waited for a reply."""


def tenant_config(number, dice):
    slots = dice.choice([2, 3, 4, 8, 16])
    return {"name": f"t{number}", "priority": dice.choice(["low", "normal", "high"]),
            "reserved": dice.randrange(slots), "rows": 4096, "slots": slots, "steps": dice.choice([300, 5000, 20000])}


class Client:
    """A connection that asks one tenant at random."""

    def __init__(self, path, tenant, dice, stopped):
        self.dice, self.tenant, self.asked = dice, tenant, collections.Counter()
        self.stopped = stopped      # set before the server is stopped
        self.wanted = {}      # the jobs it made, each with its outcome
        self.cancelled = set()
        self.socket = socket.socket(socket.AF_UNIX)
        self.socket.settimeout(PATIENCE)      # a reply that comes later is a hang
        self.socket.connect(path)
        self.lines = self.socket.makefile("rb")
        if self.ask({"op": "hello", "tenant": tenant}) != {"tenant": tenant}:
            raise Wrong("hello")

    def ask(self, request):
        try:
            self.socket.sendall(json.dumps(request).encode() + b"\n")
            if request["op"] in ("execute", "collect") and self.dice.random() < 0.001:
                raise Gone(self.tenant)
            line = self.lines.readline()
        except (BrokenPipeError, ConnectionResetError):
            line = b""
        if not line and (request["op"] in ("execute", "collect") or self.stopped.is_set()):
            raise Ended(self.tenant)
        if not line.endswith(b"\n"):
            raise Wrong(f"{self.tenant}: no reply to {request}")
        return json.loads(line)

    def has_failed(self, reply):
        """Whether a request was refused as it may be."""
        if "error" not in reply:
            return False
        if reply["code"] not in MAY_FAIL:
            raise Wrong(f"{self.tenant}: {reply}")
        self.asked[reply["error"]] += 1
        return True

    def make(self, op):
        job, outcome = self.dice.choice(JOBS)
        reply = self.ask({"job": job, "op": op})
        if self.has_failed(reply):
            return
        self.wanted[reply["job"]] = outcome
        if "status" in reply:
            self.compare(reply)

    def compare(self, reply):
        number = reply.pop("job")
        if reply != self.wanted[number] and not (number in self.cancelled and reply["status"] == "canceled"):
            raise Wrong(f"{self.tenant}: job {number} is {reply}, not {self.wanted[number]}")

    def look(self, op):
        number = self.dice.choice(list(self.wanted))
        reply = self.ask({"job": number, "op": op})
        if not self.has_failed(reply) and reply["status"] != "running":
            self.compare(reply)

    def cancel(self):
        number = self.dice.choice(list(self.wanted))
        self.cancelled.add(number)
        self.has_failed(self.ask({"job": number, "op": "cancel"}))

    def step(self):
        kind = self.dice.choices(["submit", "execute", "poll", "collect", "cancel", "cells", "arena", "retire", "bad"],
                                 [20, 20, 20, 25, 2, 5, 5, 2, 1])[0]
        self.asked[kind] += 1
        if kind in ("submit", "execute"):
            self.make(kind)
        elif kind == "bad":
            if self.ask({"op": "dance"}).get("code") != 3:
                raise Wrong("a bad request")
        elif kind in ("cells", "arena", "retire"):
            self.has_failed(self.ask({"op": kind, "key": 0} if kind == "cells" else {"op": kind}))
        elif self.wanted:
            self.cancel() if kind == "cancel" else self.look(kind)

    def run(self, end):
        """Asks until the time is over. Returns whether the server ended the session though it was not stopped."""
        try:
            while time.monotonic() < end:
                self.step()
            return False
        except Gone:
            self.asked["client gone"] += 1
            return False
        except Ended:
            self.asked["session stopped" if self.stopped.is_set() else "session ended"] += 1
            return not self.stopped.is_set()
        finally:
            self.socket.close()


def config_of(dice):
    tenants = [tenant_config(number, dice) for number in range(TENANTS)]
    return {"tenants": tenants, "workers": WORKERS}


def start(program, folder, config):
    path, file = os.path.join(folder, "socket"), os.path.join(folder, "config")
    with open(file, "w") as it:
        json.dump(config, it)
    words = ["--config", file, "--socket", path, "--connections", str(CONNECTIONS)]
    server = subprocess.Popen([*program, *words], stdout=subprocess.PIPE, stderr=subprocess.PIPE, text=True)
    if server.stdout.readline() != "listening\n":
        raise Wrong(f"the server did not start: {server.communicate()}")
    return server, path


class Round:
    """A server with all its clients, half of them at the first eight tenants."""

    def __init__(self, program, seed):
        self.program, self.dice, self.asked = program, random.Random(seed), collections.Counter()
        self.config = config_of(self.dice)
        self.wrong, self.full = [], set()
        self.stopped, self.stop_after = threading.Event(), self.dice.choice([None, None, self.dice.uniform(1, SECONDS)])

    def one(self, path, tenant, dice, end):
        try:
            client = Client(path, f"t{tenant}", dice, self.stopped)
            if client.run(end):
                self.full.add(tenant)
            self.asked.update(client.asked)
        except (Wrong, Ended, OSError, KeyError, ValueError) as fault:
            self.wrong.append(repr(fault))

    def clients(self, path):
        end = time.monotonic() + SECONDS
        for _ in range(CONNECTIONS):
            tenant = self.dice.randrange(8) if self.dice.random() < 0.5 else self.dice.randrange(TENANTS)
            yield threading.Thread(target=self.one, args=(path, tenant, random.Random(self.dice.random()), end))

    def run(self):
        """Returns how many entries each tenant closed with."""
        with tempfile.TemporaryDirectory() as folder:
            server, path = start(self.program, folder, self.config)
            threads = list(self.clients(path))
            for thread in threads:
                thread.start()
            if self.stop_after:
                time.sleep(self.stop_after)
                self.stopped.set()
                with contextlib.suppress(FileNotFoundError):  # it has ended by itself
                    os.unlink(path)
                    self.asked["server stopped"] += 1
            for thread in threads:
                thread.join()
            try:
                out, err = server.communicate(timeout=PATIENCE)
            except subprocess.TimeoutExpired:
                raise Wrong(f"the server hangs: process {server.pid}, {self.wrong}")
        if self.wrong or err or server.returncode != 0:
            raise Wrong(f"{self.wrong}, {err}, status {server.returncode}, {out}")
        return self.entries(out.splitlines())

    def entries(self, lines):
        tenants = self.config["tenants"]
        told = [line.split(": closed, ") for line in lines]
        if [line[0] for line in told] != [tenant["name"] for tenant in tenants]:
            raise Wrong(f"closed: {lines}")
        entries = [int(line[1].split()[0]) for line in told]
        for number in self.full:
            if entries[number] != tenants[number]["steps"]:
                raise Wrong(f"t{number} ended a session at {entries[number]} entries")
        return entries


def main():
    minutes = float(sys.argv[1]) if len(sys.argv) > 1 else 10.0
    program = sys.argv[2:] or [os.path.abspath("out/arena-server")]
    begun, rounds, entries, asked = time.monotonic(), 0, 0, collections.Counter()
    while time.monotonic() - begun < 60 * minutes:
        seed = random.randrange(1 << 32)
        one = Round(program, seed)
        try:
            entries += sum(one.run())
        except Wrong as fault:
            sys.exit(f"after {rounds} rounds, seed {seed}: {fault}")
        asked += one.asked
        rounds += 1
    print("; ".join(f"{kind} {count}" for kind, count in sorted(asked.items())))
    print(f"{rounds} rounds in {(time.monotonic() - begun) / 60:.1f} minutes: {entries} entries, "
          f"all {TENANTS} tenants closed each time")


if __name__ == "__main__":
    main()

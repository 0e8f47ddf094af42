#!/usr/bin/env python3
"""Measures what a turn of a slot costs, as ratios of jobs that one run asks for in turn: a long program to a short one, a
job that a client waits for to one that it executes, four tenants and four servers to one, several workers to one, and, if
redis-server is installed, a small job to the same function as a script of Redis.

usage: benches/server/turns.py [ROUNDS [PROGRAM]], at the top of the repository. Each row is the median of ROUNDS, seven if
none are said. It needs out/arena-server of `make build` if no program is said.
"""
import contextlib
import json
import os
import shutil
import socket
import statistics
import subprocess
import sys
import tempfile
import threading
import time

ROUNDS = int(sys.argv[1]) if len(sys.argv) > 1 else 7
PROGRAM = sys.argv[2] if len(sys.argv) > 2 else os.path.abspath("out/arena-server")
FIB = [[["set", 2, 2], ["lt", 3, 0, 2], ["jz", 3, 4], ["ret", 0], ["set", 2, 1], ["sub", 3, 0, 2], ["spawn", 0, 0, 3, 1],
        ["sub", 3, 3, 2], ["spawn", 0, 0, 3, 1], ["wait", 4, 5, 0], ["ret", 4]]]
# 15 procedures of 201 instructions that nothing calls
UNUSED = [[["set", 1, number]] * 200 + [["ret", 1]] for number in range(15)]
RET = [[["set", 0, 0], ["ret", 0]]]
LUA = "local function fib(n) if n < 2 then return n end return fib(n - 1) + fib(n - 2) end return fib(tonumber(ARGV[1]))"
WARM = 20
# A FIB(20) makes 76,616 entries, and a history has room for thirteen.
LONG_ROUNDS = min(ROUNDS, 6)


def text(request):
    return json.dumps(request, separators=(",", ":")) + "\n"


def job(op, n, unused=(), procs=FIB):
    return text({"job": {"args": [n, 0], "fuel": 1_000_000, "procs": [*procs, *unused]}, "op": op})


def tenant(name, slots, reserved):
    return {"name": name, "priority": "normal", "reserved": reserved, "rows": 4096, "slots": slots, "steps": 1_048_576}


class Server:
    """A server on a socket of its own, until its socket is removed."""

    def __init__(self, tenants, workers):
        self.folder = tempfile.TemporaryDirectory()
        self.path = os.path.join(self.folder.name, "socket")
        config = os.path.join(self.folder.name, "config")
        with open(config, "w") as it:
            json.dump({"tenants": tenants, "workers": workers}, it)
        command = [PROGRAM, "--config", config, "--socket", self.path, "--connections", "64"]
        self.process = subprocess.Popen(command, stdout=subprocess.PIPE, text=True)
        assert self.process.stdout.readline() == "listening\n"

    def __enter__(self):
        return self

    def __exit__(self, *_):
        os.unlink(self.path)
        out, _ = self.process.communicate(timeout=60)
        assert self.process.returncode == 0 and "fault" not in out, out

    def connect(self, name):
        client = socket.socket(socket.AF_UNIX)
        client.connect(self.path)
        lines = client.makefile()
        ask((client, lines), text({"op": "hello", "tenant": name}))
        return client, lines


def ask(connection, line):
    client, lines = connection
    client.sendall(line.encode())
    reply = json.loads(lines.readline())
    assert "error" not in reply, reply
    return reply


def executed(connection, line):
    """How long a job takes that is executed, in seconds."""
    began = time.perf_counter()
    reply = ask(connection, line)
    took = time.perf_counter() - began
    assert reply["status"] == "complete"
    if reply["job"] % 200 == 0:
        ask(connection, text({"op": "retire"}))
    return took


def collected(connection, n):
    """How long a job takes that is submitted and collected, in seconds."""
    began = time.perf_counter()
    number = ask(connection, job("submit", n))["job"]
    assert ask(connection, text({"job": number, "op": "collect"}))["status"] == "complete"
    return time.perf_counter() - began


def together(connections, n):
    """How long it takes until each of these connections has collected its job, in seconds."""
    threads = [threading.Thread(target=collected, args=(it, n)) for it in connections]
    began = time.perf_counter()
    for thread in threads:
        thread.start()
    for thread in threads:
        thread.join()
    return time.perf_counter() - began


def median(measure, rounds):
    return statistics.median(measure() for _ in range(rounds))


def row(what, beside, time_of, time_beside):
    print(f"| {what} | {beside} | {1000 * time_of:,.3f} | {1000 * time_beside:,.3f} | {time_of / time_beside:.2f} |", flush=True)


def long_program():
    with Server([tenant("acme", 1, 1)], 1) as server:
        acme = server.connect("acme")
        # What a job's text costs goes with the difference.
        long, short = (entries_of(acme, unused) for unused in (UNUSED, ()))
    row("the entries of FIB(8) but those of FIB(1), in a program of 3,026 instructions", "of 11", long, short)


def entries_of(connection, unused):
    eight, one = (median(lambda: executed(connection, job("execute", n, unused)), 14 * ROUNDS) for n in (8, 1))
    return eight - one


def waited_for():
    with Server([tenant("acme", 2, 1)], 1) as server:
        acme = server.connect("acme")
        pairs = [(collected(acme, 20), executed(acme, job("execute", 20))) for _ in range(LONG_ROUNDS)]
        row("FIB(20), submitted and collected, by one worker", "executed", *map(statistics.median, zip(*pairs)))


def four_to_one(connections):
    """How long it takes to collect a job at each of the connections, and at the first alone, in seconds."""
    return (median(lambda: together(some, 20), LONG_ROUNDS) for some in (connections, connections[:1]))


def several_tenants():
    names = ("acme", "beta", "gamma", "delta")
    with Server([tenant(name, 1, 0) for name in names], 4) as server:
        row("FIB(20) of four tenants, four workers", "of one alone", *four_to_one([server.connect(name) for name in names]))


def several_servers():
    """What the machine itself takes for four at once: servers share nothing."""
    with contextlib.ExitStack() as stack:
        servers = [stack.enter_context(Server([tenant("acme", 1, 0)], 1)) for _ in range(4)]
        row("FIB(20) of four servers, each with a tenant and a worker", "of one alone",
            *four_to_one([server.connect("acme") for server in servers]))


def several_workers():
    times = []
    for workers in (4, 1):
        with Server([tenant("acme", workers, 0)], workers) as server:
            acme = server.connect("acme")
            times.append(median(lambda: collected(acme, 20), LONG_ROUNDS))
    row("FIB(20) of one tenant, four workers and slots", "one", *times)


def beside_redis():
    if not shutil.which("redis-server"):
        return print("redis-server is not installed: skipped")
    with tempfile.TemporaryDirectory() as folder, Server([tenant("acme", 1, 1)], 1) as server:
        path = os.path.join(folder, "socket")
        redis = subprocess.Popen(["redis-server", "--port", "0", "--unixsocket", path, "--save", "", "--dir", folder],
                                 stdout=subprocess.DEVNULL)
        while not os.path.exists(path):
            time.sleep(0.01)
        client = socket.socket(socket.AF_UNIX)
        client.connect(path)
        ours, theirs = server.connect("acme"), (client, client.makefile("rwb"))
        times = [(what, beside, times_of(ours, job("execute", n, procs=procs), theirs, told(theirs, "SCRIPT", "LOAD", script), n, value))
                 for what, beside, procs, script, n, value in (("a job of two instructions", "a constant", RET, "return 0", 0, "0"),
                                                               ("FIB(6)", "the same in Lua", FIB, LUA, 6, "8"))]
        redis.terminate()
        redis.wait()
    for what, beside, pairs in times:
        row(f"{what}, executed", f"EVALSHA of {beside}", *map(statistics.median, zip(*pairs)))


def times_of(ours, line, theirs, script, n, value):
    """How long a job and a script take, in turn, once both have run for a while."""
    pairs = [(executed(ours, line), evaluated(theirs, script, n, value)) for _ in range(WARM + 30 * ROUNDS)]
    return pairs[WARM:]



def told(connection, *words):
    """Redis' reply to a command, a line or a number."""
    client, lines = connection
    client.sendall(b"".join([f"*{len(words)}\r\n".encode(), *(f"${len(it)}\r\n{it}\r\n".encode() for it in words)]))
    head = lines.readline().decode().strip()
    assert head[0] in ":$", head
    return head[1:] if head[0] == ":" else lines.readline().decode().strip()


def evaluated(connection, script, n, value):
    began = time.perf_counter()
    assert told(connection, "EVALSHA", script, "0", str(n)) == value
    return time.perf_counter() - began


def main():
    print("| What | Beside | ms | The other's | Ratio |\n|---|---|---|---|---|")
    for measure in (long_program, waited_for, several_tenants, several_servers, several_workers, beside_redis):
        measure()


main()

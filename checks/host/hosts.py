"""Hosts that are run as they were built, and their clients."""
import atexit
import collections
import contextlib
import glob
import json
import os
import pathlib
import re
import select
import signal
import socket
import subprocess
import sys
import tempfile
import threading
from collections.abc import Sequence
from typing import IO

sys.path.append(str(pathlib.Path(__file__).resolve().parents[1] / "server"))  # for all modules of this folder
from servers import PATIENCE, SCRIPT, Bound, by_deadline  # noqa: E402

PROGRAM = os.path.abspath("crates/host_program/out/host_program")
# What runs a host in the folder that follows, with the words after that.
PARENT = [sys.executable, "-m", "arena", "host", "--program", PROGRAM]

# fib(n) by tasks; fib(8) makes 233 entries or so.
FIB = [[["set", 2, 2], ["lt", 3, 0, 2], ["jz", 3, 4], ["ret", 0], ["set", 2, 1], ["sub", 3, 0, 2], ["spawn", 0, 0, 3, 1],
        ["sub", 3, 3, 2], ["spawn", 0, 0, 3, 1], ["wait", 4, 5, 0], ["ret", 4]]]
FULL = {"code": 8, "error": "history_full"}
# How many terms of a tenant are there at most, and how many dumps of it are kept unless `--keep` says so, as docs/HOST.md
# says.
MOST_TERMS = 8
KEEP = 8
# How long a host may take to end, and the look at a dump, in seconds: some hundred thousand entries take a slow machine a
# while.
LONG_PATIENCE = 3 * PATIENCE


def fib(n: int) -> dict:
    """A request that executes the job of the nth Fibonacci number."""
    return {"op": "execute", "job": {"args": [n, 0], "fuel": 1_000_000, "procs": FIB}}


def tenant(name: str, steps: int = 10_000, slots: int = 3, reserved: int = 1) -> dict:
    """A tenant of a configuration, with room for 200 open rows."""
    return {"name": name, "priority": "normal", "reserved": reserved, "rows": 200, "slots": slots, "steps": steps}


def event_of(line: str) -> dict:
    """The event that a line of a host tells."""
    try:
        return json.loads(line)
    except ValueError:
        raise AssertionError(f"the host told no event: {line!r}") from None


class Host:
    """A host in a folder of its own, or in the one that another host left."""

    def __init__(self, tenants: list[dict], *words: object, workers: int = 2, after: "Host | None" = None,
                 stdout: int = subprocess.PIPE, stderr: int = subprocess.PIPE, preload: str = "", below: bool = False) -> None:
        """Starts it with these words after the ones that it must have, and waits until its terms are open. What it prints and
        reports is kept, unless `stdout` or `stderr` is a descriptor of the caller's. `preload` is the path of a library
        that is loaded before the C library. One that is `below` is run by `arena host`, which is the process then."""
        self.keep = int(words[words.index("--keep") + 1]) if "--keep" in words else KEEP
        self.folder = after.folder if after else tempfile.TemporaryDirectory()
        self.run = os.path.join(self.folder.name, "run")
        os.makedirs(self.run, exist_ok=True)
        self.config = os.path.join(self.folder.name, "config.json")
        self.configure(tenants, workers)
        started = [*PARENT, self.run] if below else [PROGRAM, "--run", self.run]
        self.process = subprocess.Popen([*started, "--config", self.config, *map(str, words)], stdout=stdout, stderr=stderr,
                                        text=True, env={**os.environ, "LD_PRELOAD": preload, "PYTHONPATH": os.path.abspath("python")})
        # What it printed, the lines of its events, and the fault that it ended with.
        self.lines, self.events, self.faults = [], [], []
        atexit.register(self.process.kill)  # where a check fails, its host goes too
        if self.process.stdout:
            assert select.select([self.process.stdout], [], [], PATIENCE)[0], "it neither listens nor ends"
            assert self.process.stdout.readline() == "listening\n", self.process.communicate()
        else:
            by_deadline(lambda: os.path.exists(self.path("status.json")))
        streams = [(self.process.stdout, self.lines), (self.process.stderr, self.events)]
        self.readers = [threading.Thread(target=self.read, args=it, daemon=True) for it in streams if it[0]]
        for reader in self.readers:
            reader.start()
        if self.process.stderr:
            by_deadline(lambda: len(self.told("opened")) >= len(tenants))

    def read(self, stream: IO[str], into: list[str]) -> None:
        """Keeps the lines of a stream as they come, until it ends."""
        with stream:
            for line in stream:
                (self.faults if line.startswith("arena-host: ") else into).append(line.rstrip("\n"))

    def path(self, *names: str) -> str:
        """The path of something in the host's folder."""
        return os.path.join(self.run, *names)

    def configure(self, tenants: list[dict], workers: int = 2) -> None:
        """Replaces the configuration, which is read when a term is opened."""
        with open(self.config + ".new", "w") as it:
            json.dump({"tenants": tenants, "workers": workers}, it)
        os.rename(self.config + ".new", self.config)

    def told(self, event: str, **members: object) -> list[dict]:
        """The events of a kind with these members, so far."""
        told = [event_of(line) for line in list(self.events)]
        return [it for it in told if it["event"] == event and all(it.get(k) == v for k, v in members.items())]

    def status(self) -> dict:
        """What status.json says now."""
        with open(self.path("status.json")) as it:
            return json.load(it)

    def connect(self, name: str = "acme", timeout: float = PATIENCE) -> Bound:
        """A connection that is bound to a tenant, and its replies to come. `timeout`, in seconds, is for each thing that it
        waits for. Raises OSError, also where the host ends the connection before it is bound, and ValueError for a reply
        that is cut off."""
        with contextlib.ExitStack() as undo:
            client = undo.enter_context(socket.socket(socket.AF_UNIX))
            client.settimeout(timeout)
            client.connect(self.path("socket"))
            connection = Bound(client, undo.enter_context(client.makefile()))
            bound = ask(connection, {"op": "hello", "tenant": name})
            if bound is None:
                raise ConnectionResetError(name)
            assert bound == {"tenant": name}, bound
            undo.pop_all()
        return connection

    def stop(self) -> int:
        """Removes the socket, and returns the status when the host has ended. Every dump is whole, and what was printed
        is what the events and the dumps say."""
        with contextlib.suppress(FileNotFoundError):
            os.unlink(self.path("socket"))
        return self.ended()

    def ended(self) -> int:
        """Waits until the host has ended, for some minutes at most, looks at what it told and left, and returns the status."""
        status = self.process.wait(timeout=LONG_PATIENCE)
        for reader in self.readers:
            reader.join()
        for line in self.events:
            event_of(line)
        self.look_at_dumps()
        return status

    def kill(self) -> None:
        """Kills it, and waits until it is gone."""
        self.process.send_signal(signal.SIGKILL)
        self.process.wait()
        for reader in self.readers:
            reader.join()

    def closed(self) -> dict[str, dict[int, int]]:
        """The numbers of the terms of each tenant that were closed, with the entries that were told."""
        closed = collections.defaultdict(dict)
        for line in self.lines:
            name, number, entries = re.fullmatch(r"([a-z0-9-]+)\.([0-9]{6}): closed, ([0-9]+) entries", line).groups()
            closed[name][int(number)] = int(entries)
        return closed

    def look_at_dumps(self) -> None:
        """Each tenant has a dump of its newest terms that were closed, or the host said that it could not be written, or that jobs
        are left to the next start. Each dump is whole and as long as was told."""
        for name, entries in self.closed().items():
            newest = sorted(entries)[-self.keep:]
            for number, count in entries.items():
                path = self.path("dumps", f"{name}.{number:06}.jsonl")
                if os.path.exists(path):
                    assert dump_lines(path) == count + 1, (path, count)
                elif any(it["left"] for it in self.told("closed", tenant=name, term=number)):
                    assert glob.glob(self.path("journals", f"{name}.{number:06}.*")), path
                else:
                    assert number not in newest or self.told("fault", what="dump", tenant=name, term=number), path


def dump_lines(path: str) -> int:
    """How many lines a dump has, which `check` says yes to."""
    with open(path) as dump:
        done = subprocess.run([SCRIPT, "check"], stdin=dump, capture_output=True, text=True, timeout=LONG_PATIENCE)
        assert (done.stdout, done.stderr, done.returncode) == ("yes\n", "", 0), (path, done)
        dump.seek(0)
        return sum(1 for _ in dump)


def dumps(host: Host, name: str) -> list[int]:
    """The numbers of the terms of which a tenant's dump is there."""
    paths = glob.glob(host.path("dumps", f"{name}.*.jsonl"))
    return sorted(int(path.split(".")[-2]) for path in paths)


def rotate(host: Host, number: int, name: str = "acme") -> None:
    """Asks for a tenant's term of that number, and waits until it serves."""
    open(host.path(f"rotate.{name}"), "w").close()
    by_deadline(lambda: host.told("opened", tenant=name, term=number))


def results(host: Host, name: str, term: int) -> list[dict]:
    """The outcomes of a tenant's jobs in a term, by its file."""
    with open(host.path("results", f"{name}.{term:06}.jsonl")) as lines:
        return [json.loads(line) for line in lines]


def ask(connection: Bound, request: dict) -> dict | None:
    """The reply to a request; None if the host has ended the connection. Raises OSError, and ValueError for a reply that is
    cut off."""
    client, replies = connection
    client.sendall((json.dumps(request) + "\n").encode())
    line = replies.readline()
    return json.loads(line) if line else None


def execute(connection: Bound, n: int) -> dict | None:
    """The outcome of a job, None if the host has ended the connection. Where the tenant has as many jobs as it may have, they are
    retired first, which works once no row is open. A job that somebody retires before its outcome is collected is asked for again."""
    while (reply := ask(connection, fib(n))) and reply.get("error") in ("job_limit", "unknown_job"):
        if reply["error"] == "job_limit":
            ask(connection, {"op": "retire"})
    return reply


def hang_up(*connections: Bound) -> None:
    """Closes connections whole: a socket stays open as long as its file of replies does."""
    for client, replies in connections:
        replies.close()
        client.close()


def is_at_end(connection: Bound) -> bool:
    """Whether the host has ended a connection, which is hung up then."""
    client, replies = connection
    is_over = replies.read() == ""
    hang_up(connection)
    return is_over


class Load:
    """Clients that come, execute one job each and go, until they are told to stop."""

    def __init__(self, host: Host, threads: int, names: Sequence[str] = ("acme",), n: int = 6, value: int = 8) -> None:
        """Starts so many clients, each of which asks one of the tenants. The nth Fibonacci number is the value."""
        self.host, self.names, self.n, self.value = host, names, n, value
        self.is_over, self.lock = threading.Event(), threading.Lock()
        self.replies = collections.Counter()
        self.threads = [threading.Thread(target=self.come, args=(k,), daemon=True) for k in range(threads)]
        for thread in self.threads:
            thread.start()

    def come(self, number: int) -> None:
        """What a thread does: one client after another."""
        while not self.is_over.is_set():
            got = self.visit(self.names[number % len(self.names)])
            with self.lock:
                self.replies[got] += 1

    def visit(self, name: str) -> str:
        """What a client got: `right`, `full`, or what went wrong."""
        try:
            connection = self.host.connect(name)
            try:
                reply = execute(connection, self.n)
            finally:
                hang_up(connection)
        except (OSError, ValueError) as fault:
            return type(fault).__name__
        except Exception as fault:
            return repr(fault)
        if reply == FULL:
            return "full"
        return "right" if reply and reply.get("value") == self.value else repr(reply)

    def end(self) -> collections.Counter:
        """Lets the clients end, and returns how often each thing came."""
        self.is_over.set()
        for thread in self.threads:
            thread.join()
        return self.replies

"""Servers that are run as they were built, and their clients."""
import atexit
import json
import os
import pathlib
import re
import resource
import select
import socket
import stat
import subprocess
import tempfile
import time
from collections.abc import Callable, Iterator
from concurrent.futures import FIRST_EXCEPTION, ThreadPoolExecutor, wait
from contextlib import contextmanager
from typing import IO, NamedTuple, TypeVar

PROGRAM = os.path.abspath("crates/server_program/out/server_program")
SCRIPT = os.path.abspath("crates/script_program/out/script_program")

# How long a reply, or the end of a server, may take at most, in seconds: what comes later does not come.
PATIENCE = 60
T = TypeVar("T")

# The sixth Fibonacci number, by tasks.
FIB = {"args": [6, 0], "fuel": 1000, "procs": [[
    ["set", 2, 2], ["lt", 3, 0, 2], ["jz", 3, 4], ["ret", 0], ["set", 2, 1], ["sub", 3, 0, 2], ["spawn", 0, 0, 3, 1],
    ["sub", 3, 3, 2], ["spawn", 0, 0, 3, 1], ["wait", 4, 5, 0], ["ret", 4]]]}
SEVEN = {"args": [7, 0], "fuel": 10, "procs": [[["ret", 0]]]}
JUMPS_AWAY = {"args": [0, 0], "fuel": 1000, "procs": [[["jmp", 1]]]}
# Memory for a tenant and the stacks of some threads, but not of 32 nor of 12. A thread's stack has this size in the C
# library, unless the machine's limit for stacks says otherwise.
FEW_STACKS, STACK = 45 << 20, 8 << 20
HELLO = {"op": "hello", "tenant": "acme"}


class End(NamedTuple):
    """How a server ended: the lines that it printed after its first, what it said of a fault, and its status."""

    lines: list[str]
    fault: str
    status: int


class Bound(NamedTuple):
    """A client that is bound to a tenant, with its replies to come."""

    client: socket.socket
    replies: IO[str]


def tenant(name: str, slots: int, reserved: int) -> dict:
    """A tenant of a configuration, with room for 200 open rows and 10,000 entries."""
    return {"name": name, "priority": "normal", "reserved": reserved, "rows": 200, "slots": slots, "steps": 10000}


def limited(memory: int) -> Callable[[], None]:
    """Limits the memory that a process may map, in bytes, its threads' stacks among it, of which each has the same size
    on all machines."""
    def limit() -> None:
        _, most = resource.getrlimit(resource.RLIMIT_STACK)
        resource.setrlimit(resource.RLIMIT_STACK, (STACK if most == resource.RLIM_INFINITY else min(STACK, most), most))
        resource.setrlimit(resource.RLIMIT_AS, (memory, memory))

    return limit


def side_by_side(*calls: Callable[[], object]) -> list:
    """Makes calls at the same time, each on a thread of its own, and returns what each gave, in their order, once all
    have ended. Where a call raises, the first exception is raised here, so nothing that a client meets is lost."""
    with ThreadPoolExecutor(len(calls)) as pool:
        made = [pool.submit(call) for call in calls]
        ended, _ = wait(made, return_when=FIRST_EXCEPTION)
    for it in ended:
        it.result()
    return [it.result() for it in made]


def by_deadline(what: Callable[[], T], seconds: float = PATIENCE) -> T:
    """Waits until something is so of which nothing tells, and returns what it is. What passes soon may not be seen
    so."""
    end = time.monotonic() + seconds
    while not (found := what()):
        assert time.monotonic() < end, f"{what} is not so after {seconds} seconds"
        time.sleep(0.02)
    return found


@contextmanager
def library(source: pathlib.Path) -> Iterator[str]:
    """The path of a library that is made of a C file, to be loaded before the C library."""
    with tempfile.TemporaryDirectory() as folder:
        built = os.path.join(folder, source.stem + ".so")
        subprocess.run(["cc", "-shared", "-fPIC", "-o", built, source], check=True, timeout=PATIENCE)
        yield built


class Server:
    """A server on a socket in a folder of its own, which goes when it ends, or in the folder of another server."""

    def __init__(self, tenants: list[dict], workers: int, connections: int, memory: int = resource.RLIM_INFINITY,
                 beside: "Server | None" = None, **environment: str) -> None:
        """Starts it, and waits until it listens. `memory` is what it may map at most, in bytes; what else is named is
        added to its environment."""
        self.folder = beside.folder if beside else tempfile.TemporaryDirectory()
        self.path = os.path.join(self.folder.name, "socket")
        self.dumps = os.path.join(self.folder.name, "dumps")
        os.makedirs(self.dumps, exist_ok=True)
        config = os.path.join(self.folder.name, "config")
        with open(config, "w") as it:
            json.dump({"tenants": tenants, "workers": workers}, it)
        words = ["--config", config, "--socket", self.path, "--connections", str(connections), "--dump", self.dumps]
        self.process = subprocess.Popen([PROGRAM, *words], stdout=subprocess.PIPE, stderr=subprocess.PIPE, text=True,
                                        preexec_fn=limited(memory), env={**os.environ, **environment})
        atexit.register(self.process.kill)  # where a check fails, its server goes too
        assert select.select([self.process.stdout], [], [], PATIENCE)[0], "it neither listens nor ends"
        assert self.process.stdout.readline() == "listening\n"
        assert stat.S_IMODE(os.stat(self.path).st_mode) == 0o600

    def connect(self) -> socket.socket:
        """A connection. What it waits for raises TimeoutError after a minute."""
        client = socket.socket(socket.AF_UNIX)
        client.settimeout(PATIENCE)
        client.connect(self.path)
        return client

    def ask(self, *requests: dict) -> list[dict]:
        """Sends requests on a connection of their own, and returns the replies."""
        with self.connect() as client:
            lines = "".join(json.dumps(request) + "\n" for request in requests)
            client.sendall(lines.encode())
            client.shutdown(socket.SHUT_WR)
            with client.makefile() as replies:
                return [json.loads(line) for line in replies]

    def stop(self) -> None:
        """Removes the socket's file, by which the server is told to stop."""
        os.unlink(self.path)

    def end(self) -> End:
        """Waits until the server has ended, for a minute at most. It leaves no file of its own, and each dump is whole."""
        out, err = self.process.communicate(timeout=PATIENCE)
        assert not os.path.exists(self.path)
        return self.ended(out, err)

    def ended(self, out: str, err: str) -> End:
        """The end of a server that printed this, with the dumps looked at."""
        for line in out.splitlines():
            name, entries = re.fullmatch("(.*): closed, ([0-9]+) entries", line).groups()
            assert dump_lines(self.dumps, name) == int(entries) + 1
        return End(out.splitlines(), err, self.process.returncode)


def dump_lines(folder: str, name: str) -> int:
    """How many lines the dump of a tenant has, which `check` says yes to."""
    with open(os.path.join(folder, name + ".jsonl")) as dump:
        done = subprocess.run([SCRIPT, "check"], stdin=dump, capture_output=True, text=True, timeout=PATIENCE)
        assert (done.stdout, done.stderr, done.returncode) == ("yes\n", "", 0), done
        dump.seek(0)
        return sum(1 for _ in dump)


def placed_at(folder: str, name: str) -> dict[int, int]:
    """The slot of each job that the dump of a tenant places on one, by its number."""
    with open(os.path.join(folder, name + ".jsonl")) as dump:
        replies = [json.loads(line).get("reply", {}) for line in dump]
    return {reply["job"]: reply["slot"] for reply in replies if "slot" in reply}

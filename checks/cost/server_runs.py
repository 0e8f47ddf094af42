"""Entries and steps of the server: arena-server under callgrind, and a client that executes jobs over its socket."""
import json
import pathlib
import re
import socket
import subprocess
import tempfile
from dataclasses import dataclass

from callgrind import Count, Failed, Run, command, count_in, environment

# Jobs of the sixth Fibonacci number, by tasks, make 87 entries each, 85 of them steps of a slot; those of the first are a
# single leaf.
FIB = json.loads((pathlib.Path(__file__).resolve().parents[2] / "benches" / "private_run" / "leaf.json").read_text())
VALUES = {6: 8, 1: 1}
TENANT = {"name": "acme", "priority": "normal", "reserved": 1, "rows": 200, "slots": 1, "steps": 100_000}
STEPS = 85
JOBS = 100
# How many jobs are made between two retires.
BATCH = 50


# A step of a slot, as a session's thread takes it: a job's first one looks at the topmost row under the lock, makes the
# private run outside of it, and commits that under the lock, where it is recorded. The others, since nobody else is out,
# are advances under the lock.
STEP = ("server_doors::slots::HeldSlotSlotAccess::view*", "job_step::segments::segment_of",
        "server_doors::slots::HeldSlotSlotAccess::commit*", "server_doors::slots::HeldSlotSlotAccess::advance*")


@dataclass(frozen=True)
class Served:
    """What was counted of a server that served some jobs, and the entries of its history at its end."""
    counted: Count
    entries: int


def line(request: dict) -> bytes:
    return json.dumps(request, separators=(",", ":")).encode() + b"\n"


def execute(path: pathlib.Path, jobs: int, which: int) -> None:
    """Executes jobs on a connection, one after another, and looks at their values."""
    with socket.socket(socket.AF_UNIX) as client:
        client.connect(str(path))
        with client.makefile("rb") as replies:
            def ask(request: dict) -> dict:
                client.sendall(line(request))
                return json.loads(replies.readline())

            ask({"op": "hello", "tenant": "acme"})
            for number in range(1, jobs + 1):
                reply = ask({"job": {**FIB, "args": [which, 0]}, "op": "execute"})
                if reply.get("value") != VALUES[which]:
                    raise Failed(f"the server answered {reply}")
                if number % BATCH == 0:
                    ask({"op": "retire"})


def serve(program: pathlib.Path, jobs: int, which: int = 6, within: tuple[str, ...] = ()) -> Served:
    """Serves that many jobs of a Fibonacci number to one client, under callgrind. The tenant has no slot for workers, so
    its jobs are run by the thread of their session."""
    with tempfile.TemporaryDirectory() as folder:
        config, path, out = (pathlib.Path(folder) / name for name in ("config", "socket", "counts"))
        config.write_text(json.dumps({"tenants": [TENANT], "workers": 1}))
        run = Run(program, ("--config", str(config), "--socket", str(path), "--connections", "1"), "", within)
        how = {"stdout": subprocess.PIPE, "stderr": subprocess.PIPE, "text": True, "env": environment()}
        with subprocess.Popen(command(run, out), **how) as server:
            if server.stdout.readline() != "listening\n":
                raise Failed(f"the server did not start: {server.stderr.read()[-2000:]}")
            try:
                execute(path, jobs, which)
                # It ends by itself after its only connection.
                said, complaint = server.communicate(timeout=60)
            except BaseException:
                server.kill()
                raise
        closed = re.search("acme: closed, ([0-9]+) entries", said)
        if server.returncode or closed is None:
            raise Failed(f"the server ended with status {server.returncode}: {said}{complaint}")
        return Served(count_in(out, run, said), int(closed[1]))


def an_entry(program: pathlib.Path) -> float:
    """What an entry takes, by a server of twice the jobs less one of the jobs."""
    more, fewer = serve(program, 2 * JOBS), serve(program, JOBS)
    return (more.counted.instructions - fewer.counted.instructions) / (more.entries - fewer.entries)


def a_step(program: pathlib.Path) -> float:
    """What a step of a slot takes, by view, segment and commit, or by view and advance."""
    return serve(program, JOBS, within=STEP).counted.instructions / (JOBS * STEPS)


def a_leaf(program: pathlib.Path) -> float:
    """What the private run of a leaf of the Fibonacci job takes: three instructions, up to its `ret`."""
    return serve(program, JOBS, 1, ("job_step::segments::segment_of",)).counted.a_call

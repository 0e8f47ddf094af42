"""arena-server and the command, run in a folder of their own."""
import contextlib
import io
import json
import os
import subprocess
import sys
import tempfile
from collections.abc import Sequence
from dataclasses import dataclass



def program(proved: str, unproved: str) -> str:
    """The path of a program: the proved one or, if only that is there, the one that was built without proofs."""
    paths = [os.path.abspath(it) for it in (proved, unproved)]
    return next((it for it in paths if os.path.exists(it)), paths[0])


SERVER = program("crates/server_program/out/server_program", "out/unproved/arena-server")
SCRIPT = program("crates/script_program/out/script_program", "out/unproved/arena-script")
PACKAGE = os.path.abspath("python")

# How long, in seconds, a program may take that is to end by itself.
PATIENCE = 240


def job(*procs: list, args: Sequence[int] = (0, 0), fuel: int = 1000) -> dict:
    """A JOB."""
    return {"args": [*args], "fuel": fuel, "procs": [*procs]}


FIB = job([["set", 2, 2], ["lt", 3, 0, 2], ["jz", 3, 4], ["ret", 0], ["set", 2, 1], ["sub", 3, 0, 2],
           ["spawn", 0, 0, 3, 1],
           ["sub", 3, 3, 2], ["spawn", 0, 0, 3, 1], ["wait", 4, 5, 0], ["ret", 4]], args=(6, 0))
SEVEN = job([["ret", 0]], args=(7, 0), fuel=10)
# Counts down from its first argument, four instructions each time, then returns 0; never comes to a shared instruction.
COUNT = job([["set", 2, 1], ["jz", 0, 5], ["sub", 0, 0, 2], ["lt", 3, 0, 2], ["jmp", 1], ["ret", 0]], fuel=1_000_000)
DIVIDES = job([["set", 2, 1], ["div", 2, 2, 3], ["ret", 2]])
SPIN = job([["jmp", 0]], fuel=1500)
INVALID = job([["jmp", 1]])


def tenant(name: str = "acme", slots: int = 2, reserved: int = 1, **more: object) -> dict:
    """A TENANT with room for 200 open rows and 10,000 entries, unless told otherwise."""
    return {"name": name, "priority": "normal", "reserved": reserved, "rows": 200, "slots": slots, "steps": 10_000,
            **more}


class Server:
    """A server in a folder that goes when the `with` block ends. It ends once all its connections have been used, so
    `end` opens and closes those that are left."""

    def __init__(self, *tenants: dict, workers: int = 2, connections: int = 64) -> None:
        """Starts it, and waits until it listens."""
        self.folder = tempfile.TemporaryDirectory()
        self.path, self.dumps = self.file("socket"), self.file("dumps")
        os.mkdir(self.dumps)
        with open(self.file("config.json"), "w") as it:
            json.dump({"tenants": tenants, "workers": workers}, it)
        words = ["--config", self.file("config.json"), "--socket", self.path, "--connections", str(connections),
                 "--dump", self.dumps]
        self.process = subprocess.Popen([SERVER, *words], stdout=subprocess.PIPE, text=True)
        assert self.process.stdout.readline() == "listening\n"

    def __enter__(self) -> "Server":
        return self

    def __exit__(self, *_: object) -> None:
        self.process.kill()
        self.process.communicate()
        self.folder.cleanup()

    def file(self, name: str) -> str:
        """A path in the folder."""
        return os.path.join(self.folder.name, name)

    def dump(self, name: str = "acme") -> str:
        """Lets the server end, and returns the path of a tenant's dump, to which `check` says yes."""
        import arena
        try:
            while self.process.poll() is None:
                arena.Client(self.path).close()
        except arena.ConnectionLost:
            pass  # no more connections are taken
        self.process.communicate(timeout=PATIENCE)
        assert self.process.returncode == 0, self.process.returncode
        path = os.path.join(self.dumps, name + ".jsonl")
        with open(path) as dump:
            done = subprocess.run([SCRIPT, "check"], stdin=dump, capture_output=True, text=True, timeout=PATIENCE)
        assert done.stdout == "yes\n", done
        return path


@dataclass
class Done:
    """How a call of the command ended."""

    returncode: int
    stdout: str
    stderr: str


def environment_of(more: dict[str, str]) -> dict[str, str]:
    """The environment of a call, which names no server unless `more` does."""
    return {**{name: value for name, value in os.environ.items() if not name.startswith("ARENA_")},
            "PYTHONPATH": PACKAGE, **more}


def arena_process(*words: str, stdin: str = "", **more: str) -> Done:
    """Runs the command as a process of its own."""
    done = subprocess.run([sys.executable, "-m", "arena", *words], input=stdin, capture_output=True, text=True,
                          timeout=PATIENCE,
                          env=environment_of(more))
    return Done(done.returncode, done.stdout, done.stderr)


def arena_command(*words: str, stdin: str = "", **more: str) -> Done:
    """Runs the command within this process, which takes a tenth of the time."""
    from arena.command import main
    before, given = dict(os.environ), sys.stdin
    out, err = io.StringIO(), io.StringIO()
    os.environ.clear()
    os.environ.update(environment_of(more))
    sys.stdin = io.TextIOWrapper(io.BytesIO(stdin.encode()))
    try:
        with contextlib.redirect_stdout(out), contextlib.redirect_stderr(err):
            status = main(words)
    except SystemExit as end:
        status = end.code
    finally:
        sys.stdin = given
        os.environ.clear()
        os.environ.update(before)
    return Done(int(status), out.getvalue(), err.getvalue())

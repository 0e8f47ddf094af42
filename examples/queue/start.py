#!/usr/bin/env python3
"""Starts a durable queue in a folder: its file, a host, a dispatcher, and the service over HTTP with its page. It says where they are
and what to do next. Ctrl-C ends all of them in order, and so does the end of this process; jobs stay in the file.

usage: examples/queue/start.py FOLDER [--host PROGRAM] [--config FILE] [--listen ADDRESS:PORT]     (make queue)

Without a PROGRAM it takes out/arena-host, if that is built, or builds one without proofs, which takes some minutes the first time.
Without aiohttp there is no service, and it says so.
"""
import argparse
import contextlib
import ctypes
import fcntl
import json
import os
import pathlib
import shlex
import signal
import socket
import subprocess
import sys
import time
from collections.abc import Callable, Iterator
from dataclasses import dataclass, field

TOP = pathlib.Path(__file__).resolve().parents[2]
PACKAGE = TOP / "python"
PROVED, UNPROVED = TOP / "out" / "arena-host", TOP / "out" / "unproved" / "arena-host"
sys.path.insert(0, str(PACKAGE))

from arena.queue import QueueError, State, Store  # noqa: E402

PATIENCE = 300.0
"""How many seconds a part may take to begin, on a machine that is busy."""

LOOK = 0.1
ENDINGS = (signal.SIGINT, signal.SIGTERM, signal.SIGHUP)
DEATH_SIGNAL = 1
"""The first argument of prctl(2) that has a process get a signal when its parent ends."""

INTERPRETERS = (sys.executable, "/usr/bin/python3")
"""The one that runs this, and the one for which Debian installs aiohttp."""


class NotBegun(Exception):
    """A part ended, or did not begin in time; the text says which, and what it printed last."""


def ended_with_parent() -> None:
    """Has the process that is being started end in order when this one ends, however that comes."""
    ctypes.CDLL(None).prctl(DEATH_SIGNAL, signal.SIGTERM)


@dataclass
class Part:
    """A process, and the file of what it prints."""

    name: str
    words: list[str]
    folder: pathlib.Path
    running: subprocess.Popen[bytes] | None = None

    @property
    def log(self) -> pathlib.Path:
        """The file."""
        return self.folder / f"{self.name}.log"

    def start(self, is_there: Callable[[str], bool]) -> None:
        """Starts it, and waits until it is there, by what it has printed. Raises NotBegun."""
        with open(self.log, "wb") as log:
            self.running = subprocess.Popen(self.words, stdin=subprocess.DEVNULL, stdout=log, stderr=log, cwd=TOP, process_group=0,
                                            preexec_fn=ended_with_parent, env={**os.environ, "PYTHONPATH": str(PACKAGE),
                                                                               "MALLOC_MMAP_THRESHOLD_": "16384"})
        deadline = time.monotonic() + PATIENCE
        while not is_there(self.log.read_text()):
            if self.has_ended or time.monotonic() > deadline:
                raise NotBegun(self.fault())
            time.sleep(LOOK)

    @property
    def has_ended(self) -> bool:
        """Whether it has ended by itself."""
        return self.running is not None and self.running.poll() is not None

    def fault(self) -> str:
        """What went wrong with it."""
        said = "".join(f"\n    {it}" for it in self.log.read_text().splitlines()[-5:])
        return f"{self.name} {'has ended' if self.has_ended else 'has not begun'}; {self.log} ends with:{said}"

    def stop(self) -> None:
        """Ends it in order, and waits for that."""
        if self.running is not None:
            self.running.send_signal(signal.SIGTERM)
            self.running.wait()


@dataclass
class Queue:
    """The whole, in a folder, by the host that is a program."""

    folder: pathlib.Path
    host: pathlib.Path
    config: pathlib.Path
    listen: str
    parts: list[Part] = field(default_factory=list)

    @property
    def file(self) -> pathlib.Path:
        """The queue's file."""
        return self.folder / "queue.sqlite"

    @property
    def run(self) -> pathlib.Path:
        """The host's folder."""
        return self.folder / "host"

    @contextlib.contextmanager
    def held(self) -> Iterator[None]:
        """Holds the folder, which is its owner's alone if it is made here, so that nobody starts a second one there. Raises NotBegun."""
        self.folder.mkdir(mode=0o700, parents=True, exist_ok=True)
        self.run.mkdir(exist_ok=True)
        with open(self.folder / "lock", "w") as lock:
            try:
                fcntl.flock(lock, fcntl.LOCK_EX | fcntl.LOCK_NB)
            except BlockingIOError:
                raise NotBegun(f"{self.folder}: a queue runs here already") from None
            yield

    def start(self) -> str | None:
        """Starts all parts; where the page is, if it can be served. Raises NotBegun."""
        with Store(str(self.file), make=True) as queue:
            kept, waiting = (sum(map(queue.counts, some)) for some in (State, (State.SCHEDULED, State.READY, State.RUNNING)))
        print(f"queue       {self.file}: {kept} jobs from before, {waiting} of them to be run", flush=True)
        # Nothing but the queue stands before the host, so the host needs no journals (docs/HOST.md).
        self._part("host", sys.executable, "-m", "arena", "host", "--program", self.host, self.run, "--config", self.config,
                   "--durable", "off").start(lambda _: is_served(self.run / "socket"))
        how = ""
        if UNPROVED.parent in self.host.parents:
            how = ", built without proofs: for a first look, as it is a hundred times slower than the proved one (make build)"
        print(f"host        {self.host}{how}", flush=True)
        self._part("dispatcher", sys.executable, "-m", "arena", "queue", "run", self.run, "-q", self.file).start(
            lambda said: "is taken" in said)
        print("dispatcher  runs the queue's jobs on the host", flush=True)
        return self._serve()

    def _serve(self) -> str | None:
        python = next((it for it in INTERPRETERS if has_aiohttp(it)), None)
        if python is None:
            print("page        not served, nor is HTTP: aiohttp is missing (Debian: apt install python3-aiohttp)", flush=True)
            return None
        part = self._part("service", python, "-m", "arena", "queue", "serve", "-q", self.file, "--listen", self.listen)
        part.start(lambda said: "serving at" in said)
        page = part.log.read_text().partition("serving at ")[2].split()[0]
        print(f"page        {page}/", flush=True)
        return page

    def _part(self, name: str, *words: object) -> Part:
        made = Part(name, [str(it) for it in words], self.folder)
        self.parts.append(made)
        return made

    def serve(self, is_over: Callable[[], bool]) -> None:
        """Starts all parts, says what to do next, waits until it is over, and ends them, the last one first; what is under way has 30
        seconds to end. Raises NotBegun, also if a part ends by itself."""
        try:
            print(told(self, self.start()), flush=True)
            while not is_over():
                if fallen := [it for it in self.parts if it.has_ended]:
                    raise NotBegun(fallen[0].fault())
                time.sleep(LOOK)
            print("\nending", flush=True)
        finally:
            for part in reversed(self.parts):
                part.stop()


def has_aiohttp(python: str) -> bool:
    """Whether an interpreter has aiohttp."""
    return os.path.exists(python) and subprocess.run([python, "-c", "import aiohttp"], capture_output=True).returncode == 0


def is_served(path: pathlib.Path) -> bool:
    """Whether a host listens at a socket. It is asked for nothing."""
    with contextlib.suppress(OSError), socket.socket(socket.AF_UNIX) as client:
        client.connect(str(path))
        return True
    return False


def built_host() -> pathlib.Path:
    """The proved host, if it is built; else one that is built without proofs."""
    if PROVED.exists():
        return PROVED
    subprocess.run([str(TOP / "checks" / "build" / "unproved.py"), "arena-host"], check=True)
    return UNPROVED


def told(queue: Queue, page: str | None) -> str:
    """What to do next, in another terminal."""
    tenant = json.loads(queue.config.read_text())["tenants"][0]["name"]
    lines = ["", "In another terminal:", "",
             f"    cd {shlex.quote(str(TOP))}",
             f"    export PYTHONPATH=$PWD/python ARENA_QUEUE={shlex.quote(str(queue.file))} ARENA_TENANT={tenant}",
             "    JOB=$(python3 -m arena queue submit examples/jobs/fib.job --args 10)",
             "    python3 -m arena queue wait $JOB",
             "    python3 -m arena queue list"]
    if page is not None:
        lines += ["    TOKEN=$(python3 -m arena queue token); echo $TOKEN",
                  '    curl -H "Authorization: Bearer $TOKEN" -d \'{"source": "fn main(a, b) { return a * b }", "args": [6, 7]}\' '
                  f"{page}/v1/jobs",
                  f'    curl -H "Authorization: Bearer $TOKEN" "{page}/v1/jobs/NUMBER?wait=10"',
                  "", "A browser that opens the page asks for a name, which may be any, and a password, which is the token."]
    return "\n".join([*lines, "", f"What the parts print is in {queue.folder}/*.log, and docs/QUEUE.md has the rest.",
                      "Ctrl-C ends everything in order; jobs are kept."])


def main() -> int:
    """Starts the queue, and waits for a signal; the status."""
    parser = argparse.ArgumentParser(usage=__doc__)
    parser.add_argument("folder", type=pathlib.Path)
    parser.add_argument("--host", type=pathlib.Path)
    parser.add_argument("--config", type=pathlib.Path, default=TOP / "examples" / "server" / "config.json")
    parser.add_argument("--listen", default="127.0.0.1:9780")
    words = parser.parse_args()
    asked: list[int] = []
    queue = Queue(words.folder.resolve(), words.host.resolve() if words.host else built_host(), words.config.resolve(), words.listen)
    for number in ENDINGS:
        signal.signal(number, lambda number, _: asked.append(number))
    try:
        with queue.held():
            queue.serve(lambda: bool(asked))
    except (NotBegun, QueueError, OSError) as fault:
        print(fault, file=sys.stderr, flush=True)
        return 1
    return 0


if __name__ == "__main__":
    sys.exit(main())

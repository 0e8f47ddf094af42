"""The processes of the check: hosts, dispatchers and submitters in a folder of its own, which are killed and frozen."""
import contextlib
import json
import os
import pathlib
import signal
import sqlite3
import subprocess
import sys
import tempfile
import time
from collections.abc import Callable, Iterator
from contextlib import contextmanager, suppress
from typing import Any

import places
from jobs import ROWS, SLOTS

from arena.queue.base import faults_of, is_url

PATIENCE = 300.0
"""How many seconds something may take that is to come by itself."""

HERE = pathlib.Path(__file__).parent


class Process:
    """A process in a group of its own, started anew as often as one likes; what it prints goes into a file."""

    def __init__(self, name: str, words: list[str], folder: pathlib.Path, **more: str) -> None:
        self.name, self._words, self._folder = name, words, folder
        self._environment = {**os.environ, "PYTHONPATH": f"{places.PACKAGE}{os.pathsep}{HERE}", "MALLOC_MMAP_THRESHOLD_": "16384",
                             "ARENA_PYTHON": places.PACKAGE, **more}
        self._running: subprocess.Popen[bytes] | None = None

    @property
    def pid(self) -> int:
        """Its number."""
        assert self._running is not None
        return self._running.pid

    def start(self) -> None:
        """Starts it."""
        with open(self._folder / f"{self.name}.out", "ab") as out:
            self._running = subprocess.Popen(self._words, stdout=out, stderr=out, env=self._environment, cwd=self._folder,
                                             start_new_session=True)

    def signal(self, number: int) -> None:
        """Sends a signal, if it runs."""
        if self._running is not None and self._running.poll() is None:
            with suppress(ProcessLookupError):
                os.kill(self.pid, number)

    def kill(self) -> None:
        """Ends it at once."""
        self.signal(signal.SIGKILL)
        self.wait()

    def wait(self) -> int:
        """Waits for its end; its status."""
        return 0 if self._running is None else self._running.wait(PATIENCE)

    def printed(self) -> str:
        """What it has printed."""
        return (self._folder / f"{self.name}.out").read_text()


class Place:
    """A folder with a queue, hosts, and processes that work there."""

    def __init__(self, folder: pathlib.Path, queue: str | None = None) -> None:
        self.folder = folder
        self.queue = str(folder / "queue.sqlite") if queue is None else queue
        """Where the queue is: a path or a URL."""
        self.clock = str(folder / "clock")
        """The file that says how far the clock of dispatchers and submitters is off."""
        self._all: list[Process] = []
        self._base: Any = None

    def process(self, name: str, *words: object, **more: str) -> Process:
        """A process that is ended with the place."""
        made = Process(name, [str(it) for it in words], self.folder, **{"ARENA_QUEUE": self.queue, **more})
        self._all.append(made)
        return made

    def host(self, number: int, steps: int = 100_000) -> Process:
        """A host with three tenants, in a folder `host0` or so."""
        run, config = self.folder / f"host{number}", self.folder / "config.json"
        run.mkdir(exist_ok=True)
        tenants = [{"name": name, "priority": "normal", "reserved": 0, "rows": ROWS, "slots": SLOTS, "steps": steps}
                   for name in ("acme", "beta", "gamma")]
        config.write_text(json.dumps({"tenants": tenants, "workers": 2}))
        return self.process(f"host{number}", places.host_program(), "--config", config, "--run", run, "--keep", 1)

    def dispatcher(self, number: int, *hosts: int, lease: float = 2.0) -> Process:
        """A dispatcher of some hosts."""
        runs = [self.folder / f"host{it}" / "socket" for it in hosts]
        return self.process(f"dispatcher{number}", sys.executable, HERE / "stepped.py", self.clock, "queue", "run", *runs, "-q", self.queue,
                            "--lease", lease, "--window", 32)

    def arena(self, *words: object, status: int = 0, text: str = "") -> str:
        """What the command prints that ends with a status."""
        done = subprocess.run([sys.executable, "-m", "arena", *(str(it) for it in words)], input=text, capture_output=True,
                              text=True, timeout=PATIENCE, cwd=self.folder, env={**os.environ, "PYTHONPATH": places.PACKAGE,
                                                                "ARENA_QUEUE": self.queue, "ARENA_TENANT": "acme"})
        assert done.returncode == status, (words, done)
        return done.stdout

    def rows(self, sql: str, *values: object) -> list[tuple[object, ...]]:
        """What a query of the queue's database gives, by a connection of the check's own. A server is waited for."""
        deadline = time.monotonic() + PATIENCE
        while True:
            try:
                return self._rows(sql, values)
            except faults_of(self.queue):
                self._base = None
                if not is_url(self.queue) or time.monotonic() > deadline:
                    raise
                time.sleep(0.05)

    def _rows(self, sql: str, values: tuple[object, ...]) -> list[tuple[object, ...]]:
        if self._base is None:
            self._base = connect(self.queue)
        with contextlib.closing(self._base.cursor()) as at:
            at.execute(sql.replace("?", "%s") if is_url(self.queue) else sql, values)
            return at.fetchall()

    def end(self) -> None:
        """Ends all processes."""
        for it in self._all:
            it.signal(signal.SIGCONT)
            it.kill()
        if self._base is not None:
            self._base.close()


def connect(queue: str) -> Any:
    """A connection to the database of a queue, without the package."""
    if not is_url(queue):
        return sqlite3.connect(queue, timeout=PATIENCE)
    import psycopg2
    base = psycopg2.connect(queue)
    base.autocommit = True
    return base


@contextmanager
def place(queue: str | None = None) -> Iterator[Place]:
    """A place that goes with all its processes; the queue is in its folder, or elsewhere."""
    with tempfile.TemporaryDirectory(prefix="queue-") as folder:
        made = Place(pathlib.Path(folder), queue)
        try:
            yield made
        finally:
            made.end()


def until(is_so: Callable[[], object], what: str, patience: float = PATIENCE, why: Callable[[], str] = str) -> None:
    """Waits until something is so; `why` is what is known if it is not."""
    deadline = time.monotonic() + patience
    while not is_so():
        assert time.monotonic() < deadline, f"not within {patience:g} s: {what}: {why()}"
        time.sleep(0.02)

"""A host for tests, by docs/HOST.md: it holds the lock of its folder, writes its status, and takes the two orders."""
import contextlib
import fcntl
import functools
import json
import os
import re
import tempfile
import threading
import time
from collections.abc import Callable, Iterable, Iterator, Sequence
from typing import TYPE_CHECKING, Self, TextIO
from unittest import mock

from calls import Calls

if TYPE_CHECKING:
    from arena.host import Reading

PAUSE = 0.01
"""How long it waits from one look at its folder to the next, in seconds; a real host takes a second."""

SECOND = 1.0
"""How often it writes its status, as a real host does: one of five seconds ago is stale, and a command may take as long
to begin."""


@functools.cache
def example_text() -> str:
    """The text of the status that docs/HOST.md shows."""
    with open("docs/HOST.md") as it:
        return re.search(r"```json\n(.*?)```", it.read(), re.S)[1]


def example() -> dict:
    """The status that docs/HOST.md shows."""
    return json.loads(example_text())


def term(number: int, tenant: str = "acme", state: str = "serving", why: str | None = None, steps: int = 10_000,
         entries: int = 0, asks: int = 0, jobs: int = 0, began: int | None = None) -> dict:
    """A term of a tenant that is not closed."""
    return {"tenant": tenant, "term": number, "state": state, "began": int(time.time()) if began is None else began,
            "why": why, "base": number * steps, "steps": steps, "entries": entries, "asks": asks, "jobs": jobs,
            "jobs_now": {"running": jobs, "complete": 0, "canceled": 0, "fault": 0}, "rows": {"open": jobs, "waiting": 0}}


def closed(number: int, tenant: str = "acme", why: str = "history", began: int = 0, ended: int = 0, entries: int = 0,
           lost: int = 0, left: int = 0, fault: int | None = None, dumped: bool = True, ms: int = 0) -> dict:
    """A term that was closed."""
    return {"tenant": tenant, "term": number, "began": began, "ended": ended, "why": why, "base": 0, "entries": entries,
            "lost": lost, "left": left, "fault": fault, "dumped": dumped, "ms": ms}


def slept(*then: Callable[[float], object]) -> contextlib.AbstractContextManager:
    """Lets each sleep of `arena top` do the next of these, rather than take time."""
    todo = list(then)
    return mock.patch("arena.command.host.time.sleep", lambda seconds: todo.pop(0)(seconds))


def reading(at: float, *terms: dict, closed: Iterable[dict] = (), began: int = 1) -> "Reading":
    """A reading of a status that was written then."""
    from arena.host import Reading, parse_status
    value = {**example(), "time": int(at), "began": began, "terms": [*terms], "closed": [*closed]}
    return Reading(parse_status(json.dumps(value).encode())[0], value, at)


class Folder:
    """A run folder, without a host, that goes when the `with` block ends."""

    def __init__(self) -> None:
        self._folder = tempfile.TemporaryDirectory()
        self.path = self._folder.name
        os.mkdir(self.file("dumps"))

    def __enter__(self) -> Self:
        return self

    def __exit__(self, *_: object) -> None:
        self._folder.cleanup()

    def file(self, name: str) -> str:
        """A path in the folder."""
        return os.path.join(self.path, name)

    def write(self, status: object, at: float | None = None) -> None:
        """Writes a status, or a text for one, as a host does; `at` is when, in seconds since 1970."""
        with open(self.file("status.json.part"), "wb") as it:
            it.write(status if isinstance(status, bytes) else json.dumps(status).encode() + b"\n")
        if at is not None:
            os.utime(self.file("status.json.part"), (at, at))
        os.rename(self.file("status.json.part"), self.file("status.json"))

    @contextlib.contextmanager
    def fresh(self, status: Callable[[], dict]) -> Iterator[None]:
        """Writes a status again and again, as a host does, as long as the `with` block lasts."""
        end = threading.Event()

        def write() -> None:
            while not end.wait(SECOND):
                self.write(status())

        self.write(status())
        thread = threading.Thread(target=write)
        thread.start()
        try:
            yield
        finally:
            end.set()
            thread.join()

    def status(self, *terms: dict, closed: Iterable[dict] = (), workers: Iterable[dict] = (), began: int = 1,
               served: int = 0, at: float | None = None) -> dict:
        """A status of now, or of a time in seconds since 1970, that has these terms."""
        return {"version": "0.9.0", "time": int(time.time() if at is None else at), "began": began, "connections": 64, "connected": 0,
                "served": served, "cut": {"hello": 0, "idle": 0}, "tenant_connections": 64, "hello_seconds": 60, "idle_seconds": 0,
                "rotate_at": 50, "keep": 8, "finish": 10, "durable": "write", "memory": None, "workers": [*workers],
                "tenants": [{"tenant": it, "connected": 0, "refused": 0} for it in dict.fromkeys(term["tenant"] for term in terms)],
                "terms": [*terms], "closed": [*closed]}

    def dump(self, name: str, verdict: str = "yes") -> None:
        """A file in the folder of dumps, of which the program of `judge` says this."""
        with open(self.file(f"dumps/{name}"), "w") as it:
            it.write(f"{verdict}\n")

    def judge(self) -> str:
        """A program in the place of arena-script, which says of a dump what its first line is."""
        with open(self.file("judge"), "w") as it:
            it.write('#!/bin/sh\n[ "$1" = check ] || exit 3\nread -r line\necho "$line"\n'
                     'case $line in bad*) exit 2;; esac\n')
        os.chmod(self.file("judge"), 0o700)
        return self.file("judge")

    def lock(self) -> TextIO:
        """Takes the lock of the folder, as a host does for as long as it runs; it is given back by close()."""
        lock = open(self.file("lock"), "w")
        fcntl.flock(lock, fcntl.LOCK_EX | fcntl.LOCK_NB)
        return lock


class FakeHost(Folder):
    """A host on a thread. `deaf` takes no orders; `stuck` takes the order to rotate, and opens no term; `again` starts anew
    at once when it was stopped; `slow` is how long it takes to close, in seconds."""

    def __init__(self, number: int = 5, tenants: Iterable[str] = ("acme",), deaf: bool = False, stuck: bool = False,
                 again: bool = False, slow: float = 0.0) -> None:
        super().__init__()
        self.deaf, self.stuck, self.again, self.slow = deaf, stuck, again, slow
        self.began, self.open, self.closed = int(time.time()) - 100, [term(number, it) for it in tenants], []
        self.ended, self._end = threading.Event(), threading.Event()
        self._lock = self.lock()
        self._listen()
        self.tell()
        self._thread = threading.Thread(target=self._run)
        self._thread.start()

    def __exit__(self, *_: object) -> None:
        self._end.set()
        self._thread.join()
        super().__exit__()

    def _listen(self) -> None:
        with open(self.file("socket"), "w"):
            pass

    def tell(self) -> None:
        """Writes the status of now."""
        self.write(self.status(*self.open, closed=self.closed, began=self.began))

    def _run(self) -> None:
        told = time.monotonic()
        while not self._end.wait(PAUSE):
            if time.monotonic() > told + SECOND and os.path.exists(self.file("status.json")):
                told = time.monotonic()
                self.tell()
            if self.deaf:
                continue
            for order in [it for it in os.listdir(self.path) if it.startswith("rotate")]:
                self._rotate(order)
            if not os.path.exists(self.file("socket")):
                self._close_all()
                if not self.again:
                    break
                self.began += 50
                self._listen()
                self.tell()
        self._lock.close()

    def _rotate(self, order: str) -> None:
        os.unlink(self.file(order))
        wanted = order.removeprefix("rotate").removeprefix(".")
        if not self.stuck:
            for old in [it for it in self.open if it["state"] == "serving" and wanted in ("", it["tenant"])]:
                old["state"], old["why"] = "finishing", "file"
                self.open.append(term(old["term"] + 1, old["tenant"]))
        self.tell()

    def _close_all(self) -> None:
        self._end.wait(self.slow)
        self.closed += [closed(it["term"], it["tenant"], why="stop") for it in self.open]
        self.open = []
        self.tell()
        self.ended.set()


def run_checks(what: str, called: Iterable[Callable[[Calls, "Folder"], None]], others: Sequence[Callable[[], None]]) -> bool:
    """Runs checks that call the command beside a folder, and others. Prints how many there were; whether a call ended otherwise
    than is wanted."""
    with Folder() as folder:
        it = Calls(folder.path)
        for check in called:
            check(it, folder)
    for check in others:
        check()
    print(f"{it.count} {what}: {it.differ} ended otherwise than is wanted; {len(others)} more checks")
    return bool(it.differ)

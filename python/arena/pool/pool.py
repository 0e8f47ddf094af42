"""A tenant's jobs at one host, from any number of threads, over few connections.

    with Pool("/run/arena/socket", "acme") as pool:
        print(pool.run(job))

One thread of the pool does all that is done with the host. """
import collections
import logging
import os
import selectors
import threading
import time
from collections.abc import Iterable
from concurrent.futures import Future
from dataclasses import dataclass, field
from typing import Self

from arena import requests
from arena.jobs import NOT_SERIAL
from arena.places import Place, place_of
from arena.pool.desk import Desk
from arena.pool.faults import Final, TryAgain
from arena.pool.host import Host
from arena.pool.task import Ended, Lost, Never, NotRun, Result, Settings, Task
from arena.replies import ArenaError, Fault, FaultCode, Outcome, TimedOut, UnknownTenant
from arena.requests import JobLike, Request, value_of

LOG = logging.getLogger("arena.pool")

BY_LOAD = (FaultCode.TOO_DEEP, FaultCode.TASK_LIMIT)
"""The faults that a serial job may owe to what runs beside it: how deep slots are nested, how many rows are open."""

ALONE_TRIES = 2
"""How often such a job is run again, alone, before its fault is taken for its own."""

SUSPECT = 3
"""After how many lost connections a job is run alone: it may be the cause."""

LONGEST_LOOK = 0.25
"""How many seconds the thread waits at most before it looks after its connections."""

FIRST_DELAY, LONGEST_DELAY = 0.05, 5.0
"""How many seconds a lost job waits before it is run again: twice as long each time."""


def is_serial(procs: Iterable[Iterable[list[object]]]) -> bool:
    """Whether a job of these procedures has one value, whatever runs beside it, if it completes."""
    return not any(instruction[0] in NOT_SERIAL for procedure in procs for instruction in procedure)


@dataclass(eq=False, slots=True)
class Work:
    """A job that somebody waits for, and what has become of it so far. Times are those of the monotonic clock."""

    request: Request[int]
    again: bool
    """Whether it may be run more than once."""
    serial: bool
    future: "Future[Outcome]" = field(default_factory=Future)
    began: float = field(default_factory=time.monotonic)
    not_before: float = 0.0
    losses: int = 0
    alone_tries: int = 0
    started: bool = False

    def task(self) -> "Task[Work]":
        """It as a task for a desk."""
        return Task(self, self.request.line, self.alone_tries > 0 or self.losses >= SUSPECT, self.request.program)

    def may_be_by_load(self, outcome: Outcome) -> bool:
        """Whether an outcome is a fault that the job might not have alone, and it is still to be tried alone."""
        is_by_load = isinstance(outcome, Fault) and outcome.code in BY_LOAD
        return is_by_load and self.serial and self.again and self.alone_tries < ALONE_TRIES


class Pool:
    """A tenant at the host at a path, or another place. `patience` is how many seconds a job is tried again and again that
    finds no host, no room, or a host that dies; None is for ever. A pool is not shared by processes: make it after a fork."""

    def __init__(self, path: str | os.PathLike[str] | Place, tenant: str, *, patience: float | None = 30.0,
                 settings: Settings = Settings()) -> None:
        self.tenant, self.patience, self.settings = tenant, patience, settings
        self._host = Host(place_of(path), settings)
        self._selector = selectors.DefaultSelector()
        self._desk: Desk[Work] = Desk(self._host, tenant, self._selector)
        self._new: collections.deque[Work] = collections.deque()
        self._ready: collections.deque[Work] = collections.deque()
        self._later: list[Work] = []
        self._looked = 0.0
        self._reader, self._writer = os.pipe2(os.O_NONBLOCK | os.O_CLOEXEC)
        self._selector.register(self._reader, selectors.EVENT_READ, self._woken)
        self._is_closed, self._lock = False, threading.Lock()
        self._thread = threading.Thread(target=self._run, name="arena.pool", daemon=True)
        self._thread.start()

    def __enter__(self) -> Self:
        return self

    def __exit__(self, *_: object) -> None:
        self.close()

    def start(self, job: JobLike, *, again: bool | None = None) -> "Future[Outcome]":
        """Begins to run a job; a future of its outcome, or of what `run` raises. `again` says whether it may be run more than
        once; if it is left out, only a serial job may, since that has one value. """
        value = value_of(job)
        serial = is_serial(value["procs"])
        work = Work(requests.submit(job), serial if again is None else again, serial)
        with self._lock:
            if self._is_closed:
                raise TryAgain("the pool is closed").undone()
            self._new.append(work)
            self._wake()
        return work.future

    def run(self, job: JobLike, *, again: bool | None = None, timeout: float | None = None) -> Outcome:
        """Runs a job to its outcome. Raises TryAgain and Final; TimedOut if it has none within `timeout` seconds, and then it
        may go on. """
        future = self.start(job, again=again)
        try:
            return future.result(timeout)
        except TimeoutError as fault:
            if isinstance(fault, ArenaError):
                raise
            if future.cancel():
                raise TimedOut(f"no outcome within {timeout} s; the job was not run").undone() from None
            raise TimedOut(f"no outcome within {timeout} s; the job may go on") from None

    def close(self) -> None:
        """Ends all connections. Whoever waits for a job gets TryAgain; jobs that are under way go on."""
        with self._lock:
            if not self._is_closed:
                self._is_closed = True
                self._wake()
        self._thread.join()

    def _wake(self) -> None:
        """Wakes the thread, which has not ended, since the pool is not closed."""
        try:
            os.write(self._writer, b".")
        except BlockingIOError:
            pass  # it has enough to wake up for

    # The thread.

    def _run(self) -> None:
        try:
            while not self._is_closed:
                for key, mask in self._selector.select(self._timeout(time.monotonic())):
                    key.data(mask)
                self._step(time.monotonic())
        finally:
            with self._lock:
                self._is_closed = True
            self._give_up_all()

    def _woken(self, _: int) -> None:
        os.read(self._reader, 65_536)

    def _timeout(self, clock: float) -> float:
        if self._ready and self._desk.room(clock):
            return 0.0
        times = [it.not_before for it in self._later]
        if (next_at := self._desk.next_at(clock)) is not None:
            times.append(next_at)
        if self._host.is_down:
            times.append(self._host.rests_until)
        return min(LONGEST_LOOK, max(0.0, min(times, default=clock + LONGEST_LOOK) - clock))

    def _step(self, clock: float) -> None:
        while self._new:
            self._ready.append(self._new.popleft())
        for work in [it for it in self._later if it.not_before <= clock]:
            self._later.remove(work)
            self._ready.append(work)
        if self._ready:
            self._host.attend(clock)
        self._desk.attend(clock)
        self._feed(clock)
        results, self._desk.results = self._desk.results, []
        for result in results:
            self._take(result, clock)
        if clock >= self._looked + LONGEST_LOOK:
            self._looked = clock
            self._lose_patience(clock)

    def _feed(self, clock: float) -> None:
        """Gives the desk as many jobs as it has room for."""
        room = self._desk.room(clock)
        tasks: list[Task[Work]] = []
        while self._ready and len(tasks) < room:
            work = self._ready.popleft()
            if work.started or work.future.set_running_or_notify_cancel():
                work.started = True
                tasks.append(work.task())
        if tasks:
            self._desk.feed(tasks, clock)

    def _take(self, result: Result[Work], clock: float) -> None:
        work = result.task.tag
        match result:
            case Ended(_, outcome):
                if work.may_be_by_load(outcome):
                    work.alone_tries += 1
                    self._ready.append(work)
                else:
                    work.future.set_result(outcome)
            case NotRun(_, _, missing):
                if isinstance(missing, UnknownTenant):
                    work.future.set_exception(Final(missing))
                else:
                    self._ready.append(work)
            case Lost(_, why):
                work.losses += 1
                work.not_before = clock + min(LONGEST_DELAY, FIRST_DELAY * 2 ** (work.losses - 1))
                if work.again:
                    self._later.append(work)
                else:
                    work.future.set_exception(TryAgain.of(why, None, clock - work.began))
            case Never(_, fault):
                work.future.set_exception(Final(fault))

    def _lose_patience(self, clock: float) -> None:
        if self.patience is None:
            return
        why = "the host can't be reached" if self._host.is_down else "the host had no room"
        for some in (self._ready, self._later):
            for work in [it for it in some if clock - it.began > self.patience]:
                some.remove(work)
                self._end(work, TryAgain.of(why, None if work.losses else False, self.patience))

    def _end(self, work: Work, fault: ArenaError) -> None:
        if work.started or work.future.set_running_or_notify_cancel():
            work.future.set_exception(fault)

    def _give_up_all(self) -> None:
        for task in self._desk.close():
            task.tag.future.set_exception(TryAgain("the pool was closed; the job may have run; try again"))
        for work in [*self._ready, *self._later, *self._new]:
            self._end(work, TryAgain("the pool was closed before the job was run; try again").undone())
        self._selector.close()
        os.close(self._reader)
        os.close(self._writer)

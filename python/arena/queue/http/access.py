"""The queue for an event loop: one thread with one connection to the database, so that what comes meanwhile is done together."""
import asyncio
import collections
import concurrent.futures
import contextlib
import time
from collections.abc import Callable, Sequence
from typing import TypeVar

from arena.queue.model import Grant, Job, KeyTaken, NewJob, QueueError, Submitted
from arena.queue.base import faults_of
from arena.queue.store import Store, marks, parts
from arena.queue.wake import Waker

Value = TypeVar("Value")

TOKEN_SECONDS = 10.0
"""How long it is kept in mind whose a token is, or that it is nobody's."""

TOKENS = 10_000
LOOK = 1.0
"""How often, in seconds, outcomes are looked for if nobody tells of them."""

TOGETHER = 1000
"""How many requests are submitted in one transaction at most."""

PAUSE = 0.2


class Unavailable(Exception):
    """The queue's database can't be used now; what was asked for was not done, or it is not known."""


class Access:
    """The queue at a path or URL. `begin` is called in the loop, and `end` at its end."""

    def __init__(self, where: str, synchronous: str = "full") -> None:
        self._where, self._synchronous, self._faults = where, synchronous, faults_of(where)
        self._lost: tuple[type[Exception], ...] = (OSError, Unavailable, QueueError, *self._faults)
        self._waker: Waker | None = None
        self._thread = concurrent.futures.ThreadPoolExecutor(1, "queue")
        self._store: Store | None = None
        self._new: collections.deque[tuple[Sequence[NewJob], asyncio.Future[list[Submitted]]]] = collections.deque()
        self._submitting: asyncio.Task[None] | None = None
        self._waiting: dict[int, set[asyncio.Event]] = {}
        self._tokens: dict[str, tuple[float, Grant | None]] = {}
        self._watching: asyncio.Task[None] | None = None

    def begin(self) -> None:
        """Begins to look for outcomes."""
        self._watching = asyncio.create_task(self._watch())

    async def end(self) -> None:
        """Ends it."""
        if self._watching is not None:
            self._watching.cancel()
            with contextlib.suppress(asyncio.CancelledError):
                await self._watching
        self._deafen()
        await asyncio.get_running_loop().run_in_executor(self._thread, self._close)
        self._thread.shutdown()

    def _close(self) -> None:
        if self._store is not None:
            self._store.close()
            self._store = None

    async def ask(self, call: Callable[[Store], Value]) -> Value:
        """What a call of the store gives, on its thread. Raises Unavailable, and what the call raises."""
        def asked() -> Value:
            """What the thread does."""
            try:
                if self._store is None:
                    self._store = Store(self._where, self._synchronous)
                return call(self._store)
            except self._faults as fault:
                with contextlib.suppress(*self._faults):
                    self._close()
                raise Unavailable(str(fault)) from None
        return await asyncio.get_running_loop().run_in_executor(self._thread, asked)

    async def submit(self, jobs: Sequence[NewJob]) -> list[Submitted]:
        """Submits jobs, in one transaction with those of other requests. Raises KeyTaken, Unavailable."""
        future: asyncio.Future[list[Submitted]] = asyncio.get_running_loop().create_future()
        self._new.append((jobs, future))
        if self._submitting is None or self._submitting.done():
            self._submitting = asyncio.create_task(self._submit_all())
        return await future

    async def _submit_all(self) -> None:
        while self._new:
            some = [self._new.popleft() for _ in range(min(TOGETHER, len(self._new)))]
            try:
                made = iter(await self._submitted([job for jobs, _ in some for job in jobs]))
                found: list[list[Submitted] | Exception] = [[next(made) for _ in jobs] for jobs, _ in some]
            except KeyTaken:  # one of them is at fault: each by itself
                found = [await self._alone(jobs) for jobs, _ in some]
            except Exception as fault:
                found = [fault for _ in some]
            for (_, future), it in zip(some, found, strict=True):
                if future.done():
                    continue  # its client has gone
                if isinstance(it, Exception):
                    future.set_exception(it)
                else:
                    future.set_result(it)

    async def _submitted(self, jobs: Sequence[NewJob]) -> list[Submitted]:
        return await self.ask(lambda store: store.submit(jobs))

    async def _alone(self, jobs: Sequence[NewJob]) -> list[Submitted] | Exception:
        try:
            return await self._submitted(jobs)
        except (QueueError, Unavailable) as fault:
            return fault

    async def grant(self, token: str) -> Grant | None:
        """What a token allows; None if it is none."""
        until, grant = self._tokens.get(token, (0.0, None))
        if until < time.monotonic():
            grant = await self.ask(lambda store: store.grant_of(token))
            if len(self._tokens) >= TOKENS:
                self._tokens.clear()
            self._tokens[token] = (time.monotonic() + TOKEN_SECONDS, grant)
        return grant

    async def job(self, number: int, tenant: str, seconds: float) -> Job:
        """A job, once it has ended or so many seconds have passed. Raises UnknownQueueJob."""
        came = asyncio.Event()
        self._waiting.setdefault(number, set()).add(came)  # before it is looked at, so that no end is missed
        try:
            job = await self.ask(lambda store: store.job(number, tenant))
            if job.state.has_ended or seconds <= 0:
                return job
            with contextlib.suppress(TimeoutError):
                async with asyncio.timeout(seconds):
                    await came.wait()
        finally:
            self._waiting[number].discard(came)
            if not self._waiting[number]:
                del self._waiting[number]
        return await self.ask(lambda store: store.job(number, tenant))

    # Outcomes.

    async def _watch(self) -> None:
        """Wakes those whose jobs have ended: one query for all of them, when something was committed."""
        while True:
            try:
                await self._look(await self.ask(self._listen))
            except self._lost:
                await asyncio.sleep(PAUSE)

    def _listen(self, store: Store) -> Waker:
        """A waker, in the place of the last one."""
        self._deafen()
        self._waker = store.base.waker("ended")
        return self._waker

    def _deafen(self) -> None:
        if self._waker is not None:
            self._waker.close()
            self._waker = None

    async def _look(self, waker: Waker) -> None:
        came = asyncio.Event()
        loop, file = asyncio.get_running_loop(), waker.fileno()
        loop.add_reader(file, came.set)
        try:
            while True:
                with contextlib.suppress(TimeoutError):
                    async with asyncio.timeout(LOOK):
                        await came.wait()
                waker.drain()
                came.clear()
                await self._tell()
        finally:
            loop.remove_reader(file)

    async def _tell(self) -> None:
        """Wakes those whose jobs have ended."""
        if numbers := list(self._waiting):
            for number in await self.ask(lambda store: _ended(store, numbers)):
                for event in self._waiting.get(number, ()):
                    event.set()


def _ended(store: Store, numbers: Sequence[int]) -> list[int]:
    """Those of some jobs that have ended, or are not there any more."""
    left = set(numbers)
    for some in parts(numbers):
        left -= {it for it, in store.base.rows(f"SELECT id FROM job WHERE id IN ({marks(some)}) AND ended_at IS NULL", *some)}
    return list(left)

"""A client of arena-server for asyncio.

    async with arena.aio.Client("/tmp/arena.sock", "acme") as client:
        numbers = [await client.submit(job) for job in jobs]

Several tasks may use one client: their requests are answered in the order in which they were made, so one that waits
for a job (`execute`, `collect`) HOLDS those behind it. Have a client for each job that is waited for. """
import asyncio
import collections
import os
from collections.abc import Mapping
from dataclasses import dataclass
from typing import Any, Self, TYPE_CHECKING, TypeVar

from arena import requests
from arena.made import JobsMade
from arena.places import MadeSocket, Place, Placed, place_of
from arena.replies import Cells, ConnectionLost, InUse, Limits, Outcome, Refused, Status, StrangeReply, TimedOut
from arena.requests import JobLike, Request

if TYPE_CHECKING:
    import socket

    from arena.language import Compiled

Value = TypeVar("Value")


CLOSING = 5.0
"""How many seconds `close` waits at most for bytes that are still to be sent, unless the client's `timeout` is less."""


@dataclass(frozen=True)
class Waiting:
    """A request that was sent, and the line of its reply, which is cancelled if its call waits no more."""

    request: Request[Any]
    reply: asyncio.Future[bytes]


class Client(Placed):
    """A connection to the server at a path, or another place (`arena.tls.Tls`), which is bound to a tenant unless that is
    left out. It connects when the `async with` block begins, or by `connect`. It belongs to the event loop in which it connects.

    `timeout`, in seconds, is how long each reply may take, from when its request is made, and how long to connect may
    take. After `TimedOut`, or if a task that waits for a reply is cancelled, the connection goes on, and the late reply
    is thrown away; but the server answers in order, so later calls wait for it as well. `reconnect` gives a connection
    without late replies. `late_jobs` has the numbers of jobs that were made by such calls, once their replies have
    come. """

    def __init__(self, path: str | os.PathLike[str] | Place, tenant: str | None = None, *,
                 timeout: float | None = None) -> None:
        self._place, self.tenant, self.timeout = place_of(path), tenant, timeout
        self.late_jobs: list[int] = []
        self._waiting: collections.deque[Waiting] = collections.deque()
        self._lost = "not connected; use `async with`, or call connect"
        self._jobs = JobsMade()
        self._writer: asyncio.StreamWriter | None = None
        self._task: asyncio.Task[None] | None = None
        self._is_connecting = False

    @classmethod
    def over(cls, made: "socket.socket", tenant: str | None = None, *, timeout: float | None = None) -> Self:
        """A client over a connected socket, which does not speak TLS and is the client's from then on. It can't
        reconnect."""
        return cls(MadeSocket(made), tenant, timeout=timeout)

    async def __aenter__(self) -> Self:
        await self.connect()
        return self

    async def __aexit__(self, *_: object) -> None:
        await self.close()

    async def connect(self) -> None:
        """Connects, and binds the connection to the client's tenant. Raises ConnectionLost, UnknownTenant, ConnectionLimit,
        TimedOut, and InUse if it is connected."""
        if self._writer is not None or self._is_connecting:
            raise InUse(f"{self.path}: the client is connected; to connect it anew, call reconnect")
        self._is_connecting = True
        try:
            async with asyncio.timeout(self.timeout):
                await self._connect()
        except TimeoutError:
            self._abort()
            raise TimedOut(f"{self.path}: not connected within {self.timeout} s").undone() from None
        except BaseException:
            self._abort()
            raise
        finally:
            self._is_connecting = False

    async def _connect(self) -> None:
        try:
            reader, self._writer = await self._place.open()
        except OSError as fault:
            raise ConnectionLost.at(self.path, fault) from None
        self._lost, self._loop = "", asyncio.get_running_loop()
        self._task = asyncio.create_task(self._read(reader))
        if self.tenant is not None:
            await self.hello(self.tenant)

    async def close(self) -> None:
        """Ends the connection, after `timeout` or some seconds at the latest; calls that still wait raise
        ConnectionLost. Jobs go on."""
        if self._writer is None:
            return
        writer = self._writer
        self._fail("the client was closed")
        writer.close()
        try:
            async with asyncio.timeout(CLOSING if self.timeout is None else min(self.timeout, CLOSING)):
                await writer.wait_closed()
        except (OSError, TimeoutError):
            pass  # the other side was first, or does not read what is left
        finally:
            if self._writer is writer:
                self._abort()

    def _abort(self) -> None:
        """Ends the connection at once, as far as there is one."""
        self._fail("the client was closed")
        if self._task is not None:
            self._task.cancel()
        if self._writer is not None:
            self._writer.transport.abort()
        self._writer = self._task = None

    async def reconnect(self) -> None:
        """As arena.Client.reconnect. Calls that still wait raise ConnectionLost."""
        await self.close()
        self._jobs.connection += 1
        await self.connect()

    # Requests.

    async def hello(self, tenant: str) -> str:
        """Binds a connection that was made without a tenant. Raises UnknownTenant, ConnectionLimit, and BadRequest if it is
        bound."""
        named = await self.ask(requests.hello(tenant))
        self.tenant = named
        return named

    async def submit(self, job: JobLike) -> int:
        """Makes a job that waits for a worker; its number. Raises BadProgram, JobLimit, TaskLimit."""
        return await self.ask(requests.submit(job))

    async def execute(self, job: JobLike, *, timeout: float | None = None) -> Outcome:
        """Runs a job to its outcome, and HOLDS the connection until then."""
        return await self.ask(requests.execute(job), timeout)

    async def poll(self, number: int) -> Status:
        """A job's status now. Each poll is an entry of the tenant's history: to wait for a job, collect it."""
        return await self.ask(requests.poll(number))

    async def collect(self, number: int, *, release: bool = False, timeout: float | None = None) -> Outcome:
        """A job's outcome. HOLDS the connection until there is one. With `release` the server forgets the job in the same
        step."""
        return await self.ask(requests.collect(number, release), timeout)

    async def release(self, number: int) -> None:
        """As arena.Client.release."""
        return await self.ask(requests.release(number))

    async def cancel(self, number: int) -> bool:
        """Cancels a job. True if this call did it."""
        return await self.ask(requests.cancel(number))

    async def cells(self, key: int) -> Cells:
        """The cells of a key, 0 to 7, over all slots."""
        return await self.ask(requests.cells(key))

    async def arena(self) -> Limits:
        """The tenant's slots, reserved slots and priority."""
        return await self.ask(requests.limits())

    async def retire(self) -> int:
        """Forgets all jobs and cells of the tenant; the epoch that begins. Raises Busy while any row is open."""
        return await self.ask(requests.retire())

    def compile(self, text: str, *, parameters: Mapping[str, int] | None = None, args: tuple[int, int] = (0, 0),
                fuel: int = 1_000_000, file: str = "<job>") -> "Compiled":
        """As arena.Client.compile; the server is not asked."""
        from arena.language import compile_source
        return compile_source(text, parameters=parameters, args=args, fuel=fuel, file=file)

    # Lines.

    async def ask(self, request: Request[Value], timeout: float | None = None) -> Value:
        """Sends one request and waits for its reply."""
        if self._writer is None or self._lost:
            raise ConnectionLost(f"{request.what}: not sent: {self._lost}").undone()
        if asyncio.get_running_loop() is not self._loop:
            raise InUse(f"{request.what}: the client belongs to another event loop")
        limit, connection = self.timeout if timeout is None else timeout, self._jobs.connection
        waiting = Waiting(request, self._loop.create_future())
        self._waiting.append(waiting)
        self._writer.write(request.line)
        try:
            async with asyncio.timeout(limit):
                await self._writer.drain()
                line = await waiting.reply
        except BaseException as end:
            self._give_up(waiting, connection)
            if isinstance(end, TimeoutError):
                raise TimedOut(f"{request.what}: no reply within {limit} s. What was asked stands, and this connection "
                               "answers what was asked after it only later: wait, or reconnect") from None
            if isinstance(end, OSError):
                raise ConnectionLost(f"{request.what}: not sent, {end.strerror or end}; connect anew") from None
            raise
        return self._value(request, line, connection)

    def _give_up(self, waiting: Waiting, connection: int) -> None:
        """Notes that a call waits no more, though its reply may have come."""
        reply = waiting.reply
        if reply.done() and not reply.cancelled() and reply.exception() is None:
            self._note_late(waiting.request, reply.result(), connection)
        reply.cancel()

    def _value(self, request: Request[Value], line: bytes, connection: int) -> Value:
        """What a reply says. If it is no reply to its request, the connection ends."""
        try:
            return self._jobs.value(request, line, connection)
        except StrangeReply:
            if connection == self._jobs.connection and self._writer is not None:
                self._fail("a reply was none to what was asked")
                self._writer.transport.abort()
            raise

    def _note_late(self, request: Request[Any], line: bytes, connection: int) -> None:
        """Keeps the number of a job that a late reply tells."""
        try:
            value = self._value(request, line, connection)
        except (Refused, StrangeReply):
            return
        if request.made is not None:
            self.late_jobs.append(request.made(value))

    async def _read(self, reader: asyncio.StreamReader) -> None:
        """Gives each reply to the call that has waited longest; that of one which waits no more is late."""
        why, connection = "the server ended the connection", self._jobs.connection
        try:
            while (line := await reader.readline()).endswith(b"\n"):
                first = self._waiting.popleft()
                if first.reply.done():
                    self._note_late(first.request, line, connection)
                else:
                    first.reply.set_result(line)
        except IndexError:
            why = "a reply came that nothing was asked for"
        except ValueError:
            why = "what came is no reply of arena-server: it is too long"
        except OSError as fault:
            why = str(fault)
        self._fail(why)

    def _fail(self, why: str) -> None:
        """Ends all calls that wait, and refuses later ones."""
        self._lost = self._lost or f"{why}; connect anew, and look for the job there"
        for waiting in self._waiting:
            if not waiting.reply.done():
                waiting.reply.set_exception(ConnectionLost(f"{waiting.request.what}: no reply: {self._lost}"))
        self._waiting.clear()

"""Where a server listens, and the streams of bytes that lead there.

A place is a path (`UnixPlace`), a socket that somebody else made (`MadeSocket`), or a server behind TLS (`arena.tls.Tls`).
"""
import math
import os
import select
import socket
import sys
import time
from typing import TYPE_CHECKING, Protocol

from arena.replies import ConnectionLost

if TYPE_CHECKING:
    import asyncio

LONGEST_PATH = 107
"""The most bytes that the path of a Unix socket may have."""

LONGEST_WAIT = 3_600.0
"""How many seconds the system is asked to wait at a time."""

PAUSE = 0.01
"""How many seconds pass before a server is tried again whose queue of connections is full."""

RECEIVED = 65_536
"""How many bytes are taken from a stream at a time, at most."""


def check_path(path: str) -> None:
    """Raises ConnectionLost for a path that is too long for a socket."""
    if len(os.fsencode(path)) > LONGEST_PATH:
        raise ConnectionLost(f"{path}: a socket's path has at most {LONGEST_PATH} bytes, and this one has "
                             f"{len(os.fsencode(path))}: use a shorter one, such as a symbolic link to its folder")


class DeadlineOver(Exception):
    """The time of a call is over. It is no TimeoutError, which the handler of a signal may raise too."""


class Deadline:
    """When a call has to be done: after a limit in seconds, or never."""

    def __init__(self, limit: float | None) -> None:
        self.limit = limit
        self._end = math.inf if limit is None else time.monotonic() + limit

    def left(self) -> float:
        """The seconds that are left. Raises DeadlineOver if there are none."""
        left = self._end - time.monotonic()
        if left <= 0:
            raise DeadlineOver
        return left


class Blocked(Exception):
    """A stream can do nothing now; `events` is what to wait for, as `select.poll` takes it."""

    def __init__(self, events: int) -> None:
        super().__init__(events)
        self.events = events


class Stream:
    """Bytes to and from a server, over a socket that never waits."""

    def __init__(self, made: socket.socket) -> None:
        made.setblocking(False)
        self.socket = made

    def fileno(self) -> int:
        """The descriptor of its socket; below 0 once it is closed."""
        return self.socket.fileno()

    def send(self, data: memoryview) -> int:
        """Sends what there is room for; how many bytes. Raises Blocked, OSError."""
        try:
            return self.socket.send(data)
        except BlockingIOError:
            raise Blocked(select.POLLOUT) from None

    def receive(self) -> bytes:
        """Bytes that have come; none at the end of the stream. Raises Blocked, OSError."""
        try:
            return self.socket.recv(RECEIVED)
        except BlockingIOError:
            raise Blocked(select.POLLIN) from None

    def has_pending(self) -> bool:
        """Whether bytes have come that the system does not tell of any more."""
        return False

    def close(self) -> None:
        """Ends it."""
        self.socket.close()


def wait_for(stream: Stream, events: int, deadline: Deadline) -> None:
    """Waits until a stream's socket is ready. Raises DeadlineOver."""
    poll = select.poll()
    poll.register(stream.fileno(), events)
    while not poll.poll(math.ceil(1000 * min(deadline.left(), LONGEST_WAIT))):
        pass


class Place(Protocol):
    """Where a server listens."""

    @property
    def name(self) -> str:
        """The place in messages."""
        ...

    def connect(self, deadline: Deadline) -> Stream:
        """A connection. Raises OSError, ConnectionLost, DeadlineOver."""
        ...

    async def open(self) -> "tuple[asyncio.StreamReader, asyncio.StreamWriter]":
        """A connection for asyncio. Raises OSError, ConnectionLost."""
        ...


class UnixPlace:
    """The path of a Unix socket."""

    def __init__(self, path: str | os.PathLike[str]) -> None:
        self.name: str = os.fspath(path)

    def connect(self, deadline: Deadline) -> Stream:
        """A connection; while the server's queue of connections is full, it is tried again and again."""
        check_path(self.name)
        stream = Stream(socket.socket(socket.AF_UNIX))
        try:
            while True:
                try:
                    stream.socket.connect(self.name)
                    return stream
                except BlockingIOError:
                    time.sleep(min(PAUSE, deadline.left()))
        except BaseException:
            stream.close()
            raise

    async def open(self) -> "tuple[asyncio.StreamReader, asyncio.StreamWriter]":
        """A connection for asyncio."""
        import asyncio
        check_path(self.name)
        return await asyncio.open_unix_connection(self.name)


class MadeSocket:
    """A connected socket that somebody else made, which is good for one connection alone."""

    def __init__(self, made: socket.socket, name: str = "") -> None:
        self.name = name or "the given socket"
        self._made: socket.socket | None = made

    def _take(self) -> socket.socket:
        made, self._made = self._made, None
        if made is None:
            raise ConnectionLost(f"{self.name}: its connection has ended, and only whoever made it can connect anew")
        return made

    def connect(self, _: Deadline) -> Stream:
        """The connection that was made. Raises ConnectionLost the second time."""
        return stream_over(self._take())

    async def open(self) -> "tuple[asyncio.StreamReader, asyncio.StreamWriter]":
        """The same for asyncio, which takes no socket that speaks TLS already: for one of these give a `Tls`."""
        import asyncio
        made = self._take()
        made.setblocking(False)
        return await asyncio.open_connection(sock=made)


def stream_over(made: socket.socket) -> Stream:
    """The stream over a connected socket, plain or of the module ssl."""
    ssl = sys.modules.get("ssl")
    if ssl is not None and isinstance(made, ssl.SSLSocket):
        from arena.tls import SecureStream
        return SecureStream(made)
    return Stream(made)


def place_of(where: "str | os.PathLike[str] | Place") -> Place:
    """A place, by its path if it is none yet."""
    return UnixPlace(where) if isinstance(where, (str, os.PathLike)) else where


class Placed:
    """What is reached at a place, which may be another one the next time."""

    _place: Place

    @property
    def path(self) -> str:
        """The path of the server's socket, or the name of another place. A new one is for the next `reconnect`."""
        return self._place.name

    @path.setter
    def path(self, path: str | os.PathLike[str] | Place) -> None:
        """Says where the next `reconnect` leads."""
        self._place = place_of(path)

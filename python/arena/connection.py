"""A connection to a server as lines: each request that is sent is owed a reply, and replies come in the order of the
requests.

An exception may come at any point of a call, such as one that a signal's handler raises. What was sent and not answered
is known afterwards, or the connection is closed: so no request ever gets the reply to another one. """
import collections
import math
import select
import socket
import struct
from collections.abc import Sequence
from typing import Any

from arena.places import LONGEST_WAIT, Blocked, Deadline, DeadlineOver, Place
from arena.replies import ConnectionLost, StrangeReply, TimedOut
from arena.requests import Request

LONGEST_REPLY = 65_536
"""After how many bytes without a newline what comes is no reply. A reply has fewer than 128 bytes."""


class Connection:
    """A connection to the server at a place. `owed` are the requests that were sent and whose replies were not read.

    Raises ConnectionLost, and TimedOut if it is not made before the deadline."""

    def __init__(self, place: Place, deadline: Deadline) -> None:
        self.owed: collections.deque[Request[Any]] = collections.deque()
        self._bytes, self._searched, self._unsent = bytearray(), 0, bytearray()
        try:
            self._stream = place.connect(deadline)
        except DeadlineOver:
            raise TimedOut(f"{place.name}: not connected within {deadline.limit} s").undone() from None
        except OSError as fault:
            raise ConnectionLost.at(place.name, fault) from None
        self._poll = select.poll()
        self._poll.register(self._stream.fileno())

    @property
    def is_open(self) -> bool:
        """Whether it was not closed here."""
        return self._stream.fileno() >= 0

    def fileno(self) -> int:
        """What to wait for; below 0 once it is closed."""
        return self._stream.fileno()

    def server_process(self) -> int | None:
        """The number of the process that listens at the path, if it is one that is seen from here."""
        try:
            pid: int = struct.unpack("3i", self._stream.socket.getsockopt(socket.SOL_SOCKET, socket.SO_PEERCRED, 12))[0]
        except OSError:
            return None
        return pid or None

    def close(self) -> None:
        """Ends it."""
        self._stream.close()

    def send(self, requests: Sequence[Request[Any]], what: str, deadline: Deadline) -> None:
        """Sends the lines of some requests, which are owed their replies from then on. If only a part of them was sent,
        or that is not known, the connection is closed. Raises ConnectionLost, TimedOut."""
        if not self.is_open:
            raise ConnectionLost(f"{what}: not sent, the connection has ended; connect anew").undone()
        lines = b"".join(request.line for request in requests)
        sent = 0
        try:
            while sent < len(lines):
                sent += self._send_some(memoryview(lines)[sent:], deadline)
            self.owed.extend(requests)
        except DeadlineOver:
            how = "not sent"
            if sent:
                self.close()
                how = "sent in part alone, so the connection was closed; connect anew"
            fault = TimedOut(f"{what}: within {deadline.limit} s it was {how}")
            raise (fault if sent else fault.undone()) from None
        except OSError as fault:
            self.close()
            raise ConnectionLost(f"{what}: not sent, {fault.strerror or fault}; connect anew") from None
        except BaseException:
            self.close()
            raise

    def _send_some(self, left: memoryview, deadline: Deadline) -> int:
        try:
            return self._stream.send(left)
        except Blocked as found:
            self._wait(found.events, deadline)
            return 0

    def next_reply(self, what: str, deadline: Deadline) -> tuple[Request[Any], bytes]:
        """The request that is owed the next reply, and the line of that without its newline. Raises ConnectionLost,
        StrangeReply, and DeadlineOver, after which the reply is still owed."""
        while (end := self._bytes.find(b"\n", self._searched)) < 0:
            self._searched = len(self._bytes)
            if self._searched > LONGEST_REPLY:
                self.close()
                raise StrangeReply(f"{what}: {self._searched} bytes without a newline are no reply of arena-server")
            self._receive(what, deadline)
        try:
            line = bytes(self._bytes[:end])
            del self._bytes[:end + 1]
            self._searched = 0
            return self.owed.popleft(), line
        except BaseException:
            self.close()
            raise

    def _receive(self, what: str, deadline: Deadline) -> None:
        """Waits for more bytes and takes them. Only the wait may be interrupted without an end of the connection."""
        if not self.is_open:
            raise ConnectionLost(f"{what}: no reply, the connection has ended; connect anew, and look for the job there")
        if not self._stream.has_pending():
            self._wait(select.POLLIN, deadline)
        try:
            more = self._stream.receive()
            self._bytes += more
        except Blocked as found:
            if found.events != select.POLLIN:
                self._wait(found.events, deadline)
            return
        except OSError as fault:
            self.close()
            raise ConnectionLost(f"{what}: no reply, {fault.strerror or fault}; connect anew") from None
        except BaseException:
            self.close()
            raise
        if not more:
            self.close()
            raise ConnectionLost(f"{what}: the server ended the connection before its reply; connect anew, and look "
                                 "for the job there")

    # Without waiting.

    def put(self, requests: Sequence[Request[Any]]) -> None:
        """Takes requests that are sent by `flush`; they are owed their replies from now on. Raises ConnectionLost."""
        if not self.is_open:
            raise ConnectionLost("not sent, the connection has ended; connect anew").undone()
        self._unsent += b"".join(request.line for request in requests)
        self.owed.extend(requests)

    @property
    def has_unsent(self) -> bool:
        """Whether there is something that the socket had no room for."""
        return bool(self._unsent)

    def flush(self) -> None:
        """Sends what there is room for. Raises ConnectionLost, and then the connection is closed."""
        try:
            while self._unsent:
                with memoryview(self._unsent) as data:
                    sent = self._stream.send(data)
                del self._unsent[:sent]
        except Blocked:
            return
        except OSError as fault:
            self.close()
            raise ConnectionLost(f"not sent, {fault.strerror or fault}; connect anew") from None
        except BaseException:
            self.close()
            raise

    def come(self) -> list[tuple[Request[Any], bytes]]:
        """The replies that have come, each line with its request. Raises ConnectionLost, StrangeReply, and then the
        connection is closed; what came before the end is given first."""
        try:
            ended = self._take_all()
            found = self._split()
        except BaseException:
            self.close()
            raise
        if ended and not found:
            self.close()
            raise ConnectionLost(f"{ended}; connect anew")
        return found

    def _take_all(self) -> str:
        """Takes what has come; why no more will come, or nothing."""
        try:
            while more := self._stream.receive():
                self._bytes += more
            return "the server ended the connection"
        except Blocked:
            return ""
        except OSError as fault:
            return fault.strerror or str(fault)

    def _split(self) -> list[tuple[Request[Any], bytes]]:
        """The whole lines that have come, each with its request. Raises StrangeReply."""
        end = self._bytes.rfind(b"\n") + 1
        lines = bytes(self._bytes[:end]).split(b"\n")[:-1]
        if len(lines) > len(self.owed):
            raise StrangeReply("a reply came that nothing was asked for")
        if len(self._bytes) - end > LONGEST_REPLY:
            raise StrangeReply(f"{len(self._bytes) - end} bytes without a newline are no reply of arena-server")
        del self._bytes[:end]
        return [(self.owed.popleft(), line) for line in lines]

    def _wait(self, events: int, deadline: Deadline) -> None:
        """Waits until the socket is ready, or for some time."""
        self._poll.modify(self._stream.fileno(), events)
        self._poll.poll(math.ceil(1000 * min(deadline.left(), LONGEST_WAIT)))

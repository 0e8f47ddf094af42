"""Servers behind TLS, such as a front that checks certificates (docs/SCALING.md).

    place = Tls("front.example", 9700, Tls.make_context("ca.crt", "acme.crt", "acme.key"))
    with arena.Client(place, "acme") as client: ...
"""
import asyncio
import select
import socket
import ssl
from dataclasses import dataclass, field

from arena.places import RECEIVED, Blocked, Deadline, DeadlineOver, Stream, wait_for


class SecureStream(Stream):
    """A stream over TLS."""

    socket: ssl.SSLSocket

    def send(self, data: memoryview) -> int:
        """As Stream.send; it may have to wait for bytes from the other side."""
        try:
            return self.socket.send(data)
        except ssl.SSLError as fault:
            raise blocked(fault) from None

    def receive(self) -> bytes:
        """As Stream.receive; it may have to wait for room to send."""
        try:
            return self.socket.recv(RECEIVED)
        except ssl.SSLError as fault:
            raise blocked(fault) from None

    def has_pending(self) -> bool:
        """Whether a part of a record is left."""
        return self.socket.pending() > 0


def blocked(fault: ssl.SSLError) -> Exception:
    """What a fault of TLS means: something to wait for, or the fault itself."""
    if isinstance(fault, ssl.SSLWantReadError):
        return Blocked(select.POLLIN)
    if isinstance(fault, ssl.SSLWantWriteError):
        return Blocked(select.POLLOUT)
    return fault


@dataclass(frozen=True)
class Tls:
    """A server at a host's name and port that speaks TLS. `server_name` is the name in its certificate, if that is not the
    host's."""

    host: str
    port: int
    context: ssl.SSLContext = field(default_factory=ssl.create_default_context)
    server_name: str = ""

    @staticmethod
    def make_context(authority: str | None = None, certificate: str | None = None,
                     key: str | None = None) -> ssl.SSLContext:
        """A context of files in PEM: the authority that the server's certificate is from, if it is none of the system's, and
        the client's own certificate and key, if the server wants one. Raises OSError."""
        context = ssl.create_default_context(cafile=authority)
        if certificate is not None:
            context.load_cert_chain(certificate, key)
        return context

    @property
    def name(self) -> str:
        """Host and port."""
        return f"{self.host}:{self.port}"

    def connect(self, deadline: Deadline) -> Stream:
        """A connection whose certificates were checked. Raises OSError, DeadlineOver."""
        limit = None if deadline.limit is None else deadline.left()
        try:
            made = socket.create_connection((self.host, self.port), timeout=limit)
        except TimeoutError:
            raise DeadlineOver from None
        try:
            made.setsockopt(socket.IPPROTO_TCP, socket.TCP_NODELAY, 1)
            made.setblocking(False)
            stream = SecureStream(self.context.wrap_socket(made, server_hostname=self.server_name or self.host,
                                                           do_handshake_on_connect=False))
        except BaseException:
            made.close()
            raise
        return shaken(stream, deadline)

    async def open(self) -> tuple[asyncio.StreamReader, asyncio.StreamWriter]:
        """The same for asyncio."""
        return await asyncio.open_connection(self.host, self.port, ssl=self.context,
                                             server_hostname=self.server_name or self.host)


def shaken(stream: SecureStream, deadline: Deadline) -> SecureStream:
    """The stream, after its handshake. Raises OSError, DeadlineOver."""
    try:
        while True:
            try:
                stream.socket.do_handshake()
                return stream
            except (ssl.SSLWantReadError, ssl.SSLWantWriteError) as fault:
                found = blocked(fault)
                assert isinstance(found, Blocked)
                wait_for(stream, found.events, deadline)
    except BaseException:
        stream.close()
        raise

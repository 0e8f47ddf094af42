"""The HTTP server of `arena metrics`: /metrics for Prometheus, /healthz for who watches, and a page."""
import io
import socket
import socketserver
import sys
import threading
import time
from collections.abc import Callable
from dataclasses import dataclass
from http import HTTPStatus
from http.server import BaseHTTPRequestHandler, ThreadingHTTPServer
from typing import Any

from arena.host import page, prometheus
from arena.host.address import Address
from arena.host.folder import RunFolder
from arena.host.report import sections_of
from arena.host.reading import StatusFault, read_status
from arena.host.status import Reading

SECONDS_OF_A_REQUEST = 10.0
"""How long a client may take to send its whole request, in seconds, and then to take the answer."""

MOST_REQUESTS = 32
"""How many connections are answered at a time, each on a thread. A further one is closed."""

HTML, PLAIN = "text/html; charset=utf-8", "text/plain; charset=utf-8"


@dataclass(frozen=True, slots=True)
class Answer:
    """What is sent for a path."""

    status: HTTPStatus
    kind: str
    text: str


class Watcher:
    """What is answered for each path. The status is read anew for each request; `clock` gives seconds since 1970."""

    def __init__(self, folder: RunFolder, clock: Callable[[], float] = time.time) -> None:
        self.folder, self.clock = folder, clock
        self.paths: dict[str, Callable[[], Answer]] = {
            "/": self.page, "/status": self.status, "/metrics": self.metrics, "/healthz": self.healthz}

    def answer(self, path: str) -> Answer:
        """The answer for a path, whatever follows a `?` in it."""
        found = self.paths.get(path.partition("?")[0])
        if found is None:
            return Answer(HTTPStatus.NOT_FOUND, PLAIN, f"nothing here; there are {', '.join(self.paths)}\n")
        return found()

    def reading(self) -> Reading | str:
        """A status of now, or why there is none."""
        try:
            reading = read_status(self.folder)
        except StatusFault as fault:
            return str(fault)
        except OSError as fault:
            return f"{self.folder.status}: {fault.strerror or fault}"
        stale = reading.stale(self.clock())
        return reading if stale is None else f"{self.folder.status}: {stale}"

    def metrics(self) -> Answer:
        """The metrics. Without a status of now there is only `arena_up 0`, so that no old count is taken for a new
        one."""
        reading = self.reading()
        status = None if isinstance(reading, str) else reading.status
        return Answer(HTTPStatus.OK, prometheus.CONTENT_TYPE, prometheus.exposition(prometheus.families_of(status)))

    def healthz(self) -> Answer:
        """Whether there is a status of now."""
        reading = self.reading()
        if isinstance(reading, str):
            return Answer(HTTPStatus.SERVICE_UNAVAILABLE, PLAIN, f"{reading}\n")
        return Answer(HTTPStatus.OK, PLAIN, "ok\n")

    def status(self) -> Answer:
        """What stands in the page."""
        reading = self.reading()
        text = page.said(reading) if isinstance(reading, str) else page.shown(sections_of(reading.status))
        return Answer(HTTPStatus.OK, HTML, text)

    def page(self) -> Answer:
        """The page."""
        return Answer(HTTPStatus.OK, HTML, page.page(self.status().text))


class Timely(io.RawIOBase):
    """What a connection sends, until some seconds are over; then a read raises TimeoutError."""

    def __init__(self, connection: socket.socket, seconds: float) -> None:
        self._connection, self._end = connection, time.monotonic() + seconds

    def readable(self) -> bool:
        """It can be read."""
        return True

    def readinto(self, buffer: Any) -> int:
        """Reads what has come."""
        left = self._end - time.monotonic()
        if left <= 0:
            raise TimeoutError("the request was not sent in time")
        self._connection.settimeout(left)
        return self._connection.recv_into(buffer)


class Handler(BaseHTTPRequestHandler):
    """Answers one connection, on a thread of its own."""

    server: "MetricsServer"
    server_version, sys_version = "arena-metrics", ""

    def setup(self) -> None:
        """Limits the time of the whole request."""
        super().setup()
        self.rfile.close()
        self.rfile = io.BufferedReader(Timely(self.connection, self.server.seconds))

    def do_GET(self) -> None:
        """Sends the answer."""
        self._send(with_text=True)

    def do_HEAD(self) -> None:
        """Sends its head alone."""
        self._send(with_text=False)

    def _send(self, with_text: bool) -> None:
        answer = self.server.watcher.answer(self.path)
        text = answer.text.encode()
        self.connection.settimeout(self.server.seconds)
        self.send_response(answer.status)
        for name, value in (("Content-Type", answer.kind), ("Content-Length", str(len(text))),
                            ("Cache-Control", "no-store"), ("X-Content-Type-Options", "nosniff"),
                            ("Content-Security-Policy", page.POLICY)):
            self.send_header(name, value)
        self.end_headers()
        if with_text:
            self.wfile.write(text)

    def log_message(self, format: str, *args: object) -> None:
        """Says nothing: requests come every few seconds, and none of them changes anything."""


class MetricsServer(ThreadingHTTPServer):
    """The server. Raises OSError if the address can't be listened on. `most` connections are answered at a time, and a
    request takes `seconds` at most."""

    daemon_threads = True

    def __init__(self, address: Address, watcher: Watcher, most: int = MOST_REQUESTS,
                 seconds: float = SECONDS_OF_A_REQUEST) -> None:
        self.watcher, self.seconds, self._free = watcher, seconds, threading.BoundedSemaphore(most)
        self.address_family = socket.AF_INET6 if ":" in address.host else socket.AF_INET
        super().__init__((address.host, address.port), Handler)

    def server_bind(self) -> None:
        """Binds, without the search for a name of the address, which may take seconds."""
        socketserver.TCPServer.server_bind(self)
        name, port = self.server_address[:2]
        self.server_name, self.server_port = str(name), int(port)

    def process_request(self, request: Any, client_address: Any) -> None:
        """Answers a connection on a thread, or closes it if there are too many."""
        if not self._free.acquire(blocking=False):
            self.shutdown_request(request)
            return
        try:
            super().process_request(request, client_address)
        except Exception:  # no thread could be started; an interrupt may come when one was, which gives the place back itself
            self._free.release()
            raise

    def process_request_thread(self, request: Any, client_address: Any) -> None:
        """Answers a connection."""
        try:
            super().process_request_thread(request, client_address)
        finally:
            self._free.release()

    def handle_error(self, request: Any, client_address: Any) -> None:
        """Says what went wrong, but nothing of a client that went away."""
        if not isinstance(sys.exc_info()[1], OSError):
            super().handle_error(request, client_address)

    @property
    def url(self) -> str:
        """Where the page is."""
        return f"http://{Address(self.server_name, self.server_port)}/"

"""A server in a thread of this process, which does with each connection what a check says."""
import contextlib
import os
import socket
import tempfile
import threading
from collections.abc import Callable, Iterator


class Session:
    """A connection of the server: its requests as lines, and what is sent back."""

    def __init__(self, taken: socket.socket) -> None:
        self.socket, self._lines = taken, taken.makefile("rb")

    def next(self) -> bytes:
        """The next request, or nothing if the client has gone."""
        return self._lines.readline()

    def answer(self, *lines: str) -> None:
        """Sends lines."""
        self.socket.sendall("".join(f"{it}\n" for it in lines).encode())

    def hello(self) -> None:
        """Answers the `hello` of the tenant `acme`."""
        self.next()
        self.answer('{"tenant":"acme"}')


@contextlib.contextmanager
def answering(*sessions: Callable[[Session], object], backlog: int = 8) -> Iterator[str]:
    """The path of a server that does with its connections what is given, in this order, and leaves them then."""
    with tempfile.TemporaryDirectory() as folder, socket.socket(socket.AF_UNIX) as listener:
        path = os.path.join(folder, "socket")
        listener.bind(path)
        listener.listen(backlog)

        def serve() -> None:
            """What the thread does."""
            for it in sessions:
                with contextlib.suppress(OSError), listener.accept()[0] as taken:
                    it(Session(taken))

        thread = threading.Thread(target=serve, daemon=True)
        thread.start()
        yield path
        with contextlib.suppress(OSError):
            listener.shutdown(socket.SHUT_RDWR)
        thread.join(5)

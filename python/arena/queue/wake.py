"""How a process learns at once that another one has committed something. These are hints: what is missed is found by
looking now and then."""
import abc
import contextlib
import os
import select
import socket
from typing import Self


class Waker(abc.ABC):
    """Becomes readable when there may be something new of a topic."""

    @abc.abstractmethod
    def fileno(self) -> int:
        """What to wait for."""

    @abc.abstractmethod
    def drain(self) -> None:
        """Takes what has come. Raises what its database raises if nothing more will come."""

    def wait(self, seconds: float) -> None:
        """Waits until there may be something new, so many seconds at most."""
        if select.select([self], [], [], max(0.0, seconds))[0]:
            self.drain()

    @abc.abstractmethod
    def close(self) -> None:
        """Ends it."""

    def __enter__(self) -> Self:
        return self

    def __exit__(self, *_: object) -> None:
        self.close()


class SocketWaker(Waker):
    """A datagram socket in a folder beside the queue's file."""

    def __init__(self, folder: str, topic: str) -> None:
        os.makedirs(folder, exist_ok=True)
        self.path = os.path.join(folder, f"{topic}.{os.urandom(8).hex()}")
        self._socket = socket.socket(socket.AF_UNIX, socket.SOCK_DGRAM)
        self._socket.setblocking(False)
        # The folder's descriptor keeps the address short, however long the queue's path is.
        at = os.open(folder, os.O_PATH | os.O_DIRECTORY | os.O_CLOEXEC)
        try:
            self._socket.bind(f"/proc/self/fd/{at}/{os.path.basename(self.path)}")
        finally:
            os.close(at)

    def fileno(self) -> int:
        """See `Waker`."""
        return self._socket.fileno()

    def drain(self) -> None:
        """See `Waker`."""
        with contextlib.suppress(BlockingIOError):
            while True:
                self._socket.recv(16)

    def close(self) -> None:
        """See `Waker`."""
        self._socket.close()
        with contextlib.suppress(FileNotFoundError):
            os.unlink(self.path)


class Sender:
    """Wakes those who wait in a folder."""

    def __init__(self, folder: str) -> None:
        self.folder = folder
        self._socket = socket.socket(socket.AF_UNIX, socket.SOCK_DGRAM)
        self._socket.setblocking(False)

    def wake(self, topic: str) -> None:
        """Wakes each process that waits for a topic, and removes the sockets of those that are gone."""
        try:
            at = os.open(self.folder, os.O_RDONLY | os.O_DIRECTORY | os.O_CLOEXEC)
        except FileNotFoundError:
            return  # nobody has waited yet
        try:
            for name in os.listdir(at):
                if name.startswith(f"{topic}."):
                    self._send(at, name)
        finally:
            os.close(at)

    def _send(self, at: int, name: str) -> None:
        try:
            self._socket.sendto(b".", f"/proc/self/fd/{at}/{name}")
        except ConnectionRefusedError:
            with contextlib.suppress(FileNotFoundError):
                os.unlink(name, dir_fd=at)
        except OSError:
            pass  # it has enough to wake up for, or went just now

    def close(self) -> None:
        """Ends it."""
        self._socket.close()

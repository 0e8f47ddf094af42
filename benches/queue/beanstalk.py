"""A client of beanstalkd, by its protocol, and a worker: fib(6) for each job, whose outcome goes into a second tube.

usage: beanstalk.py PORT, a worker
"""
import socket
import sys
import time


class Beanstalk:
    """A connection."""

    def __init__(self, port: int) -> None:
        self._socket = socket.create_connection(("127.0.0.1", port))
        self._socket.setsockopt(socket.IPPROTO_TCP, socket.TCP_NODELAY, 1)
        self._lines = self._socket.makefile("rb")

    def ask(self, request: str, body: str | None = None) -> list[bytes]:
        """The words of a reply."""
        tail = "" if body is None else f" {len(body)}\r\n{body}"
        self._socket.sendall(f"{request}{tail}\r\n".encode())
        return self._lines.readline().split()

    def reserved(self, request: str = "reserve") -> tuple[int, bytes] | None:
        """The number and the body of the next job; None if it does not come in time."""
        words = self.ask(request)
        if words[0] != b"RESERVED":
            return None
        return int(words[1]), self._lines.read(int(words[2]) + 2)[:-2]


def fib(n: int) -> int:
    """The nth Fibonacci number."""
    return n if n < 2 else fib(n - 1) + fib(n - 2)


def work(port: int) -> None:
    """Runs jobs until it is killed."""
    it = Beanstalk(port)
    it.ask("watch jobs"), it.ask("ignore default"), it.ask("use outcomes")
    while (found := it.reserved()) is not None:
        number, body = found
        name, argument = body.decode().split()
        it.ask("put 0 0 60", f"{name} {fib(int(argument))}")
        it.ask(f"delete {number}")


def by_beanstalk(port: int, most: int, seconds: float) -> list[float]:
    """How long each job took, in seconds."""
    puts, takes = Beanstalk(port), Beanstalk(port)
    puts.ask("use jobs"), takes.ask("watch outcomes"), takes.ask("ignore default")
    took: list[float] = []
    out: dict[str, float] = {}
    made, end = 0, time.perf_counter() + seconds
    while out or time.perf_counter() < end:
        while len(out) < most and time.perf_counter() < end:
            made += 1
            out[str(made)] = time.perf_counter()
            puts.ask("put 0 0 60", f"{made} 6")
        if (found := takes.reserved("reserve-with-timeout 5")) is None:
            continue
        name, value = found[1].decode().split()
        assert value == "8"
        takes.ask(f"delete {found[0]}")
        if name in out:
            took.append(time.perf_counter() - out.pop(name))
    return took


if __name__ == "__main__":
    work(int(sys.argv[1]))

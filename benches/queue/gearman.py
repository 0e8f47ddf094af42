"""A client of gearmand, by its protocol, and a worker: fib(6) for each job, whose outcome goes into a second queue.

usage: gearman.py PORT, a worker
"""
import enum
import socket
import struct
import sys
import time

HEAD = struct.Struct(">4sII")
"""What a packet begins with: whether it asks or answers, its kind, and how many bytes follow."""


class Kind(enum.IntEnum):
    """The packets that are sent and expected here."""

    CAN_DO = 1
    PRE_SLEEP = 4
    NOOP = 6
    JOB_CREATED = 8
    GRAB_JOB = 9
    NO_JOB = 10
    JOB_ASSIGN = 11
    WORK_COMPLETE = 13
    SUBMIT_JOB_BG = 18


class Gearman:
    """A connection, which takes jobs of a queue if it is given one."""

    def __init__(self, port: int, queue: str = "") -> None:
        self._socket = socket.create_connection(("127.0.0.1", port))
        self._socket.setsockopt(socket.IPPROTO_TCP, socket.TCP_NODELAY, 1)
        self._bytes = self._socket.makefile("rb")
        if queue:
            self._send(Kind.CAN_DO, queue)

    def _send(self, kind: Kind, *parts: str) -> None:
        body = "\0".join(parts).encode()
        self._socket.sendall(HEAD.pack(b"\0REQ", kind, len(body)) + body)

    def _taken(self, *kinds: Kind) -> tuple[Kind, list[str]]:
        """The next packet of some kinds, and its parts. Others, which wake whoever sleeps, are passed over."""
        while True:
            _, kind, size = HEAD.unpack(self._bytes.read(HEAD.size))
            body = self._bytes.read(size).decode()
            if kind in kinds:
                return Kind(kind), body.split("\0")

    def put(self, queue: str, unique: str, body: str) -> None:
        """Puts a job into a queue; it is kept when this returns."""
        self._send(Kind.SUBMIT_JOB_BG, queue, unique, body)
        self._taken(Kind.JOB_CREATED)

    def next(self) -> tuple[str, str]:
        """The handle and the body of the next job, which is waited for."""
        while True:
            self._send(Kind.GRAB_JOB)
            kind, parts = self._taken(Kind.JOB_ASSIGN, Kind.NO_JOB)
            if kind is Kind.JOB_ASSIGN:
                return parts[0], parts[2]
            self._send(Kind.PRE_SLEEP)
            self._taken(Kind.NOOP)

    def done(self, handle: str) -> None:
        """Ends a job."""
        self._send(Kind.WORK_COMPLETE, handle, "")


def fib(n: int) -> int:
    """The nth Fibonacci number."""
    return n if n < 2 else fib(n - 1) + fib(n - 2)


def work(port: int) -> None:
    """Runs jobs until it is killed."""
    jobs, outcomes = Gearman(port, "jobs"), Gearman(port)
    while True:
        handle, body = jobs.next()
        name, argument = body.split()
        outcomes.put("outcomes", name, f"{name} {fib(int(argument))}")
        jobs.done(handle)


def by_gearman(port: int, most: int, seconds: float) -> list[float]:
    """How long each job took, in seconds."""
    puts, takes = Gearman(port), Gearman(port, "outcomes")
    run = time.time_ns()  # so that no name comes twice
    took: list[float] = []
    out: dict[str, float] = {}
    made, end = 0, time.perf_counter() + seconds
    while out or time.perf_counter() < end:
        while len(out) < most and time.perf_counter() < end:
            made += 1
            out[name := f"{run}-{made}"] = time.perf_counter()
            puts.put("jobs", name, f"{name} 6")
        handle, body = takes.next()
        name, value = body.split()
        assert value == "8"
        takes.done(handle)
        if name in out:
            took.append(time.perf_counter() - out.pop(name))
    return took


if __name__ == "__main__":
    work(int(sys.argv[1]))

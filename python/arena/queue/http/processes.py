"""The service in several processes, which take connections from one listening socket in turn."""
import contextlib
import os
import signal
import sys
import traceback
from collections.abc import Callable

Serve = Callable[[int], None]
"""Serves until a signal ends it, or the descriptor becomes readable: then the process that started it has gone."""


def serve_in(processes: int, serve: Serve) -> bool:
    """Has so many processes serve until SIGTERM or Ctrl-C, or until one of them ends by itself, which ends the others; whether it was
    a signal that ended them. It must be called before threads are started."""
    reader, writer = os.pipe2(os.O_CLOEXEC)
    children = {_start(serve, reader, writer) for _ in range(processes)}
    os.close(reader)
    stopped: list[int] = []

    def stop(number: int, _: object) -> None:
        """Passes a signal on."""
        stopped.append(number)
        _end(children)
    before = {it: signal.signal(it, stop) for it in (signal.SIGTERM, signal.SIGINT)}
    try:
        while children:
            children.discard(os.wait()[0])
            _end(children)
    finally:
        os.close(writer)
        for number, handler in before.items():
            signal.signal(number, handler)
    return bool(stopped)


def _end(children: set[int]) -> None:
    for pid in children:
        with contextlib.suppress(ProcessLookupError):
            os.kill(pid, signal.SIGTERM)


def _start(serve: Serve, reader: int, writer: int) -> int:
    """The number of a process that serves."""
    pid = os.fork()
    if pid:
        return pid
    status = 1
    try:
        os.close(writer)
        serve(reader)
        status = 0
    except BaseException:
        traceback.print_exc()
    finally:
        sys.stdout.flush()
        sys.stderr.flush()
        os._exit(status)

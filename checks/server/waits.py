"""Clients that wait for replies, and how long a process uses processors meanwhile."""
import json
import select
import time

from servers import Bound


def processor_seconds(process: int) -> float:
    """How long a process has used processors so far, all its threads together, in seconds."""
    # The clock of a process has this number on Linux.
    return time.clock_gettime(~process << 3 | 2)


def is_answered(connection: Bound, seconds: float = 1) -> bool:
    """Whether something comes to a client in time."""
    return bool(select.select([connection.client], [], [], seconds)[0])


def used_while_it_waits(process: int, connection: Bound) -> float:
    """How long a process uses processors, in seconds, in a second in which nothing comes to a client."""
    before = processor_seconds(process)
    assert not is_answered(connection)
    return processor_seconds(process) - before


def ask(connection: Bound, request: dict) -> dict:
    """The reply to a request."""
    connection.client.sendall((json.dumps(request) + "\n").encode())
    return json.loads(connection.replies.readline())

"""Connections that do nothing, and what they take from others."""
import json
import socket
import time

from hosts import Host, ask, fib, hang_up, tenant
from servers import PATIENCE, SEVEN, by_deadline

# How many silent connections a neighbour has: more than a host serves at a time.
SILENT = 100


HELLO = {"op": "hello", "tenant": "acme"}


def saying(host: Host, *requests: dict) -> socket.socket:
    """A connection that asks all of that at once, and then nothing."""
    client = socket.socket(socket.AF_UNIX)
    client.settimeout(PATIENCE)
    client.connect(host.path("socket"))
    client.sendall("".join(json.dumps(it) + "\n" for it in requests).encode())
    return client


def told(client: socket.socket) -> list[dict]:
    """All that a connection is told until the host ends it."""
    with client, client.makefile() as replies:
        return [json.loads(line) for line in replies]


def silent_neighbours_keep_nobody_out() -> None:
    """A hundred connections come and say nothing. Each is ended in time, which the host tells and counts, and whoever comes
    after them is served."""
    host = Host([tenant("acme")], "--hello-seconds", 2)
    clients = [saying(host) for _ in range(SILENT)]
    client = host.connect()
    assert ask(client, fib(6)) == {"job": 1, "status": "complete", "value": 8}
    assert [told(it) for it in clients] == [[]] * SILENT
    by_deadline(lambda: sum(it["hello"] for it in host.told("cut")) == SILENT)
    by_deadline(lambda: host.status()["cut"] == {"hello": SILENT, "idle": 0})
    assert ask(client, fib(5)) == {"job": 2, "status": "complete", "value": 5}
    hang_up(client)
    assert host.stop() == 0
    assert host.status()["hello_seconds"] == 2


def idle_ones_end_and_those_that_wait_stay() -> None:
    """A client that asks nothing for some time is ended, and one that waits for its job's outcome all that time is not. The
    job waits for ever, since the only slot is reserved, until somebody cancels it."""
    host = Host([tenant("acme", slots=1)], "--idle-seconds", 2)
    waits = saying(host, HELLO, {"op": "submit", "job": SEVEN}, {"op": "collect", "job": 1})
    by_deadline(lambda: host.status()["terms"][0]["jobs"] == 1)
    assert told(saying(host, HELLO)) == [{"tenant": "acme"}]
    [cut] = by_deadline(lambda: host.told("cut"))
    assert cut == {"time": cut["time"], "event": "cut", "hello": 0, "idle": 1}
    assert told(saying(host, HELLO, {"op": "cancel", "job": 1})) == [{"tenant": "acme"}, {"first": True, "job": 1}]
    assert told(waits) == [{"tenant": "acme"}, {"job": 1}, {"job": 1, "status": "canceled"}]
    by_deadline(lambda: host.status()["cut"] == {"hello": 0, "idle": 3})
    assert host.stop() == 0


def nobody_is_ended_without_a_limit() -> None:
    """Without limits a silent connection and an idle one stay."""
    host = Host([tenant("acme")], "--hello-seconds", 0)
    first, second = saying(host), host.connect()
    time.sleep(1.5)
    first.sendall(json.dumps(HELLO).encode() + b"\n")
    assert first.recv(100) == b'{"tenant":"acme"}\n'
    assert ask(second, fib(5))["value"] == 5
    assert host.told("cut") == []
    first.close()
    hang_up(second)
    assert host.stop() == 0


CHECKS = [silent_neighbours_keep_nobody_out, idle_ones_end_and_those_that_wait_stay, nobody_is_ended_without_a_limit]

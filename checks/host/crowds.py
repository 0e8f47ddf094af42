"""Tenants with more clients than they may have connections."""
import asyncio
import contextlib
import json
import os
import signal
import socket
import subprocess
import sys
from functools import partial

sys.path.append(os.path.abspath("python"))

from hosts import Host, ask, execute, fib, hang_up, rotate, tenant
from servers import PATIENCE, SEVEN, Bound, by_deadline, side_by_side

import arena
import arena.aio

REFUSED = {"code": 13, "error": "connection_limit"}
NO_TENANT = {"code": 11, "error": "no_tenant"}
# How many seconds lie between two lines that tell of a tenant's refused hellos, less what clocks may differ by.
APART = 9
# A client of acme that says hello until it has a place, and then waits for a job. It tells the job's number.
WAITING = """
import json, socket, sys, time
client = socket.socket(socket.AF_UNIX)
client.connect(sys.argv[1])
replies = client.makefile()
def ask(request):
    client.sendall((json.dumps(request) + "\\n").encode())
    return json.loads(replies.readline())
while "code" in ask({"op": "hello", "tenant": "acme"}):
    time.sleep(0.02)
job = ask({"op": "submit", "job": json.loads(sys.argv[2])})["job"]
print(job, flush=True)
ask({"op": "collect", "job": job})
"""


def unbound(host: Host) -> Bound:
    """A connection that has said no hello."""
    with contextlib.ExitStack() as undo:
        client = undo.enter_context(socket.socket(socket.AF_UNIX))
        client.settimeout(PATIENCE)
        client.connect(host.path("socket"))
        connection = Bound(client, undo.enter_context(client.makefile()))
        undo.pop_all()
    return connection


def hello(connection: Bound, name: str = "acme") -> dict | None:
    """The reply to a hello."""
    return ask(connection, {"op": "hello", "tenant": name})


def has_place(connection: Bound) -> bool:
    """Whether a hello finds a place. One that does not is refused as it must be."""
    reply = hello(connection)
    assert reply in (REFUSED, {"tenant": "acme"}), reply
    return reply != REFUSED


def has_said(host: Host, name: str, connected: int, refused: int) -> bool:
    """Whether the status says so much of a tenant's connections."""
    return {"tenant": name, "connected": connected, "refused": refused} in host.status()["tenants"]


def one_tenant_keeps_nobody_out() -> None:
    """A tenant's clients fill its places. The next one is refused with error 13 and stays unbound; another tenant's client is
    served at once, and so are those that have a place. When one of them hangs up, the next is served, and only that one."""
    host = Host([tenant("acme"), tenant("beta")], "--connections", 8, "--tenant-connections", 3)
    bound = [host.connect() for _ in range(3)]
    first, second = unbound(host), unbound(host)
    assert [hello(it) for it in (first, second, first)] == [REFUSED] * 3
    beta = host.connect("beta")
    assert ask(beta, fib(6)) == {"job": 1, "status": "complete", "value": 8}
    assert [execute(it, 5)["value"] for it in bound] == [5] * 3
    assert ask(first, fib(5)) == ask(first, {"op": "arena"}) == NO_TENANT
    assert hello(first, "nobody") == {"code": 5, "error": "unknown_tenant"}
    by_deadline(lambda: has_said(host, "acme", 3, 3) and has_said(host, "beta", 1, 0))
    hang_up(bound.pop())
    by_deadline(lambda: has_place(second))
    assert execute(second, 5)["value"] == 5 and hello(second) == {"code": 3, "error": "bad_request"}
    assert hello(first) == REFUSED and hello(first, "beta") == {"tenant": "beta"}
    assert ask(first, fib(6))["value"] == 8
    told = by_deadline(lambda: host.told("refused"))[0]
    assert told == {"time": told["time"], "event": "refused", "tenant": "acme", "why": "connections", "hellos": told["hellos"]}
    assert told["hellos"] > 0
    hang_up(first, second, beta, *bound)
    by_deadline(lambda: host.status()["connected"] == 0)
    assert host.stop() == 0
    assert all(it["connected"] == 0 for it in host.status()["tenants"])


def places_outlive_terms() -> None:
    """A tenant's places are the same in each of its terms: a connection that was bound in an older one keeps its place."""
    host = Host([tenant("acme")], "--tenant-connections", 2)
    older, waits = host.connect(), unbound(host)
    for number in (1, 2):
        rotate(host, number)
        newer = host.connect()
        assert hello(waits) == REFUSED
        assert execute(older, 5)["value"] == execute(newer, 5)["value"] == 5
        hang_up(newer)
        by_deadline(lambda: has_said(host, "acme", 1, number))
    hang_up(older)
    others = [unbound(host), unbound(host)]
    by_deadline(lambda: has_place(waits))
    by_deadline(lambda: has_place(others[0]))
    assert hello(others[1]) == REFUSED
    hang_up(waits, *others)
    assert host.stop() == 0


def killed_clients_give_places_back() -> None:
    """A client is killed while it waits for a job that never ends, since the only slot is reserved. Its place is given to the
    next one, and so on."""
    host = Host([tenant("acme", slots=1, reserved=1)], "--tenant-connections", 1)
    words = [sys.executable, "-c", WAITING, host.path("socket"), json.dumps(SEVEN)]
    for job in (1, 2):
        later = unbound(host)
        with subprocess.Popen(words, stdout=subprocess.PIPE, text=True) as client:
            assert client.stdout.readline() == f"{job}\n"
            assert hello(later) == REFUSED
            client.send_signal(signal.SIGKILL)
        by_deadline(lambda: has_place(later))
        hang_up(later)
    assert host.stop() == 0


def hellos_at_once_find_as_many_places() -> None:
    """Sixteen clients say hello at the same time, again and again: never more than the tenant may have are bound, and as
    many are."""
    host = Host([tenant("acme")], "--connections", 16, "--tenant-connections", 5)
    for turn in range(1, 9):
        clients = [unbound(host) for _ in range(16)]
        replies = side_by_side(*[partial(hello, it) for it in clients])
        assert sorted(map(str, replies)) == sorted(map(str, [{"tenant": "acme"}] * 5 + [REFUSED] * 11)), replies
        hang_up(*clients)
        by_deadline(lambda: has_said(host, "acme", 0, 11 * turn))
    assert host.stop() == 0


def refused_hellos_fill_no_log() -> None:
    """A client says hello thousands of times in vain. The host counts each, and tells of them in few lines."""
    host = Host([tenant("acme")], "--tenant-connections", 1)
    bound, other = host.connect(), unbound(host)
    for _ in range(3000):
        assert hello(other) == REFUSED
    by_deadline(lambda: has_said(host, "acme", 1, 3000))
    by_deadline(lambda: host.told("refused"))
    hang_up(bound, other)
    assert host.stop() == 0
    told = host.told("refused")
    assert 0 < sum(it["hellos"] for it in told) <= 3000, told
    assert all(later["time"] - earlier["time"] > APART for earlier, later in zip(told, told[1:])), told


async def is_refused(path: str) -> bool:
    """Whether a client of asyncio is told that its tenant has no place."""
    try:
        async with arena.aio.Client(path, "acme", timeout=PATIENCE):
            return False
    except arena.ConnectionLimit as fault:
        return fault.passes and fault.done is False


def python_clients_are_told_why() -> None:
    """The Python clients and the command say in words that the tenant has as many connections as it may. Those that were made
    with their tenant have closed their connection; the other one goes on."""
    host = Host([tenant("acme"), tenant("beta")], "--tenant-connections", 1)
    path = host.path("socket")
    with arena.Client(path, "acme", timeout=PATIENCE), arena.Client(path, timeout=PATIENCE) as other:
        try:
            other.hello("acme")
        except arena.ConnectionLimit as fault:
            assert "as many connections as the host lets it have (`--tenant-connections`)" in str(fault), fault
        else:
            raise AssertionError("it was bound")
        assert other.hello("beta") == "beta" and other.execute(SEVEN).value == 7
        assert asyncio.run(is_refused(path))
        words = [sys.executable, "-m", "arena", "info", "--socket", path, "--tenant", "acme"]
        done = subprocess.run(words, capture_output=True, text=True, env={**os.environ, "PYTHONPATH": os.path.abspath("python")})
        assert (done.stdout, done.returncode) == ("", 33), done
        assert done.stderr.startswith("arena: hello: error 13, connection_limit: the tenant has as many"), done.stderr
        by_deadline(lambda: has_said(host, "acme", 1, 3) and host.status()["connected"] == 2)
    by_deadline(lambda: not asyncio.run(is_refused(path)))
    assert host.stop() == 0


CHECKS = [one_tenant_keeps_nobody_out, places_outlive_terms, killed_clients_give_places_back,
          hellos_at_once_find_as_many_places, refused_hellos_fill_no_log, python_clients_are_told_why]

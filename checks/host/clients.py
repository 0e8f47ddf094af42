"""Clients that come and go."""
import collections
import json
import random
import socket
import time
from collections.abc import Iterator
from functools import partial

from hosts import Host, ask, execute, fib, hang_up, tenant
from servers import PATIENCE, Bound, by_deadline, side_by_side
from waits import used_while_it_waits

# How long a session may outlive its client, in seconds: hundreds of times as long as it does.
SOON = 30
# How many entries a job makes that is to be under way while another one is made: they take a fast machine 30 ms. If
# that was looked for too late, it makes more, in the end as many as the fuel of a job allows.
ENTRIES = (100_000, 300_000, 850_000, 850_000, 850_000, 850_000)
# How many of them a round makes, of which three other instructions count the rounds.
A_ROUND = 20
WAITS = {"args": [0, 0], "fuel": 10, "procs": [[["ret", 0]]]}


def values_of_clients(host: Host, left: Iterator[int]) -> collections.Counter:
    """Lets clients come one after another as long as some are left, and returns how often each value came, or what came
    in its stead."""
    got = collections.Counter()
    while next(left, None) is not None:
        connection = host.connect()
        reply = execute(connection, 4)
        hang_up(connection)
        got[reply["value"] if reply and "value" in reply else str(reply)] += 1
    return got


def a_thousand_short_clients() -> None:
    """Over eight connections at a time come 1,000 clients from sixteen threads, and each gets its answer. Every seat
    comes back: the tenant closes."""
    host = Host([tenant("acme", steps=1_000_000, slots=8, reserved=4)], "--connections", 8, workers=4)
    left = iter(range(1000))  # a range's next number is taken by one thread
    got = sum(side_by_side(*[partial(values_of_clients, host, left)] * 16), collections.Counter())
    assert got == {3: 1000}, got
    assert host.stop() == 0
    assert host.status()["served"] == 1000
    assert sum(map(len, host.closed().values())) == 1


def one_waits_for_a_place() -> None:
    """With all places taken the next client waits, and is served when one ends."""
    host = Host([tenant("acme")], "--connections", 1)
    first = host.connect()
    second = socket.socket(socket.AF_UNIX)
    second.settimeout(60)
    second.connect(host.path("socket"))
    second.sendall(b'{"op":"hello","tenant":"acme"}\n')
    second.settimeout(0.5)
    try:
        assert not second.recv(100)
    except TimeoutError:
        pass
    else:
        raise AssertionError("it was answered, or cut off")
    second.settimeout(60)
    hang_up(first)
    with second.makefile() as replies:
        assert json.loads(replies.readline()) == {"tenant": "acme"}
    second.close()
    assert host.stop() == 0


def makes(entries: int) -> dict:
    """A job that makes so many entries of its history, and gives 7. A count is the cheapest instruction that is an
    entry."""
    return {"args": [entries // A_ROUND, 7], "fuel": 1_000_000, "procs": [[
        ["set", 2, 1], *[["count", 3, 0]] * A_ROUND, ["sub", 0, 0, 2], ["jz", 0, A_ROUND + 4], ["jmp", 1], ["ret", 1]]]}


def goes(host: Host, connection: Bound, requests: list[dict], answers: list[dict]) -> None:
    """A client that sends requests, reads as many replies as are named, and goes. Another client is served soon."""
    connection.client.sendall("".join(json.dumps(it) + "\n" for it in requests).encode())
    assert [json.loads(connection.replies.readline()) for _ in answers] == answers
    began = time.monotonic()
    hang_up(connection)
    hang_up(host.connect())
    assert time.monotonic() - began < SOON


def status_of(connection: Bound, job: int) -> str | None:
    """How far a job is: none if there is no such job."""
    reply = ask(connection, {"op": "poll", "job": job})
    if reply == {"code": 6, "error": "unknown_job"}:
        return None
    assert reply["job"] == job, reply
    return reply["status"]


def status_once_known(connection: Bound, job: int) -> str:
    """How far a job is as soon as there is one, which is looked for all the time: it may be over within some
    milliseconds."""
    end = time.monotonic() + PATIENCE
    while not (status := status_of(connection, job)):
        assert time.monotonic() < end, f"there is no job {job}"
    return status


def goes_while_it_executes(host: Host, holder: Bound, watcher: Bound, entries: int) -> bool:
    """A client goes whose executed job waits for a slot: the only one is reserved, and the holder's job, which makes so
    many entries, is on it. Nothing ever runs that job. Returns whether the watcher saw the holder's job on the slot
    before the other one was made, and after that; if it did not, nothing is known."""
    # The numbers follow one another, and nobody else makes jobs.
    number = ask(watcher, {"op": "submit", "job": WAITS})["job"]
    held, waiting, connection = number + 1, number + 2, host.connect()
    holder.client.sendall((json.dumps({"op": "execute", "job": makes(entries)}) + "\n").encode())
    was_held = status_once_known(watcher, held) == "running"
    connection.client.sendall((json.dumps({"op": "execute", "job": WAITS}) + "\n").encode())
    status_once_known(watcher, waiting)
    is_held = was_held and status_of(watcher, held) == "running"
    goes(host, connection, [], [])
    assert json.loads(holder.replies.readline()) == {"job": held, "status": "complete", "value": 7}
    assert not is_held or status_of(watcher, waiting) == "running"
    return is_held


def is_seen_to_wait(entries: int) -> bool:
    """Clients of a host of their own go while they wait; whether one of them was seen to have a job that waited for the
    only slot, which a job of so many entries had. Of the three places two are the holder's and the watcher's all the
    time."""
    host = Host([tenant("acme", steps=1_048_576, slots=1, reserved=1)], "--connections", 3, "--rotate-at", 100)
    holder, watcher = host.connect(), host.connect()
    goes(host, host.connect(), [{"op": "submit", "job": WAITS}, {"op": "collect", "job": 1}], [{"job": 1}])
    is_seen = goes_while_it_executes(host, holder, watcher, entries)
    goes(host, host.connect(), [{"op": "arena"}], [{"priority": "normal", "reserved": 1, "slots": 1}])
    goes(host, host.connect(), [], [])
    hang_up(holder, watcher)
    assert host.stop() == 0
    return is_seen


def clients_that_go_while_they_wait() -> None:
    """Whatever a session waits for, its place is free soon after its client has gone, and the next client is served.
    The only slot is reserved, so nothing runs what is submitted. Who looks too late, since the machine is fast or this
    program was kept from a processor, looks again at another host, and at a longer job."""
    assert any(map(is_seen_to_wait, ENTRIES)), "each job was over before another one waited for its slot"


def threads_that_wait_use_no_processor() -> None:
    """The only slot is reserved, so that a submitted job waits for ever, with a session that collects it, and the worker
    waits for a call. In a second all threads together use less than a fifth of one."""
    host = Host([tenant("acme", slots=1, reserved=1)], "--connections", 2, workers=1)
    connection = host.connect()
    assert ask(connection, {"op": "submit", "job": WAITS}) == {"job": 1}
    connection.client.sendall(b'{"op":"collect","job":1}\n')
    used = used_while_it_waits(host.process.pid, connection)
    assert used < 0.2, f"{used:.2f} s of a processor in a second"
    hang_up(connection)
    assert host.stop() == 0


def half_closed_clients() -> None:
    """A client that only ends its sending side gets all that it is owed."""
    host = Host([tenant("acme")], "--connections", 2)
    connection = host.connect()
    connection.client.sendall((json.dumps(fib(6)) + "\n" + json.dumps(fib(7)) + "\n").encode())
    connection.client.shutdown(socket.SHUT_WR)
    assert [json.loads(line)["value"] for line in connection.replies] == [8, 13]
    hang_up(connection)
    assert host.stop() == 0


def clients_cut_at_each_byte() -> None:
    """Clients go after any number of bytes of a request, and their seats serve others."""
    host = Host([tenant("acme")], "--connections", 2)
    text = (json.dumps({"op": "hello", "tenant": "acme"}) + "\n" + json.dumps(fib(5)) + "\n").encode()
    draw = random.Random(1)
    for size in draw.sample(range(len(text)), 60):
        client = socket.socket(socket.AF_UNIX)
        client.connect(host.path("socket"))
        client.sendall(text[:size])
        client.close()
    connection = host.connect()
    assert ask(connection, fib(6))["value"] == 8
    hang_up(connection)
    by_deadline(lambda: (host.status()["connected"], host.status()["served"]) == (0, 61))
    assert host.stop() == 0


CHECKS = [a_thousand_short_clients, one_waits_for_a_place, clients_that_go_while_they_wait,
          threads_that_wait_use_no_processor, half_closed_clients, clients_cut_at_each_byte]

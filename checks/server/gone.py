"""What becomes of the jobs of clients that go away while they run."""
import itertools
import json
import random
import time

from endings import greeted, hang_up, is_closed, send
from levels import bound
from servers import PATIENCE, SEVEN, Bound, Server, placed_at, tenant
from waits import ask, is_answered

# How often a client goes while rows wait for one another, and how often that is tried at most; how many clients go at
# drawn moments.
ROUNDS, TRIES, CLIENTS = 3, 12, 40
BETA = {**tenant("beta", 2, 1), "priority": "high"}
# Five rows, each of which spawns the next one, goes on once a later one runs, and then waits for the one that it spawned:
# the first on the reserved slot, the next two on the workers', and the fourth on the reserved one, above the first. So the
# last one, which counts down by an entry each time, runs on a worker's slot, and the session has nothing to run until it
# ends. By then the rows of both workers wait for the fourth row, which the session alone can continue.
CHAIN = {"args": [0, 0], "fuel": 1_000_000, "procs": [
    [["spawn", 0, 1, 0, 1], ["count", 2, 1], ["jz", 2, 1], ["wait", 3, 4, 0], ["ret", 3]],
    [["spawn", 0, 2, 0, 1], ["store", 1, 0], ["count", 2, 3], ["jz", 2, 2], ["wait", 3, 4, 0], ["ret", 3]],
    [["spawn", 0, 3, 0, 1], ["count", 2, 3], ["jz", 2, 1], ["wait", 3, 4, 0], ["ret", 3]],
    [["store", 3, 0], ["spawn", 0, 4, 0, 1], ["count", 2, 4], ["jz", 2, 2], ["wait", 3, 4, 0], ["ret", 3]],
    [["store", 4, 0], ["set", 2, 5_000], ["set", 3, 1], ["count", 4, 0], ["sub", 2, 2, 3], ["jz", 2, 7], ["jmp", 3],
     ["set", 2, 5], ["ret", 2]]]}
# How that job ends where a thread gets no processor for so long that the rows which look for the next one spend all
# fuel.
SPENT = {"fault": 2, "job": 1, "status": "fault"}
# The eleventh Fibonacci number, by tasks: some thousand entries.
TASKS = {"args": [11, 0], "fuel": 1_000_000, "procs": [[
    ["set", 2, 2], ["lt", 3, 0, 2], ["jz", 3, 4], ["ret", 0], ["set", 2, 1], ["sub", 3, 0, 2], ["spawn", 0, 0, 3, 1],
    ["sub", 3, 3, 2], ["spawn", 0, 0, 3, 1], ["wait", 4, 5, 0], ["ret", 4]]]}


def outcome(connection: Bound, job: int) -> dict:
    """The outcome of a job. It takes milliseconds; what waits for a row that nobody continues has none ever."""
    send(connection.client, {"op": "collect", "job": job})
    assert is_answered(connection, PATIENCE), f"job {job} has no outcome after {PATIENCE} seconds"
    return json.loads(connection.replies.readline())


def seven_is_answered(connection: Bound) -> None:
    """A client submits a job of one instruction, and has its outcome."""
    job = ask(connection, {"op": "submit", "job": SEVEN})["job"]
    assert outcome(connection, job) == {"job": job, "status": "complete", "value": 7}


def wait_for_the_last_row(connection: Bound) -> None:
    """Waits until the last row of the chain runs, or the job's fuel is spent."""
    began, poll = time.monotonic(), {"op": "poll", "job": 1}
    while not ask(connection, {"op": "cells", "key": 4})["count"] and ask(connection, poll) != SPENT:
        assert time.monotonic() < began + PATIENCE
        time.sleep(0.0005)  # no longer: the last row is soon done


def has_fuel_while_rows_wait() -> bool:
    """Both workers' rows wait for one that only the session can continue, and its client has gone. A job of another tenant
    is answered all the same, and this one completes; its slot is free then. Returns whether it had fuel for that."""
    server = Server([{**tenant("acme", 3, 1), "steps": 1_000_000}, BETA], 2, 3)
    other, quiet = greeted(server), bound(server, "beta")
    going = greeted(server)
    send(going.client, {"op": "execute", "job": CHAIN})
    wait_for_the_last_row(other)
    hang_up(going)
    seven_is_answered(quiet)
    found = outcome(other, 1)
    assert found in ({"job": 1, "status": "complete", "value": 5}, SPENT), found
    assert ask(other, {"op": "retire"}) == {"epoch": 1}
    assert ask(other, {"op": "execute", "job": SEVEN}) == {"job": 2, "status": "complete", "value": 7}
    hang_up(other, quiet)
    lines, err, status = server.end()
    assert is_closed(lines, ("acme", "beta")) and (err, status) == ("", 0)
    assert placed_at(server.dumps, "acme") == {1: 0, 2: 0}
    return found != SPENT


def job_of_a_client_that_has_gone_completes() -> None:
    """Whatever the moment at which its session sees that its client has gone."""
    rounds = (has_fuel_while_rows_wait() for _ in range(TRIES))
    assert sum(itertools.islice(filter(None, rounds), ROUNDS)) == ROUNDS, "nearly each time all fuel was spent"


def execute_and_go(server: Server, seconds: float) -> None:
    """A client executes a job, and hangs up after a while."""
    going = greeted(server)
    send(going.client, {"op": "execute", "job": TASKS})
    time.sleep(seconds)
    hang_up(going)


def clients_that_go_at_any_moment() -> None:
    """Forty clients of a tenant execute jobs, one after another, and hang up before these have ended. A job of another
    tenant is answered then, and each of their jobs ends."""
    dice = random.Random(64)
    server = Server([{**tenant("acme", 5, 2), "steps": 200_000}, BETA], 2, CLIENTS + 2)
    watching, quiet = greeted(server), bound(server, "beta")
    began = time.monotonic()
    assert ask(watching, {"op": "execute", "job": TASKS}) == {"job": 1, "status": "complete", "value": 89}
    took = time.monotonic() - began
    for _ in range(CLIENTS):
        execute_and_go(server, dice.uniform(0, took))
    seven_is_answered(quiet)
    for job in range(1, CLIENTS + 2):
        reply = outcome(watching, job)
        assert reply == {"job": job, "status": "complete", "value": 89}, reply
    assert ask(watching, {"op": "retire"}) == {"epoch": 1}
    hang_up(watching, quiet)
    lines, err, status = server.end()
    assert is_closed(lines, ("acme", "beta")) and (err, status) == ("", 0)


CHECKS = [job_of_a_client_that_has_gone_completes, clients_that_go_at_any_moment]

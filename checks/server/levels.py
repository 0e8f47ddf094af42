"""Which tenant a server's only worker turns to next, and that a client of any tenant may go while it waits."""
import json
import time

from endings import SOON, hang_up, send
from servers import SEVEN, Bound, Server, tenant
from waits import ask

# How many jobs keep the worker at a tenant, and how often it is tried in case they don't keep it for long enough.
JOBS = 100
TRIES = 10
# A job that spends all its fuel, which takes a thousand entries.
SPINNING = {"args": [0, 0], "fuel": 1_000_000, "procs": [[["jmp", 0]]]}
COMPLETE = {"job": 1, "status": "complete", "value": 7}


def roomy(name: str, priority: str) -> dict:
    """A tenant with one slot, which is for workers, and room for the entries of these jobs."""
    return {**tenant(name, 1, 0), "priority": priority, "steps": 400_000}


def bound(server: Server, name: str) -> Bound:
    """A client that is bound to a tenant."""
    client = server.connect()
    connection = Bound(client, client.makefile())
    assert ask(connection, {"op": "hello", "tenant": name}) == {"tenant": name}
    return connection


def submit_all(connection: Bound) -> None:
    """Submits the spinning jobs."""
    send(connection.client, *[{"op": "submit", "job": SPINNING}] * JOBS)
    assert [json.loads(connection.replies.readline()) for _ in range(JOBS)] == [{"job": n + 1} for n in range(JOBS)]


def is_running(connection: Bound) -> bool:
    """Whether the last of a client's jobs is not over."""
    return ask(connection, {"op": "poll", "job": JOBS})["status"] == "running"


def is_third_served_first(priorities: tuple[str, str, str]) -> bool | None:
    """The only worker is kept by a tenant, while a second one gets as many jobs, and then a third one a single job. Returns
    whether that one is answered before the second's last: none if the worker was free before it came."""
    names = ("acme", "beta", "gamma")
    server = Server([roomy(*it) for it in zip(names, priorities)], 1, 3)
    first, second, third = (bound(server, name) for name in names)
    submit_all(first)
    submit_all(second)
    assert ask(third, {"op": "submit", "job": SEVEN}) == {"job": 1}
    was_kept = is_running(first)
    assert ask(third, {"op": "collect", "job": 1}) == COMPLETE
    is_first = is_running(second)
    assert ask(second, {"op": "collect", "job": JOBS}) == {"fault": 2, "job": JOBS, "status": "fault"}
    hang_up(first, second, third)
    lines, fault, status = server.end()
    assert [line.split(",")[0] for line in lines] == [f"{name}: closed" for name in names] and (fault, status) == ("", 0)
    return is_first if was_kept else None


def call_of_a_higher_level_comes_first() -> None:
    """Though it came last. A client that comes late to look sees the others served too, so it is tried more than once."""
    assert any(is_third_served_first(("normal", "low", "high")) for _ in range(TRIES))


def calls_of_a_level_come_in_order() -> None:
    """A worker of the server stays with a tenant as long as a row waits there, so the third one waits for all of them."""
    seen = (is_third_served_first(("normal", "normal", "normal")) for _ in range(TRIES))
    assert next((is_first for is_first in seen if is_first is not None), None) is False


def client_of_the_second_tenant_collects_and_goes() -> None:
    """Its session ends, though no slot may ever start the job."""
    server = Server([tenant("acme", 1, 1), tenant("beta", 1, 1)], 1, 1)
    connection = bound(server, "beta")
    assert ask(connection, {"op": "submit", "job": SEVEN}) == {"job": 1}
    send(connection.client, {"op": "collect", "job": 1})
    began = time.monotonic()
    hang_up(connection)
    assert server.end() == (["acme: closed, 0 entries", "beta: closed, 1 entries"], "", 0)
    assert time.monotonic() - began < SOON


CHECKS = [call_of_a_higher_level_comes_first, calls_of_a_level_come_in_order,
          client_of_the_second_tenant_collects_and_goes]

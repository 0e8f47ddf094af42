"""Terms of a tenant that follow one another."""
import json
import os
import subprocess
import time
from collections.abc import Callable

from hosts import PROGRAM, Host, Load, ask, dumps, fib, hang_up, results, rotate, tenant
from servers import PATIENCE, SEVEN, Bound, by_deadline
from sharing import JOBS, SPINNING

DIVIDES = {"args": [0, 0], "fuel": 10, "procs": [[["set", 2, 1], ["div", 2, 2, 3], ["ret", 2]]]}
# Puts a 1 into a cell of its slot, and gives 0.
COUNTS = {"args": [0, 0], "fuel": 10, "procs": [[["set", 2, 1], ["store", 0, 2], ["ret", 0]]]}


def terms_of(host: Host, name: str) -> list[dict]:
    """A tenant's terms that are not closed, by the status."""
    return [it for it in host.status()["terms"] if it["tenant"] == name]


def three_by_history() -> None:
    """Under load the host rotates by history, and no client finds a full one: what is left when the next term is asked for lasts
    until a slow disk has its numbers."""
    tenants = [tenant("acme", steps=400_000), tenant("beta", steps=600_000)]
    host = Host(tenants, "--connections", 8, "--rotate-at", 10, workers=2)
    load = Load(host, 8, ("acme", "beta"))
    names = ("acme", "beta")
    by_deadline(lambda: all(len(host.told("opened", tenant=name)) >= 4 for name in names), seconds=3 * PATIENCE)
    replies = load.end()
    assert set(replies) == {"right"}, replies
    assert host.stop() == 0
    for name in ("acme", "beta"):
        numbers = [it["term"] for it in host.told("opened", tenant=name)]
        assert numbers == list(range(len(numbers)))
        assert [it["term"] for it in host.told("rotation", tenant=name, why="history")] == numbers[:-1]
        assert sorted(it["term"] for it in host.told("closed", tenant=name, lost=0)) == numbers
        assert sorted(host.closed()[name]) == numbers
    assert not host.told("fault"), host.told("fault")


def a_noisy_tenant_disturbs_no_other() -> None:
    """A tenant that fills its history all the time has one term after another. The connection, the cells, the numbers and
    the jobs of a quiet one live through it. The noisy one's own jobs end too, all of them."""
    host = Host([tenant("noisy", steps=2000), tenant("quiet", slots=2)], "--connections", 8, workers=2)
    quiet = host.connect("quiet")
    assert ask(quiet, {"op": "execute", "job": COUNTS})["status"] == "complete"
    cells = ask(quiet, {"op": "cells", "key": 0})
    load = Load(host, 4, ("noisy",))
    for number in range(2, 12):
        assert ask(quiet, fib(6)) == {"job": number, "status": "complete", "value": 8}
        time.sleep(0.1)
    by_deadline(lambda: len(host.told("opened", tenant="noisy")) >= 10)
    replies = load.end()
    assert set(replies) == {"right"}, replies
    assert ask(quiet, {"op": "cells", "key": 0}) == cells
    assert ask(quiet, {"op": "poll", "job": 2}) == {"job": 2, "status": "complete", "value": 8}
    assert len(host.told("opened", tenant="quiet")) == 1
    hang_up(quiet)
    assert host.stop() == 0
    assert list(host.closed()["quiet"]) == [0]


def connections_outlive_terms() -> None:
    """One connection goes through ten terms. Job numbers rise, none comes twice, and each is found in whatever term it is,
    from any connection: while that lives, and once it is closed."""
    host = Host([tenant("acme", steps=1000)], "--keep", 20)
    client, other = host.connect(), host.connect()
    made = []
    for number in range(1, 11):
        made.append(ask(client, {"op": "submit", "job": fib(6)["job"]})["job"])
        rotate(host, number)
    assert made == [1000 * number + 1 for number in range(10)]
    for job in made:
        assert ask(other, {"op": "collect", "job": job}) == {"job": job, "status": "complete", "value": 8}
    by_deadline(lambda: len(host.told("closed")) == 10)
    for job in made:
        assert ask(client, {"op": "poll", "job": job}) == {"job": job, "status": "complete", "value": 8}
        assert ask(client, {"op": "cancel", "job": job}) == {"first": False, "job": job}
    assert ask(client, {"op": "poll", "job": 2}) == {"code": 6, "error": "unknown_job"}
    assert ask(client, {"op": "release", "job": 1}) == {"released": 1}
    assert ask(client, {"op": "collect", "job": 1001, "release": True}) == {"job": 1001, "status": "complete", "value": 8}
    assert [ask(other, {"op": "poll", "job": job}).get("code") for job in (1, 1001, 2001)] == [6, 6, None]
    assert ask(client, {"op": "retire"}) == {"epoch": 1}
    assert ask(other, {"op": "poll", "job": 2001}) == {"code": 6, "error": "unknown_job"}
    hang_up(client, other)
    assert host.stop() == 0
    assert results(host, "acme", 3) == [{"job": 3001, "status": "complete", "value": 8}]


def questions_take_nothing_from_jobs() -> None:
    """A job waits for the only worker in a term that was left. However often it is asked for, its history keeps room for it."""
    host = Host([tenant("noisy", steps=400_000, slots=1, reserved=0), tenant("acme", steps=100)], workers=1)
    noisy, acme = host.connect("noisy"), host.connect()
    noisy.client.sendall((json.dumps({"op": "submit", "job": SPINNING}) + "\n").encode() * JOBS)
    assert [json.loads(noisy.replies.readline()) for _ in range(JOBS)] == [{"job": n + 1} for n in range(JOBS)]
    assert ask(acme, {"op": "submit", "job": SEVEN}) == {"job": 1}
    rotate(host, 1)
    replies = [ask(acme, {"op": "poll", "job": 1}) for _ in range(300)]
    complete = {"job": 1, "status": "complete", "value": 7}
    assert all(it in ({"job": 1, "status": "running"}, complete) for it in replies), replies[-1]
    assert [ask(acme, {"op": "collect", "job": 1}) for _ in range(300)] == [complete] * 300
    assert ask(acme, {"op": "poll", "job": 2}) == {"code": 6, "error": "unknown_job"}
    hang_up(noisy, acme)
    assert host.stop() == 0
    assert host.told("closed", tenant="acme", term=0, lost=0)


def a_full_history_is_left_for_the_next_one() -> None:
    """Whoever asks a term whose history is full asks the next one, which is opened then: a client sees none of it."""
    host = Host([tenant("acme", steps=60)], "--rotate-at", 100, "--keep", 100)
    client = host.connect()
    replies = [ask(client, {"op": "execute", "job": COUNTS}) for _ in range(100)]
    assert [it["status"] for it in replies] == ["complete"] * 100, replies
    numbers = [it["job"] for it in replies]
    assert numbers == sorted(set(numbers))
    hang_up(client)
    assert host.stop() == 0
    assert len(host.told("rotation", why="history")) >= 3


def one_by_file() -> None:
    """A tenant comes and another one goes with an order by a file, and neither is noticed by a third."""
    host = Host([tenant("acme"), tenant("beta")])
    acme, beta = host.connect("acme"), host.connect("beta")
    assert ask(beta, fib(6)) == {"job": 1, "status": "complete", "value": 8}
    host.configure([tenant("acme"), tenant("gamma")])
    open(host.path("rotate"), "w").close()
    by_deadline(lambda: host.told("opened", tenant="gamma") and host.told("closed", tenant="beta"))
    assert not os.path.exists(host.path("rotate"))
    assert ask(beta, fib(6)) == {"code": 8, "error": "history_full"}
    assert ask(beta, {"op": "poll", "job": 1}) == {"job": 1, "status": "complete", "value": 8}
    gamma = host.connect("gamma")
    assert ask(gamma, fib(6)) == {"job": 1, "status": "complete", "value": 8}
    assert ask(acme, fib(6))["value"] == 8
    hang_up(acme, beta, gamma)
    assert host.stop() == 0
    assert {name: sorted(closed) for name, closed in host.closed().items()} == {"acme": [0, 1], "beta": [0], "gamma": [0]}


def a_configuration_that_cannot_be_read() -> None:
    """The terms in force go on, and the host says so."""
    host = Host([tenant("acme")])
    with open(host.config, "w") as it:
        it.write("{")
    open(host.path("rotate.acme"), "w").close()
    by_deadline(lambda: host.told("fault", what="config", tenant="acme"))
    connection = host.connect()
    assert ask(connection, fib(6))["value"] == 8
    host.configure([tenant("acme")])
    time.sleep(1.5)
    assert len(host.told("opened")) == 1
    rotate(host, 1)
    assert ask(connection, fib(6))["value"] == 8
    hang_up(connection)
    assert host.stop() == 0


def what_a_tenant_is_given_changes() -> None:
    """With its next term, in which its connections go on."""
    host = Host([tenant("acme", slots=3)])
    client = host.connect()
    assert ask(client, {"op": "arena"})["slots"] == 3
    host.configure([tenant("acme", slots=5)])
    rotate(host, 1)
    assert ask(client, {"op": "arena"})["slots"] == 5
    hang_up(client)
    assert host.stop() == 0


def the_newest_dumps_are_kept() -> None:
    host = Host([tenant("acme"), tenant("beta")], "--keep", 2)
    for number in range(1, 5):
        rotate(host, number)
    by_deadline(lambda: len(host.told("closed")) == 4)
    assert host.stop() == 0
    assert (dumps(host, "acme"), dumps(host, "beta")) == ([3, 4], [0])
    assert sorted(os.listdir(host.path("results"))) == ["acme.000003.jsonl", "acme.000004.jsonl", "beta.000000.jsonl"]
    host = Host([tenant("acme"), tenant("beta")], "--keep", 1, after=host)
    assert (dumps(host, "acme"), dumps(host, "beta")) == ([4], [0])
    assert host.stop() == 0
    assert (dumps(host, "acme"), dumps(host, "beta")) == ([5], [1])


def shown(host: Host, is_so: Callable[[dict, dict], bool]) -> dict | None:
    """The status, once something is so of the only terms of both tenants, and both workers wait for a call."""
    status = host.status()
    is_idle = all(it["tenant"] is None and it["slot"] is None for it in status["workers"])
    return status if is_idle and is_so(*status["terms"]) else None


def asks_both(host: Host) -> list[Bound]:
    """Clients that have asked acme for a job that is complete and one with fault 1, and beta, whose only slot is reserved,
    for two that wait, one of which they cancelled."""
    acme, beta = host.connect("acme"), host.connect("beta")
    assert ask(acme, fib(6)) == {"job": 1, "status": "complete", "value": 8}
    assert ask(acme, {"op": "execute", "job": DIVIDES}) == {"job": 2, "status": "fault", "fault": 1}
    assert ask(beta, {"op": "submit", "job": DIVIDES}) == {"job": 1}
    assert ask(beta, {"op": "submit", "job": DIVIDES}) == {"job": 2}
    assert ask(beta, {"op": "cancel", "job": 1}) == {"first": True, "job": 1}
    return [acme, beta]


def what_it_shows() -> None:
    """The members of the status are those of its page, with what clients have done."""
    began = time.time()  # times of the status are later, in whole seconds
    host = Host([tenant("acme"), tenant("beta", steps=500, slots=1, reserved=1)], "--connections", 3, "--keep", 5,
                "--finish", 7)
    connections = asks_both(host)
    status = by_deadline(lambda: shown(host, lambda acme, beta: acme["asks"] == 4 and beta["asks"] == 3))
    assert began - 1 < status["time"] <= time.time() and status["memory"] > 1 << 20 and status["closed"] == []
    assert began - 1 < status["began"] <= min(it["began"] for it in status["terms"]), status
    assert set(status) == {"version", "time", "began", "connections", "connected", "served", "cut", "tenant_connections",
                           "hello_seconds", "idle_seconds", "rotate_at", "keep", "finish", "durable", "memory", "workers",
                           "tenants", "terms", "closed"}
    told = subprocess.run([PROGRAM, "--version"], capture_output=True, text=True, check=True).stdout
    assert told == f"arena-host {status['version']}\n", told
    assert (status["connections"], status["rotate_at"], status["keep"], status["finish"]) == (3, 50, 5, 7)
    assert status["durable"] == "write"
    assert (status["connected"], status["served"]) == (2, 2)
    assert (status["cut"], status["hello_seconds"], status["idle_seconds"]) == ({"hello": 0, "idle": 0}, 60, 0)
    assert status["tenant_connections"] == 64
    assert status["tenants"] == [{"tenant": it, "connected": 1, "refused": 0} for it in ("acme", "beta")]
    acme, beta = status["terms"]
    # On a slow machine the first terms begin some seconds before what the status says of the host.
    assert all(began - 1 < it <= status["time"] for it in (status["began"], acme.pop("began"), beta.pop("began")))
    # Each execute is itself and its collect; the division is one advance besides.
    assert 83 < acme.pop("entries") < 123, acme
    assert acme == {"tenant": "acme", "term": 0, "state": "serving", "why": None, "base": 0, "steps": 10_000, "asks": 4,
                    "jobs": 2, "rows": {"open": 0, "waiting": 0},
                    "jobs_now": {"running": 0, "complete": 1, "canceled": 0, "fault": 1}}
    # The cancelled job's root is dropped, the other one's waits.
    assert beta == {"tenant": "beta", "term": 0, "state": "serving", "why": None, "base": 0, "steps": 500, "entries": 3,
                    "asks": 3, "jobs": 2, "rows": {"open": 1, "waiting": 1},
                    "jobs_now": {"running": 1, "complete": 0, "canceled": 1, "fault": 0}}
    assert status["workers"] == [{"worker": number, "tenant": None, "slot": None} for number in (0, 1)]
    hang_up(*connections)
    assert host.stop() == 0
    closed = {it.pop("tenant"): it for it in host.status()["closed"]}
    beta = closed["beta"]
    assert beta.pop("ended") >= beta.pop("began") and beta.pop("ms") >= 0
    assert beta == {"term": 0, "why": "stop", "base": 0, "entries": 3, "lost": 1, "left": 0, "fault": None,
                    "dumped": True}
    assert set(closed) == {"acme", "beta"} and host.status()["terms"] == []


def is_at_work(host: Host) -> bool:
    """Whether the status shows acme's only worker at its slot, with a job that it runs and others that wait for it."""
    status = host.status()
    if status["workers"] != [{"worker": 0, "tenant": "acme", "slot": 1}]:
        return False
    rows = [(it["rows"]["open"], it["rows"]["waiting"], it["jobs_now"]["running"]) for it in status["terms"]]
    return any(1 < is_open == waiting + 1 == running for is_open, waiting, running in rows)


def submits_all(client: Bound) -> int:
    """Submits the spinning jobs, whose numbers rise, also from one term to the next. Returns that of the last one."""
    client.client.sendall((json.dumps({"op": "submit", "job": SPINNING}) + "\n").encode() * JOBS)
    made = [json.loads(client.replies.readline())["job"] for _ in range(JOBS)]
    assert made == sorted(set(made)), made
    return made[-1]


def what_it_shows_of_a_worker_at_work() -> None:
    """It is at a slot of acme's, and all rows but the one that it runs wait to be started. The status is a second old
    at most, so jobs are submitted again as long as it shows none: a fast machine does many of them in a second, and
    fills a history."""
    host = Host([tenant("acme", steps=1_000_000, slots=2)], "--connections", 1, "--keep", 1, workers=1)
    client, end = host.connect(), time.monotonic() + 2 * PATIENCE
    last = submits_all(client)
    while not is_at_work(host):
        assert time.monotonic() < end, host.status()
        if ask(client, {"op": "poll", "job": last})["status"] != "running":
            # Those of a term before may not have ended.
            by_deadline(lambda: "epoch" in ask(client, {"op": "retire"}))
            last = submits_all(client)
        time.sleep(0.02)
    hang_up(client)
    assert host.stop() == 0


CHECKS = [three_by_history, a_noisy_tenant_disturbs_no_other, connections_outlive_terms,
          questions_take_nothing_from_jobs, a_full_history_is_left_for_the_next_one, one_by_file,
          a_configuration_that_cannot_be_read,
          what_a_tenant_is_given_changes, the_newest_dumps_are_kept, what_it_shows, what_it_shows_of_a_worker_at_work]

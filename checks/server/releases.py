"""Jobs that are let go one by one: by themselves, with their outcomes, and by clients that wait for the same one."""
import json
import os
import threading
from concurrent.futures import ThreadPoolExecutor

from servers import FIB, HELLO, SEVEN, Server, side_by_side, tenant

UNKNOWN = {"code": 6, "error": "unknown_job"}
BUSY = {"code": 12, "error": "busy"}
# A job that runs until it is cancelled, or its fuel is spent.
LONG = {"args": [0, 0], "fuel": 1_000_000, "procs": [[["jmp", 0]]]}
CONNECTIONS, CLIENTS, ROUNDS = 8, 48, 12


def take(job: int) -> dict:
    """A collect that releases the job."""
    return {"op": "collect", "job": job, "release": True}


def job_is_forgotten_once_released() -> None:
    server = Server([tenant("acme", 2, 1)], 1, 1)
    seven = {"job": 1, "status": "complete", "value": 7}
    assert server.ask(
        HELLO, {"op": "execute", "job": SEVEN}, {"op": "collect", "job": 1, "release": False}, {"op": "release", "job": 1},
        {"op": "release", "job": 1}, {"op": "poll", "job": 1}, {"op": "release", "job": 0}, {"op": "submit", "job": SEVEN},
        take(2), take(2), {"op": "release", "job": 1, "by": "acme"}, {"op": "collect", "job": 1, "release": 1}) == [
            {"tenant": "acme"}, seven, seven, {"released": 1}, UNKNOWN, UNKNOWN, UNKNOWN, {"job": 2}, {**seven, "job": 2},
            UNKNOWN, {"code": 3, "error": "bad_request"}, {"code": 3, "error": "bad_request"}]
    lines, err, status = server.end()
    assert lines[0].startswith("acme: closed, ") and (err, status) == ("", 0)
    with open(os.path.join(server.dumps, "acme.jsonl")) as dump:
        text = dump.read()
    assert '"request":{"job":2,"op":"collect","release":true}' in text and '"reply":{"released":1}' in text


def running_job_is_kept() -> None:
    """Its only slot is reserved, so nobody runs it until it is cancelled, which gives it its outcome."""
    server = Server([tenant("acme", 1, 1)], 1, 1)
    assert server.ask(
        HELLO, {"op": "submit", "job": LONG}, {"op": "release", "job": 1}, {"op": "cancel", "job": 1},
        {"op": "release", "job": 1}, {"op": "cancel", "job": 1}) == [
            {"tenant": "acme"}, {"job": 1}, BUSY, {"first": True, "job": 1}, {"released": 1}, UNKNOWN]
    assert server.end().status == 0


def one_of_two_that_wait_takes_the_outcome() -> None:
    """Both wait for a job whose only slot is reserved. Once it is cancelled, one has the outcome and the other none."""
    server = Server([tenant("acme", 1, 1)], 1, 4)
    assert server.ask(HELLO, {"op": "submit", "job": LONG})[1] == {"job": 1}
    asked = threading.Barrier(3)

    def waiter() -> dict:
        with server.connect() as client, client.makefile("rw") as lines:
            print(json.dumps(HELLO), json.dumps(take(1)), sep="\n", file=lines, flush=True)
            assert json.loads(lines.readline()) == {"tenant": "acme"}
            asked.wait()
            return json.loads(lines.readline())

    def canceler() -> dict:
        asked.wait()
        return server.ask(HELLO, {"op": "cancel", "job": 1})[1]

    *taken, canceled = side_by_side(waiter, waiter, canceler)
    assert canceled == {"first": True, "job": 1}
    assert sorted(taken, key=str) == [UNKNOWN, {"job": 1, "status": "canceled"}], taken
    assert server.end().status == 0


def clients_that_take_their_jobs_lose_none() -> None:
    """48 clients on 8 connections make and take twice as many jobs as a tenant may have at once: each gets its own
    outcome, none meets a limit, and nobody retires."""
    server = Server([{**tenant("acme", 4, 0), "steps": 1_000_000}], 4, CONNECTIONS + 1)

    def connection() -> int:
        with server.connect() as client, client.makefile("rw") as lines:
            print(json.dumps(HELLO), file=lines, flush=True)
            assert json.loads(lines.readline()) == {"tenant": "acme"}
            for turn in range(ROUNDS):
                jobs = [FIB if (turn + place) % 3 else SEVEN for place in range(CLIENTS // CONNECTIONS)]
                print(*(json.dumps({"op": "submit", "job": job}) for job in jobs), sep="\n", file=lines, flush=True)
                made = [json.loads(lines.readline())["job"] for _ in jobs]
                print(*(json.dumps(take(job)) for job in made), sep="\n", file=lines, flush=True)
                for number, job in zip(made, jobs):
                    value = 8 if job is FIB else 7
                    assert json.loads(lines.readline()) == {"job": number, "status": "complete", "value": value}
            return ROUNDS * len(jobs)

    with ThreadPoolExecutor(CONNECTIONS) as pool:
        assert sum(it.result() for it in [pool.submit(connection) for _ in range(CONNECTIONS)]) == CLIENTS * ROUNDS
    assert server.ask(HELLO, {"op": "submit", "job": SEVEN})[1] == {"job": CLIENTS * ROUNDS + 1}
    lines, err, status = server.end()
    assert lines[0].startswith("acme: closed, ") and (err, status) == ("", 0)


CHECKS = [job_is_forgotten_once_released, running_job_is_kept, one_of_two_that_wait_takes_the_outcome,
          clients_that_take_their_jobs_lose_none]

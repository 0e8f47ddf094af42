"""What was released or retired of closed terms stays so, however the host ends."""
import os

from hosts import Host, ask, dumps, fib, hang_up, results, rotate, tenant
from servers import by_deadline

UNKNOWN = {"code": 6, "error": "unknown_job"}


def complete(job: int) -> dict:
    """The outcome of each job here: the sixth Fibonacci number."""
    return {"job": job, "status": "complete", "value": 8}


def with_a_closed_term(jobs: int, *words: object) -> Host:
    """A host whose tenant has done so many jobs in its first term, which is closed and written."""
    host = Host([tenant("acme")], *words)
    client = host.connect()
    for _ in range(jobs):
        assert ask(client, fib(6))["value"] == 8
    rotate(host, 1)
    by_deadline(lambda: host.told("closed", tenant="acme", term=0))
    hang_up(client)
    return host


def polls(host: Host, *jobs: int) -> list[dict]:
    """What polls of these jobs are answered, by a new connection."""
    client = host.connect()
    said = [ask(client, {"op": "poll", "job": job}) for job in jobs]
    hang_up(client)
    return said


def asked(host: Host, *requests: dict) -> list[dict]:
    """What these requests are answered, by a new connection."""
    client = host.connect()
    said = [ask(client, request) for request in requests]
    hang_up(client)
    return said


def next_host(host: Host, *words: object) -> Host:
    """The next host in the folder of one that has ended."""
    return Host([tenant("acme")], *words, after=host)


def released_of_a_closed_term() -> None:
    """By whatever durability, after a kill and after an ordered stop: what was told to be released is unknown, and nothing else."""
    for durable in ("off", "write", "second", "reply"):
        host = with_a_closed_term(4, "--durable", durable)
        assert asked(host, {"op": "collect", "job": 1, "release": True}, {"op": "release", "job": 2}) == [complete(1), {"released": 2}]
        assert polls(host, 1, 2, 3, 4) == [UNKNOWN, UNKNOWN, complete(3), complete(4)]
        host.kill()
        host = next_host(host, "--durable", durable)
        assert polls(host, 1, 2, 3, 4) == [UNKNOWN, UNKNOWN, complete(3), complete(4)], durable
        assert asked(host, {"op": "release", "job": 3}, {"op": "release", "job": 3}) == [{"released": 3}, UNKNOWN]
        assert host.stop() == 0
        host = next_host(host, "--durable", durable)
        assert polls(host, 1, 2, 3, 4) == [UNKNOWN, UNKNOWN, UNKNOWN, complete(4)], durable
        assert host.stop() == 0


def released_before_the_outcomes_are_written() -> None:
    """A job is released of a term that is closed and whose files can't be written; the host is killed, and the next one writes
    them from the journal."""
    host = Host([tenant("acme")])
    assert [it["value"] for it in asked(host, fib(6), fib(6))] == [8, 8]
    os.rename(host.path("dumps"), host.path("gone"))
    rotate(host, 1)
    by_deadline(lambda: host.told("fault", what="dump", tenant="acme", term=0))
    assert asked(host, {"op": "collect", "job": 1, "release": True}) == [complete(1)]
    host.kill()
    os.rename(host.path("gone"), host.path("dumps"))
    host = next_host(host)
    assert host.told("recovered", tenant="acme", term=0) and dumps(host, "acme")[0] == 0
    assert results(host, "acme", 0) == [complete(1), complete(2)]
    assert polls(host, 1, 2) == [UNKNOWN, complete(2)]
    assert host.stop() == 0


def retired_with_closed_terms() -> None:
    """A `retire` is for all terms, also after the next start; what is done after it is known."""
    for kills in (True, False):
        host = with_a_closed_term(2)
        [epoch, later] = asked(host, {"op": "retire"}, fib(6))
        assert "epoch" in epoch and later["value"] == 8, (epoch, later)
        assert polls(host, 1, 2, later["job"]) == [UNKNOWN, UNKNOWN, complete(later["job"])]
        if kills:
            host.kill()
        else:
            assert host.stop() == 0
        host = next_host(host)
        assert polls(host, 1, 2, later["job"]) == [UNKNOWN, UNKNOWN, complete(later["job"])], kills
        assert host.stop() == 0


def a_note_that_was_cut_off() -> None:
    """Behind the first part of a note that could not be written stands the next one whole."""
    host = with_a_closed_term(3)
    assert host.stop() == 0
    with open(host.path("forgotten", "acme.000001.jsonl"), "a") as notes:
        notes.write('{"relea{"released":2}\n{"released":3')
    host = next_host(host)
    assert polls(host, 1, 2, 3) == [complete(1), UNKNOWN, complete(3)]
    assert host.stop() == 0


def notes_go_with_the_outcomes() -> None:
    """Of the terms whose outcomes are gone the notes go too."""
    host = Host([tenant("acme")], "--keep", 2)
    for term in range(6):
        [done] = asked(host, fib(6))
        rotate(host, term + 1)
        by_deadline(lambda: host.told("closed", tenant="acme", term=term))
        assert asked(host, {"op": "release", "job": done["job"]}) == [{"released": done["job"]}]
    assert sorted(os.listdir(host.path("forgotten"))) == [f"acme.{term:06}.jsonl" for term in (4, 5, 6)]
    assert host.stop() == 0


CHECKS = [released_of_a_closed_term, released_before_the_outcomes_are_written, retired_with_closed_terms, a_note_that_was_cut_off,
          notes_go_with_the_outcomes]

"""How a host ends, while clients do what they like."""
import os
import random
import signal
import time

from hosts import Host, Load, ask, dump_lines, dumps, fib, hang_up, is_at_end, results, rotate, tenant
from servers import PATIENCE, by_deadline

# How long a host may take at most that is stopped, in seconds: its jobs have ten, and it takes less than one by a
# machine that is idle.
SOON = 45
# How many jobs are acknowledged at least before each kill.
AT_LEAST = 3

# What a client may get from a host that ends: a reply that is right, none, the end of its connection, or that its history
# takes no new job: because it is full, or because the host was stopped just before.
ENDED = {"right", "None", "full", "FileNotFoundError", "ConnectionResetError", "BrokenPipeError", "ConnectionRefusedError"}


def stop_under_load() -> None:
    """Each client gets its answer or the end of its connection, and every tenant closes."""
    host = Host([tenant("acme", steps=1_000_000), tenant("beta", steps=1_000_000)], "--connections", 16)
    load = Load(host, 16, ("acme", "beta"))
    by_deadline(lambda: load.replies["right"] > 20)
    began = time.monotonic()
    assert host.stop() == 0
    assert time.monotonic() - began < SOON
    replies = load.end()
    assert set(replies) <= ENDED, replies
    assert set(host.closed()) == {"acme", "beta"}


def stop_while_two_terms_live() -> None:
    host = Host([tenant("acme")])
    client = host.connect()
    assert ask(client, fib(6))["value"] == 8
    rotate(host, 1)
    assert ask(client, fib(6))["value"] == 8
    assert host.stop() == 0
    assert sorted(host.closed()["acme"]) == [0, 1] and dumps(host, "acme") == [0, 1]
    assert host.told("stop") and is_at_end(client)


def signals_stop_a_host_in_order() -> None:
    """If `arena host` runs it: each job has its outcome, and every history is on the disk."""
    for number in (signal.SIGTERM, signal.SIGINT, signal.SIGHUP):
        before = signal.signal(number, signal.SIG_DFL)  # else a check that runs below nohup has its hosts ignore it
        host = Host([tenant("acme")], "--finish", 20, below=True)
        signal.signal(number, before)
        client = host.connect()
        assert ask(client, {"op": "submit", "job": fib(8)["job"]}) == {"job": 1}
        host.process.send_signal(number)
        assert host.ended() == 0
        assert host.told("stop") and host.told("closed", tenant="acme", lost=0) and dumps(host, "acme") == [0]
        assert results(host, "acme", 0) == [{"job": 1, "status": "complete", "value": 21}]
        hang_up(client)


def kills_at_drawn_moments() -> None:
    """A host that is killed leaves whole dumps alone, and the next one in its folder goes on. No number of a job comes twice,
    whatever was killed."""
    draw, seen = random.Random(2), []
    host = Host([tenant("acme", steps=600)], "--connections", 5, "--keep", 100)
    for _ in range(6):
        load = Load(host, 4)
        client = host.connect()
        until, least = time.monotonic() + draw.uniform(0.1, 0.8), len(seen) + AT_LEAST
        while time.monotonic() < until or len(seen) < least and time.monotonic() < until + PATIENCE:
            made = ask(client, {"op": "submit", "job": fib(3)["job"]})
            if "job" in made:
                seen.append(made["job"])
            elif made["error"] == "job_limit":
                ask(client, {"op": "retire"})
        host.kill()
        replies = load.end()
        assert set(replies) <= ENDED and len(seen) >= least, (replies, seen)
        for number in dumps(host, "acme"):
            dump_lines(host.path("dumps", f"acme.{number:06}.jsonl"))
        host = Host([tenant("acme", steps=600)], "--connections", 5, "--keep", 100, after=host)
    client = host.connect()
    assert ask(client, fib(5))["value"] == 5
    hang_up(client)
    assert host.stop() == 0
    assert seen == sorted(set(seen))
    assert all(not it.endswith("part") for it in os.listdir(host.path("dumps")))


def a_folder_that_takes_no_dumps() -> None:
    """The host says so, tries again for a while, and goes on."""
    host = Host([tenant("acme")])
    os.rename(host.path("dumps"), host.path("gone"))
    rotate(host, 1)
    by_deadline(lambda: len(host.told("fault", what="dump", tenant="acme", term=0)) >= 2)
    os.rename(host.path("gone"), host.path("dumps"))
    by_deadline(lambda: host.told("closed", tenant="acme", term=0))
    assert host.stop() == 0
    assert dumps(host, "acme")[-1] == 1


def stop_while_files_wait() -> None:
    """The order to stop does not wait for files that can't be written, and all terms are closed once they can."""
    host = Host([tenant("acme"), tenant("beta")])
    os.rename(host.path("dumps"), host.path("gone"))
    rotate(host, 1)
    by_deadline(lambda: host.told("fault", what="dump"))
    os.unlink(host.path("socket"))
    by_deadline(lambda: host.told("stop"))
    os.rename(host.path("gone"), host.path("dumps"))
    assert host.ended() == 0
    assert (dumps(host, "acme"), dumps(host, "beta")) == ([0, 1], [0])


CHECKS = [stop_under_load, stop_while_two_terms_live, signals_stop_a_host_in_order, kills_at_drawn_moments,
          a_folder_that_takes_no_dumps, stop_while_files_wait]

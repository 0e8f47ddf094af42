"""What a host must not lose: jobs, histories, and the turn of whoever waits for it."""
import json
import os
import pathlib
import subprocess
import tempfile
import time

from hosts import FULL, MOST_TERMS, Host, Load, ask, dumps, fib, hang_up, results, rotate, tenant
from servers import PATIENCE, SEVEN, by_deadline

ORDERS = pathlib.Path(__file__).with_name("orders.c")


# How many rounds a job that counts down makes at most, by its fuel, and how many such jobs wait at once.
MOST_ROUNDS, MOST_JOBS = 330_000, 150


def counts_down(rounds: int) -> dict:
    """A job of three instructions for each round, and some more."""
    return {"args": [rounds, 7], "fuel": 1_000_000, "procs": [[
        ["set", 2, 1], ["sub", 0, 0, 2], ["jz", 0, 4], ["jmp", 1], ["ret", 1]]]}


def one_term_for_a_full_history() -> None:
    """A history that is used so far leads to one term more, beside a tenant that nobody asks, each time."""
    host = Host([tenant("acme", steps=400), tenant("idle")], workers=1)
    for number in range(4):
        client, job = host.connect(), 0
        while job <= 400 * (number + 1):  # the jobs of the next term are numbered after that
            done = ask(client, {"op": "execute", "job": SEVEN})
            assert done["status"] == "complete"
            job = done["job"]
            time.sleep(0.003)
        hang_up(client)
        by_deadline(lambda: host.told("opened", tenant="acme", term=number + 1))
        time.sleep(0.3)  # longer than it took to open
        assert [it["term"] for it in host.told("opened", tenant="acme")] == list(range(number + 2))
    assert host.stop() == 0
    assert len(host.told("rotation", why="history")) == 4, host.events
    assert len(host.told("opened", tenant="idle")) == 1


def rounds_a_second(host: Host) -> int:
    """How many rounds of a job that counts down a host does in a second, or so."""
    rounds, client = 2_000, host.connect("quiet")
    while True:
        began = time.monotonic()
        assert ask(client, {"op": "execute", "job": counts_down(rounds)})["value"] == 7
        took = time.monotonic() - began
        if took > 0.1 or rounds == MOST_ROUNDS:
            hang_up(client)
            return int(rounds / took)
        rounds = min(3 * rounds, MOST_ROUNDS)


def submits_many(host: Host, seconds: float = 1.5) -> list[int]:
    """Jobs that take the only worker so many seconds or so, whose client has gone: their numbers. A fast machine does
    the most that there may be within less."""
    speed = rounds_a_second(host)
    rounds = min(int(seconds * speed / 12), MOST_ROUNDS)
    jobs = min(int(max(12, seconds * speed / rounds)), MOST_JOBS)
    client = host.connect("noisy")
    # All at once: where each waited for the reply to the one before, the worker could do them as they come.
    client.client.sendall((json.dumps({"op": "submit", "job": counts_down(rounds)}) + "\n").encode() * jobs)
    made = [json.loads(client.replies.readline())["job"] for _ in range(jobs)]
    hang_up(client)
    return made


def job_outlives_its_client_and_a_rotation() -> None:
    """Jobs wait for the only worker, and their client hangs up. Their term is left, and closed once all have their outcomes,
    which another client gets."""
    host = Host([tenant("noisy", steps=1_000_000, slots=2), tenant("quiet", steps=100_000, slots=2)], workers=1)
    made = submits_many(host)
    rotate(host, 1, "noisy")
    by_deadline(lambda: host.told("closed", tenant="noisy", term=0), PATIENCE)
    client = host.connect("noisy")
    for job in made:
        assert ask(client, {"op": "collect", "job": job}) == {"job": job, "status": "complete", "value": 7}
    hang_up(client)
    assert host.stop() == 0
    assert host.told("closed", tenant="noisy", term=0)[0]["lost"] == 0
    assert results(host, "noisy", 0) == [{"job": job, "status": "complete", "value": 7} for job in made]


def ordered_stop_finishes() -> None:
    """Jobs that wait for the only worker have their outcomes when the host has been stopped, and the next one in its folder
    knows them."""
    tenants = [tenant("noisy", steps=1_000_000, slots=2), tenant("quiet", steps=100_000, slots=2)]
    host = Host(tenants, "--finish", PATIENCE, workers=1)
    made = submits_many(host)
    assert host.stop() == 0
    assert host.told("closed", tenant="noisy")[0]["lost"] == 0
    host = Host(tenants, after=host)
    client = host.connect("noisy")
    for job in made:
        assert ask(client, {"op": "poll", "job": job}) == {"job": job, "status": "complete", "value": 7}
    assert ask(client, {"op": "submit", "job": SEVEN})["job"] == 1_000_001
    hang_up(client)
    assert host.stop() == 0


def lost_jobs_are_counted() -> None:
    """The only slot is reserved, so nothing runs what is submitted. A term that is left says how many jobs it lost: those that
    were not cancelled. So does one that the order to stop ends. Whoever asks for them is told that the history is full."""
    host = Host([tenant("acme", slots=1, reserved=1), tenant("beta")])
    for number in (0, 1):
        client = host.connect()
        base = 10_000 * number
        assert [ask(client, {"op": "submit", "job": SEVEN})["job"] for _ in range(3)] == [base + 1, base + 2, base + 3]
        assert ask(client, {"op": "cancel", "job": base + 2}) == {"first": True, "job": base + 2}
        if number == 0:
            rotate(host, 1)
            by_deadline(lambda: host.told("closed", tenant="acme", term=0))
            replies = [ask(client, {"op": "poll", "job": job}) for job in (1, 2, 3)]
            assert replies == [FULL, {"job": 2, "status": "canceled"}, FULL], replies
        hang_up(client)
    assert host.stop() == 0
    assert [it["lost"] for it in host.told("closed", tenant="acme")] == [2, 2]
    assert [it["lost"] for it in host.status()["closed"] if it["tenant"] == "acme"] == [2, 2]


def history_that_is_not_written_is_a_fault() -> None:
    """Without a folder for dumps the host tries for half a minute, with all tenants together. Without journals it ends with the
    status of a device that failed; with them it ends well, and the next start writes what they have."""
    names = [f"t{number}" for number in range(6)]
    hosts = {durable: Host([tenant(name) for name in names], "--durable", durable) for durable in ("off", "write")}
    for host in hosts.values():
        client = host.connect("t3")
        assert ask(client, fib(6))["value"] == 8
        hang_up(client)
        os.rename(host.path("dumps"), host.path("gone"))
    began = time.monotonic()
    for host in hosts.values():
        os.unlink(host.path("socket"))
    ends = {}
    for durable, host in hosts.items():
        ends[durable] = host.process.wait(timeout=PATIENCE), host.faults
    took = time.monotonic() - began
    for host in hosts.values():
        for reader in host.readers:
            reader.join()
    assert ends == {"off": (3, ["arena-host: device"]), "write": (0, [])}, ends
    # The time that it tries, and as long again for what a slow machine does before and after that.
    assert 25 < took < PATIENCE, f"it took {took:.1f} s"
    for host in hosts.values():
        closed = host.status()["closed"]
        assert sorted((it["tenant"], it["dumped"]) for it in closed) == [(name, False) for name in names]
        assert len(host.told("fault", what="dump")) >= 2 * len(names)
    host = Host([tenant(name) for name in names], after=hosts["write"])
    assert sorted(it["tenant"] for it in host.told("recovered")) == names
    assert [dumps(host, name) for name in names] == [[0]] * len(names)
    assert host.stop() == 0


def one_tenant_keeps_no_other_from_its_dump() -> None:
    """A folder stands where acme's dump would be. beta has its dump all the same, before acme's is given up, and acme
    once it is gone."""
    host = Host([tenant("acme"), tenant("beta")])
    os.makedirs(host.path("dumps", "acme.000000.jsonl", "full"))
    open(host.path("rotate"), "w").close()
    by_deadline(lambda: dumps(host, "beta") == [0])
    # Threads bring what is told here, and may be late.
    by_deadline(lambda: host.told("fault", what="dump", tenant="acme", term=0))
    assert not host.told("closed", tenant="acme")
    os.removedirs(host.path("dumps", "acme.000000.jsonl", "full"))
    by_deadline(lambda: host.told("closed", tenant="acme", term=0))
    assert host.stop() == 0
    assert dumps(host, "acme") == dumps(host, "beta") == [0, 1]


def terms_wait_for_their_files() -> None:
    """While no dump of a tenant can be written, it has eight terms at most; the last one goes on until its history is full,
    which the host says once. Another tenant does not notice. Then the host catches up."""
    host = Host([tenant("acme", steps=400), tenant("beta")], "--connections", 8)
    for number in range(MOST_TERMS):
        os.makedirs(host.path("dumps", f"acme.{number:06}.jsonl", "full"))
    load = Load(host, 4)
    by_deadline(lambda: host.told("waiting"), PATIENCE)
    so_far = load.replies["full"]
    by_deadline(lambda: load.replies["full"] >= so_far + 3, PATIENCE)
    beta = host.connect("beta")
    assert ask(beta, fib(6))["value"] == 8
    rotate(host, 1, "beta")
    by_deadline(lambda: host.told("closed", tenant="beta", term=0))
    hang_up(beta)
    assert [it["term"] for it in host.told("opened", tenant="acme")] == list(range(MOST_TERMS))
    [waiting] = host.told("waiting")
    assert waiting == {"time": waiting["time"], "event": "waiting", "tenant": "acme", "term": MOST_TERMS - 1, "why": "history"}
    for number in range(MOST_TERMS):
        os.removedirs(host.path("dumps", f"acme.{number:06}.jsonl", "full"))
        os.makedirs(host.path("dumps"), exist_ok=True)
    by_deadline(lambda: len(host.told("opened", tenant="acme")) > MOST_TERMS + 2, PATIENCE)
    replies = load.end()
    assert {"right", "full"} <= set(replies) <= {"right", "full", "None"}, replies
    assert host.stop() == 0
    numbers = [it["term"] for it in host.told("opened", tenant="acme")]
    assert sorted(host.closed()["acme"]) == numbers


def names_that_no_host_writes() -> None:
    """Among the dumps they are passed over: they neither keep a host from starting nor count as terms. A dump of a host that
    kept no numbers counts."""
    host = Host([tenant("acme")])
    assert host.stop() == 0
    names = [b"acme.\xff.jsonl", b"zz.18446744073709551614.jsonl", b"acme.18446744073709551615.jsonl", b"acme.+00005.jsonl",
             b"acme.7.jsonl", b"Zz.000009.jsonl", b"notes.txt"]
    for name in names:
        open(os.path.join(host.path("dumps").encode(), name), "w").close()
    with open(host.path("dumps", "beta.000003.jsonl"), "w"):
        pass
    host = Host([tenant("acme"), tenant("beta")], "--keep", 1, after=host)
    assert [it["term"] for it in host.told("opened", tenant="acme")] == [1]
    assert [it["term"] for it in host.told("opened", tenant="beta")] == [4]
    assert host.stop() == 0
    left = set(os.listdir(host.path("dumps").encode()))
    assert left == {*names, b"beta.000004.jsonl", b"acme.000001.jsonl"}, left


def dumps_have_their_names_on_the_disk() -> None:
    """Once a file has its name, its folder is brought to the disk before the next one has its own."""
    with tempfile.TemporaryDirectory() as folder:
        library, orders = os.path.join(folder, "orders.so"), os.path.join(folder, "orders")
        subprocess.run(["cc", "-shared", "-fPIC", "-o", library, ORDERS], check=True, timeout=PATIENCE)
        os.environ["ORDERS"] = orders
        host = Host([tenant("acme"), tenant("beta")], preload=library)
        assert host.stop() == 0
        with open(orders) as it:
            noted = [line.rstrip("\n") for line in it if line.startswith(("rename", "folder")) and "status.json" not in line]
    made = [it for it in noted if "/terms" not in it]
    expected = []
    for name in ("acme", "beta"):
        for folder in ("dumps", "results"):
            expected += [f"rename {host.path(folder, name)}.000000.jsonl", f"folder {os.path.realpath(host.path(folder))}"]
    assert sorted(made) == sorted(expected), noted
    for name in ("acme", "beta"):
        assert f"rename {host.path('terms', name)}" in noted, noted
    for at, order in enumerate(noted):
        assert not order.startswith("rename") or noted[at + 1].startswith("folder"), noted


CHECKS = [one_term_for_a_full_history, job_outlives_its_client_and_a_rotation, ordered_stop_finishes, lost_jobs_are_counted,
          history_that_is_not_written_is_a_fault, one_tenant_keeps_no_other_from_its_dump, terms_wait_for_their_files,
          names_that_no_host_writes, dumps_have_their_names_on_the_disk]

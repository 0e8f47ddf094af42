#!/usr/bin/env python3
"""Runs HAProxy with the configurations of examples/haproxy in front of two shards, with ten tenants and their clients.

usage: checks/haproxy/run.py, from anywhere, after `rt ci`, `make build` or `checks/build/unproved.py`. Without HAProxy, or
without a server, it says so and skips all.
"""
import concurrent.futures
import contextlib
import pathlib
import shutil
import ssl
import subprocess
import sys
import tempfile
import traceback
from collections.abc import Callable, Iterator

import shards  # first: it says where `room` is
from front import FRONT, INNER, OF_TENANT, SESSIONS, Client, Front, wait_for
from room import found
from shards import EXAMPLES, FIB, TOP, Shard, run

TENANTS = [f"tenant-{n}" for n in range(10)]
# Who is at which shard; tenant-4 is at both, to move. A slot more tells the second shard from the first.
FIRST, SECOND = TENANTS[:5], TENANTS[4:]
SLOTS = (2, 3)
ARENA = {"op": "arena"}
EXECUTE = {"op": "execute", "job": FIB}
EIGHT = {"job": 1, "status": "complete", "value": 8}


def hello(tenant: str) -> dict:
    """The first line of a client."""
    return {"op": "hello", "tenant": tenant}


def pem(front: Front, tenant: str) -> pathlib.Path:
    """A tenant's certificate."""
    path = front.folder / f"{tenant}.pem"
    return path if path.exists() else front.certificate("client", tenant)


def greeted(front: Front, tenant: str) -> Client:
    """A client whose connection is its tenant's."""
    client = front.connect(pem(front, tenant))
    assert client.ask(hello(tenant)) == [{"tenant": tenant}], tenant
    return client


def asking(front: Front, tenant: str) -> Client:
    """A client that has sent its hello and a request, both at once: who is late with the first line is cut off."""
    client = front.connect(pem(front, tenant))
    client.send(hello(tenant), ARENA)
    return client


def slots(client: Client) -> int:
    """By its slots, at which shard a client is."""
    return client.ask(ARENA)[0]["slots"]


def ten_tenants_run_their_jobs(front: Front) -> None:
    """Each tenant's job runs at its own shard."""
    for tenant in TENANTS:
        with greeted(front, tenant) as client:
            assert client.ask(EXECUTE) == [EIGHT]
            assert slots(client) == SLOTS[tenant not in FIRST]


def first_lines_that_do_not_agree_are_refused(front: Front) -> None:
    """Nothing but the hello of the certificate's tenant passes, and nothing behind another line is ever heard."""
    own, other = '{"op":"hello","tenant":"tenant-0"}', '{"op":"hello","tenant":"tenant-1"}'
    for line in (other, '{"op":"none","tenant":"tenant-0"}', '{"op":"hello","tenant":"tenant-0","tenant":"tenant-1"}',
                 '{"tenant":"tenant-0"}', "", f"{own}\r", f" {own}", f"{own} x", f"{own}\0", "\0", '{"op":"hello","tenant":""}'):
        with front.connect(pem(front, "tenant-0")) as client:
            client.send(line, other, ARENA)
            assert client.replies(3) == [], line
    for line in ('{"op": "hello", "tenant": "tenant-0"}', own):
        with front.connect(pem(front, "tenant-0")) as client:
            assert client.ask(line) == [{"tenant": "tenant-0"}]


def client_that_says_nothing_is_cut_off(front: Front) -> None:
    """Without a whole line a connection ends."""
    with front.connect(pem(front, "tenant-0")) as client:
        client.line.sendall(b'{"op":"hello","tenant":"tenant-0"}')
        assert client.is_closed()


def is_refused(connect: Callable[[], Client]) -> bool:
    """Whether a connection gets no reply to its hello, for its certificate."""
    try:
        with connect() as client:
            return client.ask(hello("tenant-0")) == []
    except (ssl.SSLError, ConnectionError):
        return True


def certificates_that_are_wrong_are_refused(front: Front) -> None:
    """No certificate, a server's, one of another authority, another tenant's."""
    strange = front.certificate("client", "tenant-0", "strange")
    for certificate in (None, front.folder / "server.pem", strange, pem(front, "tenant-1")):
        assert is_refused(lambda: front.connect(certificate)), certificate
    assert not is_refused(lambda: front.connect(pem(front, "tenant-0")))


def tenants_that_no_shard_has_are_refused(front: Front) -> None:
    """One that is not in the map, and one that its shard does not have, which may not try another hello."""
    with front.connect(pem(front, "unmapped")) as client:
        assert client.ask(hello("unmapped"), ARENA) == []
    with front.connect(pem(front, "unknown")) as client:
        assert client.ask(hello("unknown")) == [{"code": 5, "error": "unknown_tenant"}]
        assert client.is_closed()


def shard_lets_in_fronts_alone(front: Front) -> None:
    """On the machine of the second shard, a tenant's certificate does not lead to the host, and a front's does."""
    for certificate in (pem(front, "tenant-9"), front.folder / "server.pem", None):
        assert is_refused(lambda: front.connect(certificate, front.inner_port, INNER)), certificate
    with front.connect(front.folder / "front.example.org.front.pem", front.inner_port, INNER) as client:
        assert client.ask(hello("tenant-9")) == [{"tenant": "tenant-9"}]


def clients_wait_in_the_queue(front: Front) -> None:
    """More clients than a shard has sessions are held, and each is served once another has ended."""
    served = [greeted(front, TENANTS[n]) for n in range(SESSIONS)]
    held = [asking(front, "tenant-0") for _ in range(2 * SESSIONS)]
    wait_for(lambda: front.queue() == len(held), "all others are in the queue")
    for client in served:
        client.close()
    with concurrent.futures.ThreadPoolExecutor(len(held)) as pool:
        for replies in pool.map(answered_and_closed, held):
            assert replies[0] == {"tenant": "tenant-0"} and replies[1]["slots"] == SLOTS[0], replies
    wait_for(lambda: front.queue() == 0, "nobody waits")


def answered_and_closed(client: Client) -> list[dict]:
    """The two replies that a client waits for, at whose end its place is free."""
    with client:
        return client.replies(2)


def tenant_has_so_many_connections(front: Front) -> None:
    """One connection too many is refused, and one of another tenant is not."""
    clients = []
    for _ in range(OF_TENANT):
        client = front.connect(pem(front, "tenant-9"))
        client.send(hello("tenant-9"))
        clients.append(client)
    wait_for(lambda: front.metrics()['haproxy_backend_current_queue{proxy="shard2"}'] == OF_TENANT - SESSIONS, "the rest waits")
    with front.connect(pem(front, "tenant-9")) as client:
        assert client.ask(hello("tenant-9")) == []
    for client in clients[SESSIONS - 1:]:
        client.close()  # those that wait, and one that is served
    with greeted(front, "tenant-8"):
        pass
    for client in clients:
        client.close()


def shard_dies_and_comes_back(front: Front) -> None:
    """Connections end with their shard. Clients in the queue, and those that come, are held until it is back; other shards
    go on meanwhile."""
    shard = front.shards[0]
    served = [greeted(front, "tenant-1") for _ in range(SESSIONS)]
    held = [asking(front, "tenant-2")]
    wait_for(lambda: front.queue() == 1, "one is in the queue")
    shard.kill()
    for client in served:
        assert client.is_closed()
        client.close()
    held.append(asking(front, "tenant-2"))
    with greeted(front, "tenant-7") as other:
        assert slots(other) == SLOTS[1]
    assert not any(client.has_reply() for client in held)
    shard.start()
    for client in held:
        assert answered_and_closed(client) == [{"tenant": "tenant-2"}, {"priority": "normal", "reserved": 1, "slots": SLOTS[0]}]


def tenant_moves(front: Front) -> None:
    """New connections go to the new shard, those that are there stay, and the map stays so when HAProxy starts anew."""
    words = ("--map", front.folder / "shards.map", "--admin", front.folder / "admin.sock")
    with greeted(front, "tenant-4") as stays:
        assert run(EXAMPLES / "move.py", "tenant-4", "shard2", *words) == "tenant-4 is led to shard2\n"
        with greeted(front, "tenant-4") as client:
            assert (slots(client), slots(stays)) == (SLOTS[1], SLOTS[0])
    assert "no backend shard3" in run(EXAMPLES / "move.py", "tenant-3", "shard3", *words, status=1)
    front.stop()
    front.start()
    for tenant, shard in (("tenant-4", 1), ("tenant-3", 0)):
        with greeted(front, tenant) as client:
            assert slots(client) == SLOTS[shard]


def tenant_is_added(front: Front) -> None:
    """A tenant that the map did not have."""
    words = ("--map", front.folder / "shards.map", "--admin", front.folder / "admin.sock")
    text = (front.folder / "shards.map").read_text()
    run(EXAMPLES / "move.py", "unmapped", "shard1", *words)
    assert (front.folder / "shards.map").read_text() == f"{text}unmapped shard1\n"
    with front.connect(pem(front, "unmapped")) as client:
        assert client.ask(hello("unmapped")) == [{"code": 5, "error": "unknown_tenant"}]


def command_runs_a_job_through_a_tunnel(front: Front) -> None:
    """On a client's machine, the command `arena` at a socket that leads to the front."""
    path = front.folder / "tunnel"
    words = [sys.executable, EXAMPLES / "tunnel.py", f"localhost:{front.port}", path, "--certificate", pem(front, "tenant-3"),
             "--authority", front.folder / "ca.crt", "--name", FRONT]
    with subprocess.Popen([str(it) for it in words], stdout=subprocess.PIPE, text=True) as tunnel:
        try:
            assert tunnel.stdout.readline().endswith("leads to localhost\n")
            given = ("-m", "arena", "-s", path, "-t", "tenant-3", "run", TOP / "examples/jobs/fib.job", "--args", 10, 0)
            assert run(sys.executable, *given, PYTHONPATH=str(TOP / "python")) == "55\n"
        finally:
            tunnel.terminate()
    assert not path.exists()


@contextlib.contextmanager
def running(room: pathlib.Path) -> Iterator[Front]:
    """The front before two shards, all of which end with the block, however it ends."""
    pair = (Shard(room / "shard1", FIRST, SLOTS[0]), Shard(room / "shard2", SECOND, SLOTS[1]))
    front = Front(room, pair)
    front.write()
    led = {**{it: "shard1" for it in FIRST}, **{it: "shard2" for it in TENANTS if it not in FIRST}, "unknown": "shard1"}
    (room / "shards.map").write_text("".join(f"{tenant} {shard}\n" for tenant, shard in led.items()))
    try:
        for shard in pair:
            shard.start()
        front.start()
        yield front
    finally:
        front.stop()
        for shard in pair:
            if shard.process and shard.process.poll() is None:
                shard.kill()


def shards_stop_in_order(front: Front) -> None:
    """Each tenant's steps are in the history of its own shard, and the histories are right."""
    first, second = (it.stop() for it in front.shards)
    assert first.keys() == set(FIRST) and second.keys() == set(SECOND)
    assert all(second[tenant] for tenant in SECOND), second


CHECKS = (ten_tenants_run_their_jobs, first_lines_that_do_not_agree_are_refused, client_that_says_nothing_is_cut_off,
          certificates_that_are_wrong_are_refused, tenants_that_no_shard_has_are_refused, shard_lets_in_fronts_alone,
          clients_wait_in_the_queue, tenant_has_so_many_connections, shard_dies_and_comes_back, tenant_moves, tenant_is_added,
          command_runs_a_job_through_a_tunnel, shards_stop_in_order)


def passed(check: Callable[[Front], None], front: Front) -> bool:
    """Runs a check, and says what went wrong."""
    try:
        check(front)
        return True
    except Exception:
        print(f"{check.__name__.replace('_', ' ')}: failed\n{traceback.format_exc()}", flush=True)
        return False


def main() -> int:
    """Runs the checks one after another, with the same front and shards. Returns how many failed."""
    lacking = [] if shutil.which("haproxy") else ["HAProxy is not installed"]
    lacking += [] if shards.program() and found("arena-script") else ["arena-server or arena-script is not built"]
    lacking += [] if shutil.which("openssl") else ["openssl is not installed"]
    if lacking:
        print(f"{', '.join(lacking)}: checks of HAProxy are skipped")
        return 0
    with tempfile.TemporaryDirectory(prefix="arena-front-") as folder, running(pathlib.Path(folder)) as front:
        ends = [passed(check, front) for check in CHECKS]
    print(f"{ends.count(True)} checks of HAProxy before two shards of {shards.program()} passed, {ends.count(False)} failed")
    return ends.count(False)


if __name__ == "__main__":
    sys.exit(bool(main()))

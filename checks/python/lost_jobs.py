#!/usr/bin/env python3
"""Lets both clients come back to a server which has another generation by then, and ask for their jobs.

usage: checks/python/lost_jobs.py, at the top of the repository. It needs no built program: the server is one in Python
that answers by docs/PROTOCOL.md and docs/HOST.md.
"""
import asyncio
import json
import os
import socketserver
import sys
import tempfile
import threading

sys.path.insert(0, os.path.abspath("python"))

from serving import PATIENCE, SEVEN

import arena
import arena.aio


class Generation:
    """The jobs of a tenant: each is complete at once. A job may be said to run, so that `retire` is refused."""

    def __init__(self):
        self.last, self.jobs, self.busy = 0, set(), False

    def make(self):
        """Makes a job, and returns its number."""
        self.last += 1
        self.jobs.add(self.last)
        return self.last

    def answer(self, op, job):
        """The reply to a request."""
        if op in ("poll", "collect", "cancel") and job not in self.jobs:
            return {"code": 6, "error": "unknown_job"}
        if op == "retire" and self.busy:
            return {"code": 12, "error": "busy"}
        if op == "retire":
            self.jobs.clear()
        status = {"job": self.make() if op in ("submit", "execute") else job, "status": "complete", "value": 7}
        return {"cancel": {"first": False, "job": job}, "retire": {"epoch": 1}, "submit": {"job": status["job"]}}.get(
            op, status)


class Session(socketserver.StreamRequestHandler):
    """A connection, which belongs to the server that serves when it begins."""

    def handle(self):
        mine, tenant = self.server.serving, None
        for line in self.rfile:
            request = json.loads(line)
            if request["op"] == "hello":
                tenant = request["tenant"]
                reply = {"tenant": tenant}
            elif tenant is None:
                reply = {"code": 11, "error": "no_tenant"}
            else:
                reply = mine.answer(request["op"], request.get("job"))
            self.wfile.write(json.dumps(reply).encode() + b"\n")


class FakeServer(socketserver.ThreadingUnixStreamServer):
    """A server in a folder of its own."""

    daemon_threads, block_on_close = True, False

    def __init__(self):
        self.folder, self.serving = tempfile.TemporaryDirectory(), Generation()
        self.path = os.path.join(self.folder.name, "socket")
        super().__init__(self.path, Session)
        threading.Thread(target=self.serve_forever, args=(0.01,)).start()

    def __exit__(self, *_):
        self.shutdown()
        self.server_close()
        self.folder.cleanup()

    def rotate(self):
        """Lets the next generation serve."""
        self.serving = Generation()


def raises(kind, call, *words):
    """The exception of just this kind, which a call must raise."""
    try:
        found = call(*words)
    except arena.ArenaError as fault:
        assert type(fault) is kind, repr(fault)
        return fault
    raise AssertionError(f"{call} returned {found}")


def jobs_of_another_generation_are_lost():
    with FakeServer() as server, arena.Client(server.path, "acme", timeout=PATIENCE) as client:
        raises(arena.UnknownJob, client.poll, 1)
        assert client.submit(SEVEN) == 1 and client.execute(SEVEN) == arena.Complete(7, 2)
        raises(arena.UnknownJob, client.poll, 3)
        client.reconnect()  # to the same generation
        assert client.poll(1) == arena.Complete(7, 1) and client.collect(2) == arena.Complete(7, 2)
        server.rotate()
        assert client.poll(1) == arena.Complete(7, 1)
        client.reconnect()
        for call in (client.poll, client.collect, client.cancel):
            for number in (1, 2):
                raises(arena.LostJob, call, number)
            raises(arena.UnknownJob, call, 3)
        fault = raises(arena.LostJob, client.poll, 1)
        assert isinstance(fault, arena.UnknownJob) and (fault.code, fault.name) == (6, "unknown_job")
        assert str(fault).startswith("poll 1: error 6, unknown_job: this client made the job on a connection that has "
                                     "ended"), fault


def numbers_that_are_made_again_are_not_lost():
    with FakeServer() as server, arena.Client(server.path, "acme", timeout=PATIENCE) as client:
        assert [client.submit(SEVEN) for _ in range(3)] == [1, 2, 3]
        server.rotate()
        client.reconnect()
        assert client.submit(SEVEN) == 1 and client.poll(1) == arena.Complete(7, 1)
        with arena.Client(server.path, "acme", timeout=PATIENCE) as other:
            raises(arena.UnknownJob, other.poll, 3)
            other.retire()
        raises(arena.UnknownJob, client.poll, 1)  # made on the connection that it has, and retired
        raises(arena.LostJob, client.poll, 2)
        server.serving.busy = True
        raises(arena.Busy, client.retire)
        raises(arena.LostJob, client.poll, 2)
        server.serving.busy = False
        client.retire()
        raises(arena.UnknownJob, client.poll, 2)  # it forgot all jobs itself
        client.reconnect()
        raises(arena.UnknownJob, client.poll, 1)


def pipelines_know_lost_jobs():
    with FakeServer() as server, arena.Client(server.path, "acme", timeout=PATIENCE) as client:
        with client.pipeline() as line:
            made = line.submit(SEVEN), line.execute(SEVEN)
            raises(arena.ArenaError, made[0].result)
        server.rotate()
        client.reconnect()
        assert [it.result() for it in made] == [1, arena.Complete(7, 2)]
        with client.pipeline(raises=False) as line:
            asked = [line.poll(1), line.collect(2), line.poll(3)]
        for kind, it in zip((arena.LostJob, arena.LostJob, arena.UnknownJob), asked):
            raises(kind, it.result)
            raises(kind, it.result)
        line = client.pipeline()
        line.poll(1)
        raises(arena.LostJob, line.__exit__, None, None, None)


def lost_jobs_outlast_a_server_that_is_away():
    with FakeServer() as server:
        client = arena.Client(server.path, "acme", timeout=PATIENCE)
        assert client.submit(SEVEN) == 1
        path = client.path
    for _ in range(2):
        raises(arena.ConnectionLost, client.reconnect)
        raises(arena.ConnectionLost, client.poll, 1)
    with FakeServer() as server:
        client.path = server.path
        client.reconnect()
        assert client.path != path and client.tenant == "acme"
        raises(arena.LostJob, client.poll, 1)
        client.close()


async def raises_in(kind, call):
    """An awaited call must raise an exception of just this kind."""
    try:
        found = await call
    except arena.ArenaError as fault:
        assert type(fault) is kind, repr(fault)
        return
    raise AssertionError(f"returned {found}")


async def other_client_knows_lost_jobs():
    with FakeServer() as server:
        async with arena.aio.Client(server.path, "acme", timeout=PATIENCE) as client:
            assert await asyncio.gather(*(client.submit(SEVEN) for _ in range(3))) == [1, 2, 3]
            assert await client.execute(SEVEN) == arena.Complete(7, 4)
            server.rotate()
            assert await client.poll(1) == arena.Complete(7, 1)
            await client.reconnect()
            for number in (1, 4):
                await raises_in(arena.LostJob, client.poll(number))
            await raises_in(arena.UnknownJob, client.collect(5))
            assert await client.submit(SEVEN) == 1 and await client.collect(1) == arena.Complete(7, 1)
            await raises_in(arena.LostJob, client.cancel(2))
            await client.retire()
            await raises_in(arena.UnknownJob, client.poll(2))
            await replies_of_the_last_connection(client)
        await raises_in(arena.ConnectionLost, client.poll(1))


async def replies_of_the_last_connection(client):
    """A job whose number comes just before the connection ends was made on that connection."""
    made = asyncio.create_task(client.submit(SEVEN))
    while not client._waiting:
        await asyncio.sleep(0)
    client._waiting[0].reply.set_result(b'{"job":9}\n')  # the task takes it after this turn; the server's own reply is dropped
    client._jobs.connection += 1
    assert await made == 9
    await raises_in(arena.LostJob, client.poll(9))


CHECKS = [jobs_of_another_generation_are_lost, numbers_that_are_made_again_are_not_lost, pipelines_know_lost_jobs,
          lost_jobs_outlast_a_server_that_is_away, lambda: asyncio.run(other_client_knows_lost_jobs())]

for check in CHECKS:
    check()
print(f"{len(CHECKS)} checks of lost jobs passed")

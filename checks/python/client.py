#!/usr/bin/env python3
"""Makes every call of both clients once against the server as it was built, and meets every error.

usage: checks/python/client.py, at the top of the repository.
"""
import asyncio
import contextlib
import io
import os
import re
import socket
import sys
import tempfile
import threading

sys.path.insert(0, os.path.abspath("python"))

from serving import DIVIDES, FIB, INVALID, PATIENCE, SEVEN, SPIN, Server, job, tenant

import arena
import arena.aio
import arena.language
from arena import requests
from arena.replies import REFUSALS

# Its root stores 5 in a cell of key 3.
STORES = job([["set", 2, 5], ["store", 3, 2], ["ret", 2]])
# Spawns a row, so it needs two open rows.
SPAWNS = job([["spawn", 0, 1, 0, 1], ["wait", 2, 3, 0], ["ret", 2]], [["ret", 0]])


def raises(kind, call, *words):
    """The exception of a kind, which a call must raise."""
    try:
        call(*words)
    except kind as fault:
        assert type(fault) is kind, fault
        return fault
    raise AssertionError(f"{call} did not raise {kind.__name__}")


def each_call_is_answered():
    with Server(tenant(slots=2, reserved=1)) as server, arena.Client(server.path, "acme", timeout=PATIENCE) as client:
        assert client.tenant == "acme"
        assert client.arena() == arena.Limits(slots=2, reserved=1, priority="normal")
        assert client.execute(SEVEN) == arena.Complete(7, 1)
        assert client.submit(FIB) == 2
        assert client.collect(2) == client.poll(2) == arena.Complete(8, 2)
        assert client.execute(DIVIDES) == arena.Fault(arena.FaultCode.DIVISION, 3)
        assert client.poll(3).name == "division by zero"
        assert client.execute(SPIN) == arena.Fault(arena.FaultCode.FUEL, 4)
        assert client.cancel(2) is False
        assert client.execute(STORES) == arena.Complete(5, 5)
        assert client.cells(3) == arena.Cells(key=3, count=1, sum=5)
        assert client.retire() == 1
        assert client.cells(3) == arena.Cells(key=3, count=0, sum=0)


def jobs_come_in_each_form():
    class WithValue:
        def to_value(self):
            return SEVEN

    class Compiled:
        job = WithValue()

    for it in (SEVEN, WithValue(), Compiled()):
        assert requests.submit(it).line == (
            b'{"job":{"args":[7,0],"fuel":10,"procs":[[["ret",0]]]},"op":"submit"}\n'), requests.submit(it).line
    assert requests.hello("acme").line == b'{"op":"hello","tenant":"acme"}\n'
    assert requests.cells(7).line == b'{"key":7,"op":"cells"}\n'
    assert requests.poll(2**64 - 1).line == b'{"job":18446744073709551615,"op":"poll"}\n'
    assert requests.limits().line == b'{"op":"arena"}\n' and requests.retire().line == b'{"op":"retire"}\n'


def source_is_compiled_and_run():
    source = "param N = 3\nfn main(x, y) {\n    return x * y + N\n}\n"
    with Server(tenant(slots=1, reserved=1)) as server, arena.Client(server.path, "acme") as client:
        assert client.execute(client.compile(source, args=(5, 7))) == arena.Complete(38, 1)
        assert client.execute(client.compile(source, args=(5, 7), parameters={"N": -35}, fuel=100)) == arena.Complete(0,
                                                                                                                      2)
        fault = raises(arena.language.SourceFault, lambda: client.compile("fn main(x) {\n    return z\n}\n",
                                                                          file="a.job"))
        assert str(fault).startswith("a.job:2:12: "), fault
    assert arena.aio.Client("/nowhere").compile(source).job.to_value()["args"] == [0, 0]


def waiting_job_is_running_and_canceled():
    """All slots are reserved, so a submitted job waits until it is cancelled."""
    with Server(tenant(slots=1, reserved=1)) as server, arena.Client(server.path, "acme") as client:
        assert client.submit(SEVEN) == 1
        assert client.poll(1) == arena.Running(1)
        fault = raises(arena.Busy, client.retire)
        assert (fault.code, fault.name) == (12, "busy") and "cancel" in str(fault)
        assert client.cancel(1) is True and client.cancel(1) is False
        assert client.collect(1) == arena.Canceled(1)


def each_refusal_is_an_exception_of_its_name():
    assert {kind.code: kind.name for kind in REFUSALS.values()} == {
        1: "line_too_long", 2: "bad_json", 3: "bad_request", 4: "bad_program", 5: "unknown_tenant", 6: "unknown_job",
        7: "job_limit", 8: "history_full", 9: "no_memory", 10: "task_limit", 11: "no_tenant", 12: "busy",
        13: "connection_limit"}
    limited = [tenant(slots=1, reserved=1), tenant("short", steps=1), tenant("narrow", slots=1, reserved=1, rows=1)]
    with Server(*limited) as server, arena.Client(server.path, timeout=PATIENCE) as client:
        raises(arena.NoTenant, client.poll, 1)
        raises(arena.UnknownTenant, client.hello, "nobody")
        raises(arena.UnknownTenant, arena.Client, server.path, "nobody")
        assert client.hello("acme") == "acme"
        raises(arena.BadRequest, client.hello, "acme")
        raises(arena.BadRequest, client.cells, 8)
        raises(arena.BadProgram, client.execute, INVALID)
        raises(arena.LineTooLong, client.submit, job(*[[["spawn", 0, 0, 0, 1]] * 255 + [["ret", 0]]] * 16))
        raises(arena.BadJson, requests.limits().value, client.exchange(b'{"op":'))
        raises(arena.UnknownJob, client.collect, 9)
        with client.pipeline() as many:
            numbers = [many.submit(SEVEN) for _ in range(200)]
        assert [it.result() for it in numbers] == list(range(1, 201))
        raises(arena.TaskLimit, client.submit, SEVEN)
        for number in range(1, 201):
            client.cancel(number)
        for _ in range(56):
            client.execute(SEVEN)
        raises(arena.JobLimit, client.submit, SEVEN)
        with arena.Client(server.path, "short") as other:
            other.arena()
            assert "steps" in str(raises(arena.HistoryFull, other.arena))
        with arena.Client(server.path, "narrow") as other:
            assert other.execute(SPAWNS) == arena.Fault(arena.FaultCode.TASK_LIMIT, 1)


def pipeline_is_answered_in_order():
    with Server(tenant(slots=2, reserved=1)) as server, arena.Client(server.path, "acme", timeout=PATIENCE) as client:
        with client.pipeline() as line:
            pending = [line.arena() for _ in range(600)]
            last = [line.execute(SEVEN), line.submit(FIB), line.collect(2), line.poll(1), line.cancel(1), line.cells(0),
                    line.retire()]
            raises(arena.ArenaError, last[0].result)
        assert {it.result() for it in pending} == {arena.Limits(2, 1, "normal")}
        assert [it.result() for it in last] == [arena.Complete(7, 1), 2, arena.Complete(8, 2), arena.Complete(7, 1),
                                                False,
                                                arena.Cells(0, 0, 0), 1]
        line = client.pipeline()
        line.poll(99)
        later = line.submit(SEVEN)
        raises(arena.UnknownJob, line.__exit__, None, None, None)
        assert later.result() == 3
        with client.pipeline(raises=False) as line:
            wrong = line.poll(99)
        raises(arena.UnknownJob, wrong.result)


def late_replies_are_thrown_away():
    with Server(tenant(slots=1, reserved=1)) as server, arena.Client(server.path, "acme") as client:
        client.submit(SEVEN)
        fault = raises(arena.TimedOut, lambda: client.collect(1, timeout=0.01))
        assert isinstance(fault, TimeoutError) and "collect 1" in str(fault)
        with arena.Client(server.path, "acme") as other:
            assert other.cancel(1)
        assert client.cells(0) == arena.Cells(0, 0, 0)
        assert client.poll(1) == arena.Canceled(1)


def answered_by(reply):
    """The path of a server in a folder of the caller's that answers the first line it gets with these bytes and goes
    away."""
    folder = contextlib.ExitStack()
    path = os.path.join(folder.enter_context(tempfile.TemporaryDirectory()), "socket")
    listener = socket.socket(socket.AF_UNIX)
    listener.bind(path)
    listener.listen()

    def serve():
        with listener, listener.accept()[0] as client:
            client.recv(65536)
            client.sendall(reply)

    thread = threading.Thread(target=serve)
    thread.start()
    folder.callback(thread.join)
    return path, folder


def other_servers_are_told_from_ours():
    for reply, kind in ((b"", arena.ConnectionLost), (b'{"tenant":"ac', arena.ConnectionLost),
                        (b"HTTP/1.1 400\n", arena.StrangeReply),
                        (b'{"jobs":1}\n', arena.StrangeReply), (b"[]\n", arena.StrangeReply),
                        (b'{"code":13,"error":"x"}\n', arena.StrangeReply),
                        (b'{"code":9,"error":"no_memory"}\n', arena.NoMemory)):
        path, folder = answered_by(reply)
        with folder:
            raises(kind, arena.Client, path, "acme")
    fault = raises(arena.ConnectionLost, arena.Client, "/nowhere/socket", "acme")
    assert "/nowhere/socket" in str(fault) and "arena-server" in str(fault)


async def each_call_of_the_other_client():
    with Server(tenant(slots=3, reserved=1), tenant("still", slots=1, reserved=1)) as server:
        async with arena.aio.Client(server.path, "acme", timeout=PATIENCE) as client:
            assert await client.arena() == arena.Limits(slots=3, reserved=1, priority="normal")
            assert await client.execute(SEVEN) == arena.Complete(7, 1)
            numbers = await asyncio.gather(*(client.submit(FIB) for _ in range(20)))
            assert numbers == list(range(2, 22))
            assert await asyncio.gather(*map(client.collect, numbers)) == [arena.Complete(8, it) for it in numbers]
            assert await client.poll(21) == arena.Complete(8, 21) and await client.cancel(21) is False
            assert await client.execute(STORES) == arena.Complete(5, 22)
            assert await client.cells(3) == arena.Cells(3, 1, 5)
            await raises_in(arena.UnknownJob, client.poll(99))
            await raises_in(arena.BadRequest, client.hello("acme"))
            assert await client.retire() == 1
        await raises_in(arena.ConnectionLost, client.arena())
        await waits_are_given_up(server)
    await raises_in(arena.ConnectionLost, arena.aio.Client(server.path, "acme").connect())
    await raises_in(arena.ConnectionLost, arena.aio.Client(server.path, "acme").arena())


async def waits_are_given_up(server):
    """A call that times out, and one whose task is cancelled, leave the connection as it was."""
    async with arena.aio.Client(server.path, "still") as client, arena.aio.Client(server.path, "still") as other:
        await client.submit(SEVEN)
        await raises_in(arena.TimedOut, client.collect(1, timeout=0.01))
        waits = asyncio.create_task(client.collect(1))
        later = asyncio.create_task(client.cells(0))
        await other.arena()
        waits.cancel()
        assert await other.cancel(1)
        assert await later == arena.Cells(0, 0, 0) and waits.cancelled()
        assert await client.poll(1) == arena.Canceled(1)
    await raises_in(arena.UnknownTenant, arena.aio.Client(server.path, "nobody").connect())


async def raises_in(kind, call):
    """An awaited call must raise an exception of a kind."""
    try:
        await call
    except kind:
        return
    raise AssertionError(f"no {kind.__name__}")


def pages_show_lines_that_run():
    """Each python block of the pages prints the text block after it, with a server at the page's socket."""
    blocks = []
    for page, fewest in (("docs/CLIENT.md", 5), ("docs/POOL.md", 1)):
        with open(page) as it:
            found = re.findall(r"```python\n(.*?)```\n+```text\n(.*?)```", it.read(), re.S)
        assert len(found) >= fewest, page
        blocks += found
    assert sum(bool(line.strip()) for line in blocks[0][0].splitlines()) <= 10
    for code, wanted in blocks:
        with Server(tenant(slots=3, reserved=1)) as server:
            printed = io.StringIO()
            with contextlib.redirect_stdout(printed):
                exec(code.replace("/tmp/arena.sock", server.path), {"__name__": "__main__"})
            assert printed.getvalue() == wanted, (code, printed.getvalue())


CHECKS = [each_call_is_answered, jobs_come_in_each_form, source_is_compiled_and_run,
          waiting_job_is_running_and_canceled,
          each_refusal_is_an_exception_of_its_name, pipeline_is_answered_in_order, late_replies_are_thrown_away,
          other_servers_are_told_from_ours, lambda: asyncio.run(each_call_of_the_other_client()),
          pages_show_lines_that_run]

for check in CHECKS:
    check()
print(f"{len(CHECKS)} checks of the clients passed")

#!/usr/bin/env python3
"""Cancels calls of the asyncio client, closes it beside a server that reads nothing, and lets its replies come late: each wait ends,
and nothing is left open.

usage: checks/python/awaited_calls.py, at the top of the repository. It needs no built program: the server is one in Python
that answers by docs/PROTOCOL.md, or wrongly.
"""
import asyncio
import threading
import time

import paths  # where the package is
from answering import answering
from conversing import LATER, PATIENCE, SOON, depth, raises_in, run_checks
from serving import SEVEN

import arena
import arena.aio


async def closing_takes_no_longer_than_the_time_limit():
    def reads_nothing(it):
        it.hello()
        done.wait(PATIENCE)

    done = threading.Event()
    with answering(reads_nothing) as path:
        client = arena.aio.Client(path, "acme")
        await client.connect()
        client.timeout = LATER
        await raises_in(arena.TimedOut, client.submit({"args": [0, 0], "fuel": 10, "procs": [[["ret", 0]] * 90_000]}))
        begun = time.monotonic()
        await client.close()
        assert time.monotonic() - begun < PATIENCE / 2
        await raises_in(arena.ConnectionLost, client.retire())
        done.set()


async def a_connect_that_is_cancelled_leaves_nothing():
    def says_nothing(it):
        it.next()
        assert it.next() == b""  # the client has gone
        ended.append(True)

    ended = []
    with answering(says_nothing, says_nothing) as path:
        client = arena.aio.Client(path, "acme")
        await raises_in(TimeoutError, asyncio.wait_for(client.connect(), SOON))
        await raises_in(arena.TimedOut, arena.aio.Client(path, "acme", timeout=SOON).connect())
        begun = time.monotonic()
        while (len(ended) < 2 or len(asyncio.all_tasks()) > 1) and time.monotonic() < begun + PATIENCE:
            await asyncio.sleep(SOON)
        assert ended == [True, True] and len(asyncio.all_tasks()) == 1, asyncio.all_tasks()


async def each_exception_is_a_new_one():
    with answering(lambda it: it.hello()) as path:
        async with arena.aio.Client(path, "acme") as client:
            faults = [await raises_in(arena.ConnectionLost, client.retire()) for _ in range(100)]
    assert len(set(map(id, faults))) == 100
    lengths = {depth(it.__traceback__) for it in faults[1:]}
    assert max(lengths) < 10, lengths


async def a_second_connect_is_refused():
    def session(it):
        it.hello()
        it.next()
        it.answer('{"epoch":1}')
        it.next()

    with answering(session, session) as path:
        async with arena.aio.Client(path, "acme") as client:
            await raises_in(arena.InUse, client.connect())
            assert await client.retire() == 1
        await client.connect()
        assert await client.retire() == 1
        await client.close()


async def late_numbers_are_kept():
    def session(it):
        it.hello()
        it.next()
        it.next()
        may.wait(PATIENCE)
        it.answer('{"job":8}', '{"job":9}')
        it.next()
        it.answer('{"epoch":1}')

    may = threading.Event()
    with answering(session) as path:
        async with arena.aio.Client(path, "acme") as client:
            client.timeout = SOON
            asked = asyncio.create_task(client.submit(SEVEN))
            await raises_in(arena.TimedOut, client.submit(SEVEN))
            await raises_in(arena.TimedOut, asked)
            client.timeout = PATIENCE
            may.set()
            assert await client.retire() == 1 and client.late_jobs == [8, 9]


CHECKS = (closing_takes_no_longer_than_the_time_limit, a_connect_that_is_cancelled_leaves_nothing,
          each_exception_is_a_new_one, a_second_connect_is_refused, late_numbers_are_kept)

if __name__ == "__main__":
    run_checks("awaited calls", (), CHECKS)

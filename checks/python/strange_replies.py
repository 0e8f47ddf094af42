#!/usr/bin/env python3
"""Gives both clients replies to something else, without an end or with a wrong shape, and servers that take no connection: each
is told of by its own exception.

usage: checks/python/strange_replies.py, at the top of the repository. It needs no built program: the server is one in Python
that answers by docs/PROTOCOL.md, or wrongly.
"""
import asyncio
import threading

import paths  # where the package is
from answering import answering
from conversing import PATIENCE, SOON, depth, raises, raises_in, run_checks
from serving import INVALID, SEVEN

import arena
import arena.aio

# Replies that are none to their requests.
STRANGE = {
    "submit": ('{"job":"x"}', '{"job":null}', '{"job":1.5}', '{"job":true}', '{"job":0}', '{"job":[1]}', '{"jobs":1}',
               '{"job":18446744073709551616}', '{"job":1,"status":"running"}'),
    "poll": ('{"job":9,"status":"complete","value":5}', '{"job":1,"status":"complete","value":1e999}',
             '{"job":1,"status":"complete","value":9223372036854775808}', '{"job":1,"status":"complete","value":true}',
             '{"job":1,"status":"fault","fault":9}', '{"job":1,"status":"fault","fault":"1"}', '{"job":1}',
             '{"job":{},"status":"running"}', '{"job":1,"status":[]}', '{"job":1,"status":"canceled","value":5}',
             "[" * 5000 + "]" * 5000, "1" * 5000, '"status"', "null", '{"code":6,"error":"busy"}', '{"code":[],"error":"x"}'),
    "collect": ('{"job":1,"status":"running"}', '{"job":2,"status":"canceled"}'),
    "execute": ('{"job":1,"status":"running"}', '{"job":-1,"status":"canceled"}'),
    "cancel": ('{"first":"no","job":1}', '{"first":1,"job":1}', '{"first":true,"job":2}', '{"first":true}'),
    "cells": ('{"count":0,"key":4,"sum":0}', '{"count":-1,"key":3,"sum":0}', '{"count":0,"key":3,"sum":0.0}'),
    "arena": ('{"priority":"urgent","reserved":1,"slots":2}', '{"priority":"low","reserved":3,"slots":2}'),
    "retire": ('{"epoch":"1"}', '{"epoch":-1}'),
}
WORDS = {"submit": (SEVEN,), "execute": (SEVEN,), "poll": (1,), "collect": (1,), "cancel": (1,), "cells": (3,)}


def each_reply_is_compared_with_what_was_asked():
    for op, replies in STRANGE.items():
        for reply in replies:
            def session(it, reply=reply):
                it.hello()
                it.next()
                it.answer(reply, '{"epoch":1}')

            with answering(session, session) as path:
                with arena.Client(path, "acme") as client:
                    raises(arena.StrangeReply, getattr(client, op), *WORDS.get(op, ()))
                    raises(arena.ConnectionLost, client.retire)
                asyncio.run(strange_in_the_other_client(path, op))
    with answering(lambda it: (it.next(), it.answer('{"tenant":"other"}'))) as path:
        raises(arena.StrangeReply, arena.Client, path, "acme")


async def strange_in_the_other_client(path, op):
    async with arena.aio.Client(path, "acme") as client:
        await raises_in(arena.StrangeReply, getattr(client, op)(*WORDS.get(op, ())))
        await raises_in(arena.ConnectionLost, client.retire())


def a_reply_without_end_is_none():
    def session(it):
        it.hello()
        it.next()
        while True:
            it.socket.sendall(b"x" * 10_000)

    with answering(session, session) as path:
        with arena.Client(path, "acme", timeout=PATIENCE) as client:
            raises(arena.StrangeReply, client.retire)
            raises(arena.ConnectionLost, client.retire)
        asyncio.run(without_end(path))


async def without_end(path):
    async with arena.aio.Client(path, "acme", timeout=PATIENCE) as client:
        await raises_in(arena.ConnectionLost, client.retire())


def a_path_may_be_too_long():
    path = "/tmp/" + "x" * 120
    text = str(raises(arena.ConnectionLost, arena.Client, path, "acme"))
    assert "107" in text and "125" in text and "running there" not in text, text


def a_server_that_takes_no_connection_is_told_of():
    done = threading.Event()
    with answering(lambda it: done.wait(PATIENCE)) as path:
        text = str(raises(arena.TimedOut, lambda: arena.Client(path, "acme", timeout=SOON)))
        done.set()
    assert text == f"{path}: no reply to hello within {SOON} s; the server may have as many connections as it serves at a time"


def a_wrong_job_has_its_place():
    def session(it):
        it.hello()
        for _ in range(2):
            it.next()
            it.answer('{"code":4,"error":"bad_program"}')

    with answering(session) as path, arena.Client(path, "acme") as client:
        fault = raises(arena.BadProgram, client.submit, INVALID)
        assert fault.place.startswith("procs[0][0]: ") and fault.place in str(fault) and "error 4" in str(fault)
        fault = raises(arena.BadProgram, client.execute, SEVEN)  # which the server of this check refuses
        assert fault.place == "" and "arena lint" in str(fault)


def the_pipelines_exceptions_do_not_grow():
    def session(it):
        it.hello()
        it.next()
        it.answer('{"code":6,"error":"unknown_job"}')

    with answering(session) as path, arena.Client(path, "acme") as client:
        with client.pipeline(raises=False) as line:
            asked = line.poll(1)
        assert max(depth(raises(arena.UnknownJob, asked.result).__traceback__) for _ in range(100)) < 10


CHECKS = (each_reply_is_compared_with_what_was_asked, a_reply_without_end_is_none, a_path_may_be_too_long,
          a_server_that_takes_no_connection_is_told_of, a_wrong_job_has_its_place, the_pipelines_exceptions_do_not_grow)

if __name__ == "__main__":
    run_checks("strange replies", CHECKS)

#!/usr/bin/env python3
"""Interrupts calls of the client, and lets their replies come late or never: no request gets the reply to another one, and each
wait ends.

usage: checks/python/interrupts.py, at the top of the repository. It needs no built program: the server is one in Python
that answers by docs/PROTOCOL.md, or wrongly.
"""
import contextlib
import socket
import threading
import time

import paths  # where the package is
from answering import answering
from conversing import COMPLETE, LATER, PATIENCE, SOON, Alarm, Late, alarm, raises, run_checks
from serving import SEVEN

import arena


def an_interrupted_call_leaves_its_reply_to_nobody():
    for kind in (Alarm, KeyboardInterrupt, TimeoutError):
        server = Late()
        with answering(server) as path, arena.Client(path, "acme") as client:
            try:
                with alarm(kind):
                    client.collect(1)
                raise AssertionError("not interrupted")
            except kind as fault:
                assert type(fault) is kind, fault  # and not a TimedOut, which is a TimeoutError too
            assert client.late == 1
            server.may.set()
            assert client.poll(2) == arena.Complete(200, 2) and client.late == 0
            assert client.poll(3) == arena.Complete(300, 3)


def an_interrupted_pipeline_leaves_its_replies_to_nobody():
    server = Late(late=3)
    with answering(server) as path, arena.Client(path, "acme") as client:
        line = client.pipeline()
        asked = [line.poll(number) for number in (1, 2, 3)]
        with contextlib.suppress(Alarm), alarm():
            line.__exit__(None, None, None)
            raise AssertionError("not interrupted")
        server.may.set()
        assert asked[0].result() == arena.Complete(100, 1) and client.late == 2
        assert "the pipeline ended before its reply" in str(raises(arena.ArenaError, asked[1].result))
        assert client.poll(4) == arena.Complete(400, 4)


def signals_at_any_moment_mix_nothing_up():
    """Time limits at drawn moments: each answer that comes is that to its own request. A limit is longer after one that
    was too short, and shorter after an answer, so that both come about however fast the machine is."""
    def session(it):
        it.hello()
        while line := it.next():
            number = int(line.split(b":")[1].split(b",")[0])
            it.answer(COMPLETE.format(number))

    answered, interrupted, limit = 0, 0, 0.0002
    with answering(*[session] * 100_000) as path:
        client = arena.Client(path, "acme")
        number, begun = 0, time.monotonic()
        while time.monotonic() < begun + 2 or (min(answered, interrupted) < 20 and time.monotonic() < begun + PATIENCE):
            number += 1
            try:
                with alarm(after=0.00002 + number % 97 / 48 * limit):
                    found = client.poll(number)
                assert found == arena.Complete(number * 100, number), (number, found)
                answered, limit = answered + 1, limit * 0.97
            except Alarm:
                interrupted, limit = interrupted + 1, min(limit * 1.03, SOON)
            except (arena.ConnectionLost, arena.InUse):
                client.close()
                client = arena.Client(path, "acme")
        client.close()
    assert min(answered, interrupted) >= 20, (answered, interrupted)


def a_client_is_for_one_thread_at_a_time():
    server = Late(interrupts=False)
    with answering(server) as path, arena.Client(path, "acme") as client:
        found = []
        thread = threading.Thread(target=lambda: found.append(client.poll(1)))
        thread.start()
        server.asked.wait(PATIENCE)
        for call in (client.poll, client.collect, client.cancel):
            raises(arena.InUse, call, 2)
        raises(arena.InUse, client.reconnect)
        line = client.pipeline()
        line.poll(2)
        raises(arena.InUse, line.__exit__, None, None, None)
        server.may.set()
        thread.join()
        assert found == [arena.Complete(100, 1)] and client.poll(2) == arena.Complete(200, 2)


def one_time_limit_covers_connecting_and_sending():
    def reads_nothing(it):
        it.hello()
        done.wait(PATIENCE)

    done = threading.Event()
    large = {"args": [0, 0], "fuel": 10, "procs": [[["ret", 0]] * 40_000]}
    with answering(reads_nothing, reads_nothing) as path:
        with arena.Client(path, "acme", timeout=LATER) as client:
            begun = time.monotonic()
            fault = raises(arena.TimedOut, client.submit, large)
            assert time.monotonic() - begun < PATIENCE / 2 and "in part" in str(fault), fault
            raises(arena.ConnectionLost, client.poll, 1)  # what follows half a line would be a part of it
        done.set()
    with answering(backlog=0) as path:
        taken = [socket.socket(socket.AF_UNIX) for _ in range(4)]
        with contextlib.suppress(OSError):
            for it in taken:
                it.setblocking(False)
                it.connect(path)
        begun = time.monotonic()
        raises(arena.TimedOut, lambda: arena.Client(path, "acme", timeout=LATER))
        assert time.monotonic() - begun < PATIENCE / 2
        for it in taken:
            it.close()


def a_late_reply_is_told_of():
    """After a time-out the client says that a reply is owed, and what waits for it."""
    def session(it):
        it.hello()
        it.next()
        may.wait(PATIENCE)
        it.answer('{"job":9}')
        it.next()
        it.answer('{"epoch":1}')
        it.next()
        it.answer('{"epoch":2}')

    def other(it):
        it.hello()
        it.next()
        it.answer('{"epoch":3}')

    may = threading.Event()
    with answering(session, other) as path, arena.Client(path, "acme") as client:
        client.timeout = SOON
        fault = raises(arena.TimedOut, client.submit, SEVEN)
        assert "late_jobs" in str(fault) and "poll" not in str(fault) and client.late == 1
        fault = raises(arena.TimedOut, client.retire)
        assert "behind the late reply to `submit`" in str(fault) and "reconnect" in str(fault) and client.late == 2
        assert client.late_jobs == []
        client.timeout = PATIENCE
        may.set()
        assert client.retire() == 2 and client.late == 0 and client.late_jobs == [9]
    may.clear()
    with answering(session, other) as path, arena.Client(path, "acme") as client:
        raises(arena.TimedOut, lambda: client.collect(1, timeout=SOON))
        client.timeout = PATIENCE
        threading.Timer(SOON, may.set).start()  # the server of this check has one connection at a time
        client.reconnect()
        assert client.late == 0 and client.retire() == 3


CHECKS = (an_interrupted_call_leaves_its_reply_to_nobody, an_interrupted_pipeline_leaves_its_replies_to_nobody,
          signals_at_any_moment_mix_nothing_up, one_time_limit_covers_connecting_and_sending, a_late_reply_is_told_of,
          a_client_is_for_one_thread_at_a_time)

if __name__ == "__main__":
    run_checks("interrupted calls", CHECKS)

#!/usr/bin/env python3
"""Runs arena-server with clients over its socket, and compares what they get, what the server prints and its status.
Each server writes dumps, and `arena-script check` must answer `yes` to all of them.

usage: checks/server/run.py, at the top of the repository, after `rt ci`, or `rt run` in crates/server_program and in
crates/script_program. It needs `cc` on the path.
"""
import json
import os
import select
import socket
import threading
from collections.abc import Callable

import binding
import busy
import dumps
import endings
import gone
import killed
import levels
import releases
import requests
import starts
import turns
from servers import FIB, HELLO, PATIENCE, SEVEN, Server, side_by_side, tenant


def job_is_executed_and_polled() -> None:
    server = Server([tenant("acme", 1, 1)], 1, 2)
    done = {"job": 1, "status": "complete", "value": 8}
    assert server.ask(HELLO, {"op": "execute", "job": FIB}) == [{"tenant": "acme"}, done]
    assert server.ask(HELLO, {"op": "poll", "job": 1}) == [{"tenant": "acme"}, done]
    assert server.end() == (["acme: closed, 88 entries"], "", 0)


def workers_share_a_job() -> None:
    server = Server([tenant("acme", 3, 1)], 2, 2)
    done = {"job": 1, "status": "complete", "value": 8}
    assert server.ask(HELLO, {"op": "execute", "job": FIB}) == [{"tenant": "acme"}, done]
    assert server.ask(HELLO, {"op": "poll", "job": 1}) == [{"tenant": "acme"}, done]
    lines, err, status = server.end()
    assert len(lines) == 1 and lines[0].startswith("acme: closed, ") and (err, status) == ("", 0)


def tenants_do_not_see_each_other() -> None:
    server = Server([tenant("acme", 2, 1), tenant("beta", 1, 0)], 2, 2)
    assert server.ask(HELLO, {"op": "submit", "job": SEVEN}, {"op": "collect", "job": 1}) == [
        {"tenant": "acme"}, {"job": 1}, {"job": 1, "status": "complete", "value": 7}]
    assert server.ask({"op": "hello", "tenant": "beta"}, {"op": "poll", "job": 1}) == [
        {"tenant": "beta"}, {"code": 6, "error": "unknown_job"}]
    lines, err, status = server.end()
    assert lines[1] == "beta: closed, 1 entries" and (err, status) == ("", 0)


def names_lead_to_their_tenants() -> None:
    """Each of four tenants has slots of its own number, by which it is known."""
    names = ["acme", "beta", "gamma", "delta"]
    server = Server([tenant(name, slots, 1) for slots, name in enumerate(names, 1)], 1, 4)
    for slots, name in enumerate(names, 1):
        assert server.ask({"op": "hello", "tenant": name}, {"op": "arena"}) == [
            {"tenant": name}, {"priority": "normal", "reserved": 1, "slots": slots}]
    assert server.end() == ([f"{name}: closed, 1 entries" for name in names], "", 0)


def as_many_tenants_as_there_may_be() -> None:
    """Each of 64 tenants is known by its own name, and has slots of its own number. One in nine is asked, the last too."""
    slots = {f"t{number}": 1 + number % 16 for number in range(64)}
    asked = list(slots)[::9]
    server = Server([{**tenant(name, slots[name], 1), "steps": 100} for name in slots], 2, len(asked))
    for name in asked:
        assert server.ask({"op": "hello", "tenant": name}, {"op": "arena"}) == [
            {"tenant": name}, {"priority": "normal", "reserved": 1, "slots": slots[name]}]
    assert server.end() == ([f"{name}: closed, {int(name in asked)} entries" for name in slots], "", 0)


def client_that_goes_away_ends_its_session_alone() -> None:
    server = Server([tenant("acme", 2, 1)], 1, 3)
    with server.connect() as client:
        client.sendall((json.dumps(HELLO) + "\n" + json.dumps({"op": "execute", "job": FIB}) + "\n").encode())
    with server.connect() as client:
        client.sendall(b'{"op":"hello","ten')
    assert server.ask(HELLO, {"op": "execute", "job": SEVEN})[1]["value"] == 7
    lines, err, status = server.end()
    assert lines[0].startswith("acme: closed, ") and (err, status) == ("", 0)


def client_that_goes_away_after_any_byte() -> None:
    text = "".join(json.dumps(it, separators=(",", ":")) + "\n" for it in (HELLO, {"op": "execute", "job": SEVEN})).encode()
    for first in range(0, len(text), 60):
        ends = range(first, min(first + 60, len(text) + 1))
        server = Server([tenant("acme", 2, 1)], 2, len(ends) + 1)
        for end in ends:
            with server.connect() as client:
                client.sendall(text[:end])
        assert server.ask(HELLO, {"op": "execute", "job": SEVEN})[1]["value"] == 7
        lines, err, status = server.end()
        assert lines[0].startswith("acme: closed, ") and (err, status) == ("", 0), (first, lines, err, status)


def job_stands_though_its_reply_is_lost() -> None:
    """The client reads the 18 bytes of its first reply and no more, so the write of the second fails."""
    server = Server([tenant("acme", 1, 1)], 1, 2)
    with server.connect() as client:
        client.sendall((json.dumps(HELLO) + "\n").encode())
        assert client.recv(18, socket.MSG_WAITALL) == b'{"tenant":"acme"}\n'
        client.shutdown(socket.SHUT_RD)
        client.sendall((json.dumps({"op": "execute", "job": SEVEN}) + "\n").encode())
        ends = select.poll()
        ends.register(client, 0)  # a hang-up is reported whatever one asks for
        assert ends.poll(1000 * PATIENCE), "the session goes on"
    done = {"job": 1, "status": "complete", "value": 7}
    assert server.ask(HELLO, {"op": "poll", "job": 1}) == [{"tenant": "acme"}, done]
    # The execute, an advance, the collect and the poll.
    assert server.end() == (["acme: closed, 4 entries"], "", 0)


def client_that_never_reads() -> None:
    server = Server([tenant("acme", 2, 1)], 1, 2)
    with server.connect() as client:
        client.settimeout(1)
        try:
            client.sendall((json.dumps(HELLO) + "\n" + '{"op":"cells","key":0}\n' * 1_000_000).encode())
            raise AssertionError("a million replies were kept")
        except TimeoutError:
            pass
        assert server.ask(HELLO, {"op": "execute", "job": SEVEN})[1]["value"] == 7
    lines, err, status = server.end()
    assert lines[0].startswith("acme: closed, ") and (err, status) == ("", 0)


def client_that_sends_without_end() -> None:
    server = Server([tenant("acme", 2, 1)], 1, 2)
    has_begun, is_over = threading.Event(), threading.Event()

    def send():
        while not is_over.is_set():
            client.sendall(b"x" * 65537)
            has_begun.set()

    def ask_meanwhile():
        try:
            assert has_begun.wait(PATIENCE)
            assert server.ask(HELLO, {"op": "execute", "job": SEVEN})[1]["value"] == 7
        finally:
            is_over.set()

    with server.connect() as client:
        client.sendall((json.dumps(HELLO) + "\n").encode())
        side_by_side(send, ask_meanwhile)
        client.sendall(b'\n{"op":"poll","job":1}\n')
        client.shutdown(socket.SHUT_WR)
        with client.makefile() as replies:
            assert [json.loads(line) for line in replies] == [
                {"tenant": "acme"}, {"code": 1, "error": "line_too_long"}, {"job": 1, "status": "complete", "value": 7}]
    lines, err, status = server.end()
    assert lines[0].startswith("acme: closed, ") and (err, status) == ("", 0)


def clients_that_say_nothing() -> None:
    server = Server([tenant("acme", 2, 1)], 1, 5)
    silent = [server.connect() for _ in range(4)]
    assert server.ask(HELLO, {"op": "execute", "job": SEVEN})[1]["value"] == 7
    for client in silent:
        client.close()
    lines, err, status = server.end()
    assert lines[0].startswith("acme: closed, ") and (err, status) == ("", 0)


def many_clients_at_once() -> None:
    """As many clients as a server may have, which together make as many jobs as a tenant may have."""
    server = Server([tenant("acme", 4, 1)], 4, 64)
    wanted = [{"tenant": "acme"}] + [{"job": 0, "status": "complete", "value": 7}] * 4

    def client():
        return server.ask(HELLO, *[{"op": "execute", "job": SEVEN}] * 4)

    for replies in side_by_side(*[client] * 64):
        assert [{**reply, "job": 0} if "job" in reply else reply for reply in replies] == wanted, replies
    lines, err, status = server.end()
    assert lines[0].startswith("acme: closed, ") and (err, status) == ("", 0)


def jobs_are_retired_round_after_round() -> None:
    """Three rounds in which two clients execute jobs beside workers, and then a third retires them all."""
    server = Server([tenant("acme", 3, 1)], 2, 9)
    wanted = [{"job": 0, "status": "complete", "value": 8}] * 5

    def client():
        return server.ask(HELLO, *[{"op": "execute", "job": FIB}] * 5)

    for epoch in (1, 2, 3):
        for replies in side_by_side(client, client):
            assert [{**reply, "job": 0} for reply in replies[1:]] == wanted, replies
        assert server.ask(HELLO, {"op": "retire"}, {"op": "poll", "job": 10 * epoch}, {"op": "retire"}) == [
            {"tenant": "acme"}, {"epoch": 2 * epoch - 1}, {"code": 6, "error": "unknown_job"}, {"epoch": 2 * epoch}]
    lines, err, status = server.end()
    assert lines[0].startswith("acme: closed, ") and (err, status) == ("", 0)
    with open(os.path.join(server.dumps, "acme.jsonl")) as dump:
        assert sum('"reply":{"epoch":' in line for line in dump) == 6


def executes_seven_again_and_again(server: Server) -> None:
    """A client that executes 60 jobs one after another. One that is retired before its outcome is collected is unknown by
    then; each other one is complete."""
    with server.connect() as connection, connection.makefile("rw") as lines:
        for request in [HELLO] + [{"op": "execute", "job": SEVEN}] * 60:
            print(json.dumps(request), file=lines, flush=True)
            reply = json.loads(lines.readline())
            assert request is HELLO or reply == {"code": 6, "error": "unknown_job"} or {**reply, "job": 0} == {
                "job": 0, "status": "complete", "value": 7}, reply


def retires_until(server: Server, is_over: Callable[[], bool]) -> list[dict]:
    """A client that retires all jobs again and again, 5,000 times at most. Returns the replies to that."""
    with server.connect() as connection, connection.makefile("rw") as lines:
        print(json.dumps(HELLO), file=lines, flush=True)
        assert json.loads(lines.readline()) == {"tenant": "acme"}
        seen = []
        while not is_over() and len(seen) < 5000:
            print('{"op":"retire"}', file=lines, flush=True)
            seen.append(json.loads(lines.readline()))
        return seen


def jobs_are_retired_beside_clients_that_run_them() -> None:
    """Three clients execute jobs one after another, and a fourth retires all the while. It is refused while a row is
    open, and nothing else may be seen of it."""
    server = Server([tenant("acme", 3, 1)], 2, 5)
    ended = []

    def client():
        try:
            executes_seven_again_and_again(server)
        finally:
            ended.append(client)

    seen = side_by_side(lambda: retires_until(server, lambda: len(ended) == 3), client, client, client)[0]
    seen += server.ask(HELLO, {"op": "retire"})[1:]
    epochs = [reply["epoch"] for reply in seen if "epoch" in reply]
    assert epochs and epochs == list(range(1, len(epochs) + 1)), epochs
    busy = {"code": 12, "error": "busy"}
    assert all(reply == busy for reply in seen if "epoch" not in reply), seen
    lines, err, status = server.end()
    assert lines[0].startswith("acme: closed, ") and (err, status) == ("", 0)
    with open(os.path.join(server.dumps, "acme.jsonl")) as dump:
        assert sum('"reply":{"epoch":' in line for line in dump) == len(epochs)


def waiting_ends_at_a_full_history() -> None:
    server = Server([{**tenant("acme", 1, 0), "steps": 5}], 1, 1)
    assert server.ask(HELLO, {"op": "submit", "job": FIB}, {"op": "collect", "job": 1}) == [
        {"tenant": "acme"}, {"job": 1}, {"code": 8, "error": "history_full"}]
    assert server.end() == (["acme: closed, 5 entries"], "", 0)


def executes_end_at_a_full_history() -> None:
    """The execute is the first entry. With room for two the first advance, up to the first spawn, is the second; the
    next advance finds the history full, which ends the attending with error 8, and a poll finds it full too."""
    for steps in (1, 2):
        server = Server([{**tenant("acme", 1, 1), "steps": steps}], 1, 1)
        full = {"code": 8, "error": "history_full"}
        replies = server.ask(HELLO, {"op": "execute", "job": FIB}, {"op": "poll", "job": 1})
        assert replies == [{"tenant": "acme"}, full, full]
        assert server.end() == ([f"acme: closed, {steps} entries"], "", 0)


def socket_may_be_gone_at_the_end() -> None:
    server = Server([tenant("acme", 1, 1)], 1, 1)
    with server.connect():
        os.unlink(server.path)
    assert server.end() == (["acme: closed, 0 entries"], "", 0)


CHECKS = [job_is_executed_and_polled, workers_share_a_job, tenants_do_not_see_each_other,
          names_lead_to_their_tenants, as_many_tenants_as_there_may_be, client_that_goes_away_ends_its_session_alone,
          client_that_goes_away_after_any_byte, job_stands_though_its_reply_is_lost, *requests.CHECKS,
          client_that_never_reads, client_that_sends_without_end, clients_that_say_nothing, many_clients_at_once,
          jobs_are_retired_round_after_round, jobs_are_retired_beside_clients_that_run_them,
          waiting_ends_at_a_full_history, executes_end_at_a_full_history, socket_may_be_gone_at_the_end,
          *dumps.CHECKS, *starts.CHECKS, *releases.CHECKS, *binding.CHECKS, *levels.CHECKS, *endings.CHECKS, *killed.CHECKS,
          *gone.CHECKS, *busy.CHECKS, *turns.CHECKS]


def main() -> None:
    """Runs them one after another. The first that finds a fault ends the run."""
    for check in CHECKS:
        check()
    print(f"{len(CHECKS)} checks of the server passed")


main()

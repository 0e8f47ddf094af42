#!/usr/bin/env python3
"""Asks `arena metrics` for everything that it serves but its page: metrics, which a strict parser reads, and health. What is
wanted comes from docs/HOST.md.

usage: checks/python/metrics.py, at the top of the repository. It needs no built program.
"""
import contextlib
import http.client
import json
import os
import re
import signal
import socket
import subprocess
import sys
import time
from unittest import mock

sys.path.insert(0, os.path.abspath("python"))

from calls import Calls, by_keyboard
from exposition import parsed
from fake_host import FakeHost, Folder, closed, example, term
from metrics_served import asked, served
from serving import PACKAGE, PATIENCE

from arena.host import parse_status
from arena.host.prometheus import Family, Kind, Sample, exposition, families_of

# The samples of the example of docs/HOST.md, by their labels.
SAMPLES = {
    "arena_up": {"": 1},
    "arena_status_timestamp_seconds": {"": 1764180123},
    "arena_start_time_seconds": {"": 1764180000},
    "arena_resident_memory_bytes": {"": 81264640},
    "arena_connections_limit": {"": 64},
    "arena_connections": {"": 3},
    "arena_connections_served_total": {"": 47},
    "arena_connections_cut_total": {"why=hello": 2, "why=idle": 1},
    "arena_tenant_connections_limit": {"": 16},
    "arena_tenant_connections": {"tenant=acme": 2},
    "arena_hellos_refused_total": {"tenant=acme": 5},
    "arena_hello_limit_seconds": {"": 60},
    "arena_idle_limit_seconds": {"": 0},
    "arena_rotate_at_ratio": {"": 0.5},
    "arena_finish_seconds": {"": 10},
    "arena_dumps_limit": {"": 8},
    "arena_workers": {"": 2},
    "arena_workers_waiting": {"": 1},
    "arena_workers_at_tenant": {"tenant=acme": 1},
    "arena_term_state": {
        "state=serving tenant=acme term=122": 0, "state=finishing tenant=acme term=122": 1,
        "state=closing tenant=acme term=122": 0, "state=serving tenant=acme term=123": 1,
        "state=finishing tenant=acme term=123": 0, "state=closing tenant=acme term=123": 0},
    "arena_term_start_time_seconds": {"tenant=acme term=122": 1764180010, "tenant=acme term=123": 1764180110},
    "arena_history_steps": {"tenant=acme term=122": 1048576, "tenant=acme term=123": 1048576},
    "arena_history_entries": {"tenant=acme term=122": 524300, "tenant=acme term=123": 90},
    "arena_requests_total": {"tenant=acme term=122": 88, "tenant=acme term=123": 3},
    "arena_jobs_total": {"tenant=acme term=122": 40, "tenant=acme term=123": 2},
    "arena_jobs": {
        "status=running tenant=acme term=122": 2, "status=complete tenant=acme term=122": 36,
        "status=canceled tenant=acme term=122": 1, "status=fault tenant=acme term=122": 1,
        "status=running tenant=acme term=123": 0, "status=complete tenant=acme term=123": 2,
        "status=canceled tenant=acme term=123": 0, "status=fault tenant=acme term=123": 0},
    "arena_rows_open": {"tenant=acme term=122": 7, "tenant=acme term=123": 0},
    "arena_rows_waiting": {"tenant=acme term=122": 3, "tenant=acme term=123": 0},
    "arena_close_duration_seconds": {"tenant=acme term=121 why=file": 0.035},
    "arena_close_lost_jobs": {"tenant=acme term=121 why=file": 0},
    "arena_close_left_jobs": {"tenant=acme term=121 why=file": 0},
    "arena_close_entries": {"tenant=acme term=121 why=file": 9000},
    "arena_close_fault": {"tenant=acme term=121 why=file": 0},
    "arena_close_dumped": {"tenant=acme term=121 why=file": 1},
}


def metrics_of(value):
    """The metrics of a status."""
    return parsed(exposition(families_of(parse_status(json.dumps(value).encode())[0])))


def plain(metrics):
    """The samples of metrics, with their labels as a text."""
    return {name: {" ".join(f"{label}={value}" for label, value in sorted(labels)): value
                   for labels, value in it.samples.items()} for name, it in metrics.items()}


def example_has_its_samples():
    found = plain(metrics_of(example()))
    assert found == SAMPLES, {name: (found.get(name), SAMPLES.get(name)) for name in {*found, *SAMPLES}
                              if found.get(name) != SAMPLES.get(name)}
    without = plain(metrics_of({**example(), "memory": None, "closed": []}))
    assert without == {name: it for name, it in SAMPLES.items() if "_close_" not in name and "memory" not in name}
    assert plain(parsed(exposition(families_of(None)))) == {"arena_up": {"": 0}}
    stopping = metrics_of({**example(), "terms": []})
    assert "arena_history_entries" not in stopping and stopping["arena_up"].samples == {frozenset(): 1}


def each_term_has_a_sample():
    with Folder() as folder:
        both = [term(number, f"t-{it}", state, why, entries=it) for it in range(64)
                for number, state, why in ((3, "closing", "stop"), (4, "serving", None))]
        found = plain(metrics_of(folder.status(*both, closed=[
            closed(2, "t-1", why="stop", ms=1500, lost=3, fault=7, dumped=False), closed(2, "t-2", why="stop")])))
    assert found["arena_history_entries"] == {f"tenant=t-{it} term={number}": it for number in (3, 4) for it in range(64)}
    assert found["arena_term_state"]["state=closing tenant=t-0 term=3"] == 1
    first, second = "tenant=t-1 term=2 why=stop", "tenant=t-2 term=2 why=stop"
    assert found["arena_close_fault"] == {first: 7, second: 0}
    assert found["arena_close_dumped"] == {first: 0, second: 1}
    assert found["arena_close_duration_seconds"] == {first: 1.5, second: 0.0}
    assert found["arena_close_lost_jobs"] == {first: 3, second: 0}


def texts_are_escaped():
    odd = 'a\\b"c\nd\\n,x="'
    name = metrics_of({**example(), "terms": [term(1, odd)]})["arena_jobs_total"]
    assert [*name.samples] == [frozenset({("term", "1"), ("tenant", odd)})], name
    help = parsed(exposition([Family("a_total", Kind.COUNTER, 'one\\two\n"three"', [Sample(2**70)])]))["a_total"]
    assert help.help == 'one\\two\n"three"' and help.samples == {frozenset(): 2.0**70}, help


def counters_never_go_back():
    """A term goes from serving to finishing to closed, while the next one counts from 0."""
    def counts(asks):
        """The counts of a term that was asked so often."""
        return {"asks": asks, "jobs": asks, "entries": asks}

    with Folder() as folder:
        texts = [folder.status(term(4, **counts(8)), served=3),
                 folder.status(term(4, state="finishing", why="history", **counts(9)), term(5, **counts(0)), served=3),
                 folder.status(term(4, state="closing", why="history", **counts(9)), term(5, **counts(2)), served=4),
                 folder.status(term(5, **counts(3)), served=5, closed=[closed(4, entries=9)])]
    seen = {}
    for found in map(metrics_of, texts):
        for name, it in found.items():
            for labels, value in it.samples.items() if it.kind == "counter" else ():
                assert value >= seen.get((name, labels), 0), (name, labels, value)
                seen[name, labels] = value
    assert len(seen) == 8, seen


def health_is_told():
    now = example()["time"]
    for age, status, text in ((0, 200, "ok\n"), (5, 200, "ok\n"), (-5, 200, "ok\n"),
                              (6, 503, r"\S+/status.json: written 6 s ago, and a host writes it each second\n"),
                              (-6, 503, r"\S+/status.json: its time is 6 s ahead of the clock here\n")):
        with Folder() as folder, served(folder, lambda: now + age) as server:
            folder.write(example())
            found = asked(server, "/healthz")
            assert found[0] == status and re.fullmatch(text, found[2]), found
            up = parsed(asked(server, "/metrics")[2])
            assert up["arena_up"].samples == {frozenset(): status == 200} and (len(up) > 1) == (status == 200), up
    with Folder() as folder, served(folder) as server:
        for damage, text in ((lambda: None, "not there"), (lambda: folder.write(b'{"time":1'), "no JSON"),
                             (lambda: folder.write(b"[]"), "the whole is an object"),
                             (lambda: (os.unlink(folder.file("status.json")), os.mkdir(folder.file("status.json"))),
                              "Is a directory")):
            damage()
            found = asked(server, "/healthz")
            assert found[0] == 503 and text in found[2], found
            assert plain(parsed(asked(server, "/metrics")[2])) == {"arena_up": {"": 0}}
            assert text in asked(server, "/")[2] and text in asked(server, "/status")[2]
        os.rmdir(folder.file("status.json"))


def answers_have_their_heads():
    with FakeHost() as host, served(host) as server:
        status, head, text = asked(server, "/metrics")
        assert (status, head["Content-Type"]) == (200, "text/plain; version=0.0.4; charset=utf-8"), head
        assert head["Cache-Control"] == "no-store" and int(head["Content-Length"]) == len(text)
        assert plain(parsed(text))["arena_history_steps"] == {"tenant=acme term=5": 10_000}
        assert asked(server, "/healthz?x=1")[0] == 200
        with socket.create_connection(("127.0.0.1", server.server_port)) as client:
            client.sendall(b"HEAD /metrics HTTP/1.0\r\n\r\n")
            with client.makefile(newline="") as reply:
                again = reply.read()
        assert again.startswith("HTTP/1.0 200 ") and f"\r\nContent-Length: {len(text)}\r\n" in again, again
        assert again.endswith("\r\n\r\n") and again.count("\r\n\r\n") == 1, again
        assert asked(server, "/other")[0] == 404 and asked(server, "/metrics", "POST")[0] == 501
        with socket.create_connection(("127.0.0.1", server.server_port)):  # one that says nothing holds nobody up
            assert asked(server, "/healthz")[:3:2] == (200, "ok\n")


# How often it is tried whether connections keep others out, in case a machine is so busy that places are free late.
TRIES = 5


def no_client_keeps_it_busy():
    """A request has one time limit, however slowly its bytes come; and connections beyond the most are closed."""
    with FakeHost() as host, served(host, most=2, seconds=3) as server:
        with socket.create_connection(("127.0.0.1", server.server_port)) as slow, contextlib.suppress(OSError):
            begun = time.monotonic()
            while time.monotonic() - begun < PATIENCE:
                slow.sendall(b"x")
                slow.settimeout(0.1)
                with contextlib.suppress(TimeoutError):
                    if not slow.recv(1):
                        break
        assert time.monotonic() - begun < PATIENCE / 2
        assert any(two_keep_a_third_out(server) for _ in range(TRIES)), "a third connection was answered"
        begun = time.monotonic()
        while not is_well(server):  # once their places are free
            assert time.monotonic() - begun < PATIENCE / 2
            time.sleep(0.1)


def two_keep_a_third_out(server):
    """Whether two connections that say nothing, which are closed in time, keep a third one out. They are accepted in
    their order. Where the place of a connection that has ended is not free by then, one of the two is kept out in the
    place of the third."""
    time.sleep(0.5)
    silent = [socket.create_connection(("127.0.0.1", server.server_port), PATIENCE) for _ in range(2)]
    is_kept_out = not is_well(server)
    for it in silent:
        with it, contextlib.suppress(ConnectionResetError):
            assert it.recv(1) == b""
    time.sleep(0.5)
    return is_kept_out


def is_well(server):
    """Whether a server says that all is well. One that has no place left closes the connection."""
    try:
        return asked(server, "/healthz")[0] == 200
    except (OSError, http.client.HTTPException):
        return False


def command_serves():
    """The command prints where it listens, answers, and ends with the keyboard."""
    with FakeHost() as host:
        words = [sys.executable, "-m", "arena", "metrics", host.path, "--listen", "127.0.0.1:0"]
        process = subprocess.Popen(words, stdout=subprocess.PIPE, stderr=subprocess.PIPE, text=True,
                                   env={**os.environ, "PYTHONPATH": PACKAGE}, preexec_fn=by_keyboard)
        found = re.fullmatch(r"listening at http://127\.0\.0\.1:(\d+)/\n", process.stdout.readline())
        assert found, process.communicate()
        connection = http.client.HTTPConnection("127.0.0.1", int(found[1]), timeout=PATIENCE)
        with contextlib.closing(connection):
            connection.request("GET", "/healthz")
            assert connection.getresponse().status == 200
        process.send_signal(signal.SIGINT)
        ended = *process.communicate(timeout=PATIENCE), process.returncode
    assert ended == ("", "", 0), ended


class Silent:
    """In the place of the server: it notes where it would listen, and is interrupted at once."""

    def __init__(self, address, _):
        self.url = f"http://{address}/"

    def __enter__(self):
        return self

    def __exit__(self, *_):
        pass

    def serve_forever(self):
        raise KeyboardInterrupt


def others_are_let_in_by_request_alone(it):
    with mock.patch("arena.host.web.MetricsServer", Silent):
        for where in ("127.0.0.1:9753", "[::1]:1", "127.8.9.10:65535"):
            it.call("metrics", "/nowhere", "--listen", where, out=f"listening at http://{where}/\n")
        it.call("metrics", "/nowhere", out="listening at http://127.0.0.1:9753/\n")
        it.call("metrics", "/nowhere", "--listen", "localhost:1", "--json", out='{"url":"http://127.0.0.1:1/"}\n')
        for where in ("0.0.0.0:9753", "192.0.2.1:80", "[::]:9753", "[2001:db8::1]:80"):
            it.call("metrics", "/nowhere", "--listen", where, status=2, err=f"^arena: --listen {re.escape(where)}: other "
                    "machines reach this address.*--open-to-network")
            it.call("metrics", "/nowhere", "--listen", where, "--open-to-network", out=f"listening at http://{where}/\n")
        for where in ("nowhere:80", "127.0.0.1", "127.0.0.1:", "127.0.0.1:65536", "127.0.0.1:x", ":80", "127.0.0.1:\u0661"):
            it.call("metrics", "/nowhere", "--listen", where, status=2, err="write ADDRESS:PORT, as 127.0.0.1:9753")
    it.call("metrics", status=2, err="no run folder of arena-host is named")
    with socket.create_server(("127.0.0.1", 0)) as other:
        where = f"127.0.0.1:{other.getsockname()[1]}"
        it.call("metrics", "/nowhere", "--listen", where, status=8, err=f"^arena: {where}: Address already in use\n$")


CHECKS = [example_has_its_samples, each_term_has_a_sample, texts_are_escaped,
          counters_never_go_back, health_is_told, answers_have_their_heads,
          no_client_keeps_it_busy, command_serves]


def main():
    for check in CHECKS:
        check()
    it = Calls("/nowhere")
    others_are_let_in_by_request_alone(it)
    print(f"{len(CHECKS)} checks of the metrics passed; {it.count} calls: {it.differ} ended otherwise than is wanted")
    return bool(it.differ)


sys.exit(main())

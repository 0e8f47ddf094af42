"""How a server lives with its clients and ends: clients that go while they wait, and a stop."""
import json
import os
import select
import socket
import threading
import time
from collections.abc import Sequence
from functools import partial

from servers import FIB, HELLO, PATIENCE, SEVEN, Bound, Server, side_by_side, tenant
from waits import used_while_it_waits

# How long a session may outlive its client, and a server its stop, in seconds: a server is patient for one, and the
# rest is for a machine that is slow or busy.
SOON = 45
# How often a check is tried in which this program must not be kept from the processor for a second.
TRIES = 10
# 12,192 entries or more, so that the history of `tenant` is full.
LONG = {**FIB, "args": [16, 0], "fuel": 1_000_000}


def send(client: socket.socket, *requests: dict) -> None:
    """Sends requests, a line each."""
    client.sendall("".join(json.dumps(it) + "\n" for it in requests).encode())


def greeted(server: Server) -> Bound:
    """A client that has said hello to acme, with its replies to come."""
    client = server.connect()
    replies = client.makefile()
    send(client, HELLO)
    assert json.loads(replies.readline()) == {"tenant": "acme"}
    return Bound(client, replies)


def hang_up(*clients: Bound) -> None:
    """Closes connections whole: a socket stays open as long as its file of replies does."""
    for client, replies in clients:
        replies.close()
        client.close()


def is_cut(client: socket.socket) -> bool:
    """Whether the server sends nothing more to a client. It is still so where it only takes no more lines from it."""
    ends = select.poll()
    ends.register(client, select.POLLRDHUP)
    return bool(ends.poll(0))


def is_closed(lines: Sequence[str], names: Sequence[str] = ("acme",)) -> bool:
    """Whether what a server printed is a line for each of these tenants, in their order."""
    return [line.split(":")[0] for line in lines] == list(names)


def client_that_collects_and_goes() -> None:
    """No slot may ever start the job: the only one is reserved for executes."""
    server = Server([tenant("acme", 1, 1)], 1, 1)
    waiting = greeted(server)
    send(waiting.client, {"op": "submit", "job": SEVEN}, {"op": "collect", "job": 1})
    assert json.loads(waiting.replies.readline()) == {"job": 1}
    began = time.monotonic()
    hang_up(waiting)
    assert server.end() == (["acme: closed, 1 entries"], "", 0)
    assert time.monotonic() - began < SOON


def clients_that_execute_at_one_slot_and_go() -> None:
    """The second job waits for a slot that stays reserved."""
    server = Server([tenant("acme", 1, 1)], 1, 2)
    clients = [greeted(server), greeted(server)]
    for client, _ in clients:
        send(client, {"op": "execute", "job": {"args": [0, 0], "fuel": 1_000_000, "procs": [[["jmp", 0]]]}})
    began = time.monotonic()
    hang_up(*clients)
    lines, err, status = server.end()
    assert is_closed(lines) and (err, status) == ("", 0)
    assert time.monotonic() - began < SOON


def client_that_goes_leaves_others_waiting() -> None:
    """One of two clients that wait for a job goes, and the other one still gets its reply when a worker comes."""
    server = Server([tenant("acme", 2, 1), {**tenant("beta", 1, 0), "priority": "high"}], 1, 3)
    first, second = greeted(server), greeted(server)
    send(first[0], {"op": "submit", "job": LONG}, {"op": "collect", "job": 1})
    assert json.loads(first[1].readline()) == {"job": 1}
    send(second[0], {"op": "collect", "job": 1})
    hang_up(first)
    outcome = json.loads(second[1].readline())
    assert outcome in ({"job": 1, "status": "complete", "value": 987}, {"code": 8, "error": "history_full"}), outcome
    hang_up(second)
    server.connect().close()
    lines, err, status = server.end()
    assert is_closed(lines, ("acme", "beta")) and (err, status) == ("", 0)


def session_ends_without_a_reply_at_a_full_history() -> None:
    """A region waits for a task that another slot may have taken. If the history fills while the executing slot has
    nothing that it may run, the session ends without a reply; if it runs the task itself, the reply is the error."""
    spinning = {"args": [0, 0], "fuel": 1_000_000, "procs": [
        [["isolate", 2, 1, 0, 1], ["ret", 2]],
        [["set", 2, 4000], ["set", 3, 1], ["spawn", 0, 2, 0, 1], ["sub", 2, 2, 3], ["jz", 2, 6], ["jmp", 3],
         ["wait", 4, 5, 0], ["ret", 4]],
        [["jmp", 0]]]}
    server = Server([{**tenant("acme", 2, 1), "steps": 300}], 1, 1)
    replies = server.ask(HELLO, {"op": "execute", "job": spinning})
    assert replies in ([{"tenant": "acme"}], [{"tenant": "acme"}, {"code": 8, "error": "history_full"}]), replies
    assert server.end() == (["acme: closed, 300 entries"], "", 0)


def fill(client: socket.socket) -> None:
    """Sends requests until the server takes no more, since their replies are not taken either."""
    client.setblocking(False)
    try:
        while True:
            client.send(b'{"op":"info"}\n' * 1000)
    except BlockingIOError:
        pass


def removal_ends_one_that_waits_first() -> bool:
    """One client does not take its replies, one waits for a job, one says nothing, and 61 never come. The first is cut off
    before the others would be. Returns whether these were seen to end before it was: the order to stop ended them."""
    server = Server([tenant("acme", 1, 1)], 1, 64)
    deaf, waiting, silent = greeted(server), greeted(server), greeted(server)
    send(waiting.client, {"op": "submit", "job": SEVEN}, {"op": "collect", "job": 1})
    assert json.loads(waiting.replies.readline()) == {"job": 1}
    fill(deaf.client)
    began = time.monotonic()
    server.stop()
    assert waiting.replies.readline() == silent.replies.readline() == ""
    is_first = not is_cut(deaf.client)
    lines, err, status = server.end()
    assert is_closed(lines) and (err, status) == ("", 0)
    assert time.monotonic() - began < SOON
    hang_up(waiting, silent, deaf)
    return is_first


def removal_ends_sessions_that_wait() -> None:
    """They end when the server is told to stop, and not only when it loses its patience a second later and cuts off all
    that are left. What this program sees a second late proves nothing, so it looks again at another server."""
    assert any(removal_ends_one_that_waits_first() for _ in range(TRIES)), "sessions that wait end when they are cut off"


def threads_that_wait_use_no_processor() -> None:
    """The only slot is reserved, so that a submitted job waits for ever, with a session that collects it, and the worker
    waits for a call. In a second all threads together use less than a fifth of one."""
    server = Server([tenant("acme", 1, 1)], 1, 1)
    waiting = greeted(server)
    send(waiting.client, {"op": "submit", "job": SEVEN}, {"op": "collect", "job": 1})
    assert json.loads(waiting.replies.readline()) == {"job": 1}
    used = used_while_it_waits(server.process.pid, waiting)
    assert used < 0.2, f"{used:.2f} s of a processor in a second"
    hang_up(waiting)
    assert server.end() == (["acme: closed, 1 entries"], "", 0)


def execute_until_stopped(server: Server, name: str, served: threading.Barrier) -> None:
    """Executes jobs at a tenant until the server ends the session. All clients wait for one another after the hello."""
    with server.connect() as client, client.makefile() as replies:
        try:
            send(client, {"op": "hello", "tenant": name})
            replies.readline()
            served.wait()
            while True:
                send(client, {"op": "execute", "job": FIB})
                line = replies.readline()
                if not line:
                    return
                reply = json.loads(line)
                assert reply.get("value") == 8 or reply.get("code") in (7, 8, 10), reply
        except (BrokenPipeError, ConnectionResetError):
            pass


def removal_ends_a_server_that_is_busy() -> None:
    """64 clients execute jobs at four tenants, and each has had a reply when the server is stopped."""
    names = ["acme", "beta", "gamma", "delta"]
    server = Server([tenant(name, 4, 1) for name in names], 8, 64)
    served = threading.Barrier(65, timeout=PATIENCE)

    def stop():
        served.wait()
        began = time.monotonic()
        server.stop()
        return began

    clients = [partial(execute_until_stopped, server, names[number % 4], served) for number in range(64)]
    began = side_by_side(stop, *clients)[0]
    lines, err, status = server.end()
    assert is_closed(lines, names) and (err, status) == ("", 0)
    assert time.monotonic() - began < SOON


def server_leaves_the_socket_of_the_next() -> None:
    """A second server comes to the path of one that is stopping, and is still found there when that has ended."""
    first = Server([tenant("acme", 1, 1)], 1, 2)
    waiting = greeted(first)
    first.stop()
    second = Server([tenant("acme", 1, 1)], 1, 1, beside=first)
    out, err = first.process.communicate(timeout=PATIENCE)
    assert (out, err, first.process.returncode) == ("acme: closed, 0 entries\n", "", 0)
    hang_up(waiting)
    assert second.ask(HELLO, {"op": "execute", "job": SEVEN})[1]["value"] == 7
    lines, err, status = second.end()
    assert is_closed(lines) and (err, status) == ("", 0)


def server_leaves_a_file_that_is_not_its_own() -> None:
    server = Server([tenant("acme", 1, 1)], 1, 1)
    server.stop()
    with open(server.path, "w"):
        pass
    out, err = server.process.communicate(timeout=PATIENCE)
    assert (out, err, server.process.returncode) == ("acme: closed, 0 entries\n", "", 0)
    assert os.path.isfile(server.path)


def server_starts_after_one_that_was_killed() -> None:
    """A start that was cut off leaves the folder in which its socket was made. It may be that of a server that is starting
    now, so it stays, and the next socket is made in another one."""
    first = Server([tenant("acme", 1, 1)], 1, 1)
    first.process.kill()
    first.process.communicate()
    first.stop()
    os.mkdir(first.path + ".d")
    with socket.socket(socket.AF_UNIX) as left:
        left.bind(first.path + ".d/s")
    second = Server([tenant("acme", 1, 1)], 1, 1, beside=first)
    assert second.ask(HELLO) == [{"tenant": "acme"}]
    assert second.end() == (["acme: closed, 0 entries"], "", 0)
    assert sorted(os.listdir(first.folder.name)) == ["config", "dumps", "socket.d"]
    assert os.listdir(first.path + ".d") == ["s"]


CHECKS = [client_that_collects_and_goes, clients_that_execute_at_one_slot_and_go, client_that_goes_leaves_others_waiting,
          session_ends_without_a_reply_at_a_full_history, removal_ends_sessions_that_wait,
          threads_that_wait_use_no_processor, removal_ends_a_server_that_is_busy, server_leaves_the_socket_of_the_next,
          server_leaves_a_file_that_is_not_its_own, server_starts_after_one_that_was_killed]

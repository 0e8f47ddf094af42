"""Requests that are sent together: their replies share a write, and none of them waits for what a later one waits for."""
import contextlib
import json
import os
import select
import subprocess
import tempfile

from durable import submits, told_in_order
from hosts import Host, ask, hang_up, rotate, tenant
from losses import ORDERS
from servers import PATIENCE, Bound, by_deadline

TOGETHER = 16
WRITES = 4
"""How many writes they may take: the host may read them in pieces."""


def send(connection: Bound, requests: list[dict]) -> None:
    """Sends requests in one piece."""
    connection.client.sendall("".join(json.dumps(it) + "\n" for it in requests).encode())


def replies(connection: Bound, count: int) -> list[dict]:
    """The next replies."""
    return [json.loads(connection.replies.readline()) for _ in range(count)]


def replies_share_a_write() -> None:
    """Before replies go out, what they tell was written to the journal, and by `reply` it is on the disk; for sixteen requests
    that does not happen sixteen times."""
    with tempfile.TemporaryDirectory() as folder:
        library = os.path.join(folder, "orders.so")
        subprocess.run(["cc", "-shared", "-fPIC", "-o", library, ORDERS], check=True, timeout=PATIENCE)
        for durable, steps in (("write", ["written"]), ("reply", ["written", "synced"])):
            os.environ["ORDERS"] = os.path.join(folder, durable)
            # Nothing runs by itself: the only slot is reserved.
            host = Host([tenant("acme", slots=1)], "--durable", durable, preload=library)
            client = host.connect()
            with open(os.environ["ORDERS"]) as noted:
                noted.seek(0, os.SEEK_END)
                send(client, [submits(1)] * TOGETHER)
                assert replies(client, TOGETHER) == [{"job": number} for number in range(1, TOGETHER + 1)]
                done = told_in_order(noted)
            assert done.count("told") <= WRITES and done[-1] == "told", done
            # A thread writes each second too.
            assert list(dict.fromkeys(done[: done.index("told")])) == steps, done
            hang_up(client)
            assert host.stop() == 0


def no_reply_waits_for_a_later_one() -> None:
    """A collect waits, and the number of its job has gone out before: another connection can cancel that."""
    host = Host([tenant("acme", slots=1)])
    client, other = host.connect(), host.connect()
    send(client, [submits(1), {"op": "poll", "job": 7}, {"op": "collect", "job": 1}])
    assert replies(client, 2) == [{"job": 1}, {"code": 6, "error": "unknown_job"}]
    assert ask(other, {"op": "cancel", "job": 1}) == {"first": True, "job": 1}
    assert replies(client, 1) == [{"job": 1, "status": "canceled"}]
    hang_up(client, other)
    assert host.stop() == 0


def who_reads_nothing_holds_up_no_term() -> None:
    """A client that takes none of its replies, so that its session can't go on, keeps no term from being closed, and finds
    its replies once it reads."""
    host = Host([tenant("acme"), tenant("beta")])
    client = host.connect()
    assert ask(client, submits(1)) == {"job": 1}
    by_deadline(lambda: ask(client, {"op": "poll", "job": 1})["status"] == "complete")
    client.client.setblocking(False)
    line, sent = b'{"op":"poll","job":1}\n', 0
    # Until neither the host takes more nor the stream has room. What was sent may end within a line.
    while select.select([], [client.client], [], 1)[1]:
        with contextlib.suppress(BlockingIOError):
            sent += client.client.send((line * 1001)[sent % len(line):])
    for number, name in ((1, "acme"), (1, "beta"), (2, "acme")):
        rotate(host, number, name)
    by_deadline(lambda: {(it["tenant"], it["term"]) for it in host.told("closed")} >= {("acme", 0), ("beta", 0)})
    client.client.settimeout(PATIENCE)
    assert all(it["status"] == "complete" for it in replies(client, sent // len(line)))
    hang_up(client)
    assert host.stop() == 0


CHECKS = [replies_share_a_write, no_reply_waits_for_a_later_one, who_reads_nothing_holds_up_no_term]

"""What dumps a server leaves that is killed while it writes them, or beside another one that does."""
import contextlib
import json
import os
import random
import subprocess
import time

from endings import LONG, greeted, hang_up, send
from servers import HELLO, PATIENCE, Bound, Server, by_deadline, dump_lines, tenant


def steps_of(number: int) -> int:
    """How many entries the history of the server of that number has room for, so that each dump has its own length."""
    return 10_000 + number


def fills_its_history(number: int, beside: Server | None) -> tuple[Server, Bound]:
    """The server of that number, whose history has become full, with its only client, who is still there."""
    server = Server([{**tenant("acme", 1, 1), "steps": steps_of(number)}], 1, 1, beside=beside)
    client = greeted(server)
    send(client.client, {"op": "execute", "job": LONG})
    assert json.loads(client.replies.readline()) == {"code": 8, "error": "history_full"}
    return server, client


def length_after_kill(server: Server) -> int:
    """Kills a server, removes its socket, and returns how many entries the dump has that is there then."""
    server.process.kill()
    server.process.communicate()
    if os.path.exists(server.path):
        server.stop()
    return dump_lines(server.dumps, "acme") - 1


def whole_dump_seconds() -> tuple[Server, float]:
    """A server that has ended by itself and left its dump, and how long that took it after its client had gone."""
    server, client = fills_its_history(0, None)
    hang_up(client)
    began = time.monotonic()
    server.process.wait(PATIENCE)
    took = time.monotonic() - began
    assert server.end() == ([f"acme: closed, {steps_of(0)} entries"], "", 0)
    return server, took


def killed_server_leaves_a_whole_dump() -> None:
    """Before its client has gone, a server that is killed leaves the dump before it, and once its own dump has replaced
    that, its own one. At eighteen drawn moments between it leaves one of both, whole, and parts."""
    server, took = whole_dump_seconds()
    path, dice, kept = os.path.join(server.dumps, "acme.jsonl"), random.Random(20), steps_of(0)
    server, client = fills_its_history(1, server)
    assert length_after_kill(server) == kept
    hang_up(client)
    for number in range(2, 20):
        server, client = fills_its_history(number, server)
        hang_up(client)
        with contextlib.suppress(subprocess.TimeoutExpired):
            server.process.wait(timeout=dice.uniform(0, took))
        before, kept = kept, length_after_kill(server)
        assert kept in (before, steps_of(number)), (number, before, kept)
    server, client = fills_its_history(20, server)
    before = os.stat(path).st_ino
    hang_up(client)
    by_deadline(lambda: os.stat(path).st_ino != before)
    assert length_after_kill(server) == steps_of(20)
    assert os.stat(path).st_mode & 0o777 == 0o600


def server_starts_while_another_one_dumps() -> None:
    """A server that starts into the folder to which another one is dumping leaves that one's dump alone."""
    dice = random.Random(21)
    server = Server([tenant("acme", 1, 1)], 1, 2)
    for _ in range(8):
        server.ask(HELLO, {"op": "execute", "job": LONG})
        server.stop()
        time.sleep(dice.uniform(0, 0.05))
        following = Server([tenant("acme", 1, 1)], 1, 2, beside=server)
        out, err = server.process.communicate(timeout=PATIENCE)
        assert server.ended(out, err) == (["acme: closed, 10000 entries"], "", 0)
        server = following
    server.stop()
    server.end()
    assert os.listdir(server.dumps) == ["acme.jsonl"]


CHECKS = [killed_server_leaves_a_whole_dump, server_starts_while_another_one_dumps]

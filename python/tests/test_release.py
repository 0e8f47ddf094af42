"""Releasing jobs: what the clients send, what they make of the replies, and how histories with it are replayed."""
import asyncio
import json
import os
import socket
import tempfile
import threading
import unittest
from collections.abc import Callable

import arena
from arena import aio, requests
from arena.trace import DumpFault, replay
from arena.trace.dump import parse_dump
from tests.test_authoring import command

JOB = {"args": [7, 0], "fuel": 10, "procs": [[["ret", 0]]]}
COMPLETE = {"job": 1, "status": "complete", "value": 7}
UNKNOWN, BUSY = {"code": 6, "error": "unknown_job"}, {"code": 12, "error": "busy"}
TENANT = {"tenant": {"isolation": "exact", "name": "acme", "priority": "low", "reserved": 0, "rows": 9, "slots": 1, "steps": 99}}
SUBMIT = {"step": "ask", "request": {"op": "submit", "job": JOB}, "reply": {"job": 1}}
RUNS = [{"step": "arrive", "slot": 0, "moved": "arrived", "row": 1}, {"step": "advance", "slot": 0, "moved": "ran"}]


def asked(request: dict[str, object], reply: dict[str, object]) -> dict[str, object]:
    """An entry of a history."""
    return {"step": "ask", "request": request, "reply": reply}


RELEASE = asked({"op": "release", "job": 1}, {"released": 1})
COLLECT = asked({"op": "collect", "job": 1, "release": True}, COMPLETE)


def answered(replies: list[dict[str, object]], talk: Callable[[str], object]) -> list[dict[str, object]]:
    """Lets a talk go on with a server that gives these replies, one to each line; what it was sent."""
    sent: list[dict[str, object]] = []
    with tempfile.TemporaryDirectory() as folder:
        path = os.path.join(folder, "socket")
        listener = socket.socket(socket.AF_UNIX)
        listener.bind(path)
        listener.listen()

        def serve() -> None:
            """Answers one connection."""
            connection, _ = listener.accept()
            with connection, connection.makefile("rwb", buffering=0) as lines:
                for reply in replies:
                    sent.append(json.loads(lines.readline()))
                    lines.write(json.dumps(reply).encode() + b"\n")
        thread = threading.Thread(target=serve, daemon=True)
        thread.start()
        talk(path)
        thread.join(10)
        listener.close()
    return sent


class Clients(unittest.TestCase):
    """What is sent, and what comes of the replies."""

    def test_lines(self) -> None:
        """The lines of the protocol; without `release` a collect is as it was."""
        self.assertEqual(requests.release(3).line, b'{"job":3,"op":"release"}\n')
        self.assertEqual(requests.collect(3, True).line, b'{"job":3,"op":"collect","release":true}\n')
        self.assertEqual(requests.collect(3).line, b'{"job":3,"op":"collect"}\n')
        for line in (b'{"released":4}\n', b'{"released":3,"x":1}\n', b'{"job":3}\n', b'{"released":"3"}\n'):
            with self.assertRaises(arena.StrangeReply):
                requests.release(3).value(line)

    def test_client(self) -> None:
        """The client for one thread, and its pipeline."""
        def talk(path: str) -> None:
            """Releases in each way."""
            with arena.Client(path, "acme", timeout=10) as client:
                self.assertIsNone(client.release(1))
                self.assertEqual(client.collect(1, release=True), arena.Complete(7, 1))
                with self.assertRaises(arena.UnknownJob):
                    client.release(1)
                with self.assertRaisesRegex(arena.Busy, "error 12, busy: a row is open; wait for the job"):
                    client.release(1)
                with client.pipeline() as line:
                    outcome, none = line.collect(1, release=True), line.release(2)
                self.assertEqual((outcome.result(), none.result()), (arena.Complete(7, 1), None))
        sent = answered([{"tenant": "acme"}, {"released": 1}, COMPLETE, UNKNOWN, BUSY, COMPLETE, {"released": 2}], talk)
        self.assertEqual(sent[1:3], [{"job": 1, "op": "release"}, {"job": 1, "op": "collect", "release": True}])
        self.assertEqual(len(sent), 7)

    def test_asyncio(self) -> None:
        """The client for asyncio."""
        async def talk(path: str) -> None:
            """Releases in both ways."""
            async with aio.Client(path, "acme", timeout=10) as client:
                self.assertIsNone(await client.release(1))
                self.assertEqual(await client.collect(1, release=True), arena.Complete(7, 1))
        sent = answered([{"tenant": "acme"}, {"released": 1}, COMPLETE], lambda path: asyncio.run(talk(path)))
        self.assertEqual(sent[1:], [{"job": 1, "op": "release"}, {"job": 1, "op": "collect", "release": True}])

    def test_command(self) -> None:
        """`arena release` and `arena wait --release`."""
        said: list[object] = []
        answered([{"tenant": "acme"}, {"released": 5}],
                 lambda path: said.append(command("-s", path, "-t", "acme", "release", "5")))
        answered([{"tenant": "acme"}, COMPLETE],
                 lambda path: said.append(command("-s", path, "-t", "acme", "wait", "1", "--release")))
        answered([{"tenant": "acme"}, BUSY], lambda path: said.append(command("-s", path, "-t", "acme", "release", "5")[0]))
        self.assertEqual(said, [(0, "job 5: released\n", ""), (0, "7\n", ""), 32])


class Histories(unittest.TestCase):
    """Entries in dumps."""

    def replayed(self, *entries: dict[str, object]) -> list[str | None]:
        """The requests of a history, in order. Raises DumpFault."""
        lines = [json.dumps(it) for it in (TENANT, *entries)]
        return [it.op for it in replay(parse_dump(lines)) if it.op]

    def test_replayed(self) -> None:
        """A job is forgotten once it has ended, by either request."""
        for entry in (RELEASE, COLLECT):
            op = str(entry["request"]["op"]) if isinstance(entry["request"], dict) else ""
            unknown = asked({"op": "poll", "job": 1}, UNKNOWN)
            self.assertEqual(self.replayed(SUBMIT, *RUNS, entry, unknown), ["submit", op, "poll"])
            with self.assertRaisesRegex(DumpFault, "job 1 has no outcome"):
                self.replayed(SUBMIT, entry)
            with self.assertRaisesRegex(DumpFault, "there is no job 1"):
                self.replayed(SUBMIT, *RUNS, entry, asked({"op": "poll", "job": 1}, COMPLETE))
        again = asked({"op": "collect", "job": 1, "release": False}, COMPLETE)
        self.assertEqual(self.replayed(SUBMIT, *RUNS, again, again, RELEASE), ["submit", "collect", "collect", "release"])

"""What clients do that is no call: requests without waiting, prepared programs, sockets of others and TLS, what errors say."""
import asyncio
import json
import os
import select
import shutil
import socket
import ssl
import subprocess
import tempfile
import threading
import unittest
from collections.abc import Callable

import arena
from arena import aio, requests
from arena.replies import REFUSALS
from arena.tls import Tls

PROCS = [[["mul", 2, 0, 0], ["ret", 2]]]
JOB = {"args": [7, -1], "fuel": 10, "procs": PROCS}
SOON = 10.0


def complete(number: int, value: int) -> bytes:
    """The line of an outcome."""
    return json.dumps({"job": number, "status": "complete", "value": value}).encode() + b"\n"


class Prepared(unittest.TestCase):
    """Lines of prepared programs."""

    def test_lines_are_those_of_whole_jobs(self) -> None:
        it = arena.Prepared(PROCS)
        self.assertEqual(it.line("submit", (7, -1), 10), requests.submit(JOB).line)
        self.assertEqual(it.execute((7, -1), 10).line, requests.execute(JOB).line)
        self.assertEqual(arena.Prepared.of_text(it.text).submit((7, -1), 10).line, requests.submit(JOB).line)

    def test_replies_are_read_as_of_whole_jobs(self) -> None:
        self.assertEqual(arena.Prepared(PROCS).submit().value(b'{"job":3}'), 3)
        with self.assertRaises(arena.BadProgram):
            arena.Prepared(PROCS).execute().value(b'{"code":4,"error":"bad_program"}')


class Errors(unittest.TestCase):
    """What errors say of what was done."""

    def test_refused_requests_did_nothing(self) -> None:
        self.assertEqual({code for code, kind in REFUSALS.items() if kind("submit").done is not False}, set())
        self.assertEqual({code for code, kind in REFUSALS.items() if kind("execute").done is None}, {8})
        self.assertEqual({code for code, kind in REFUSALS.items() if kind.passes}, {7, 8, 9, 10, 12, 13})

    def test_a_full_history_of_a_job(self) -> None:
        """Who asks for an outcome is told that the job may be lost, and who asks for another thing is not."""
        line = b'{"code":8,"error":"history_full"}'
        for request, is_of_job in ((requests.collect(1), True), (requests.poll(1), True), (requests.submit(JOB), False)):
            with self.assertRaises(arena.HistoryFull) as caught:
                request.value(line)
            self.assertEqual("so run it again" in str(caught.exception), is_of_job, request)
            self.assertEqual("gone from its configuration" in str(caught.exception), not is_of_job, request)
            self.assertIn(caught.exception.advice, str(caught.exception))

    def test_lost_connections_are_not_known(self) -> None:
        mine, other = socket.socketpair()
        client = arena.Client.over(mine)
        other.close()
        with self.assertRaises(arena.ConnectionLost) as lost:
            client.poll(1)
        self.assertIsNone(lost.exception.done)
        with self.assertRaises(arena.ConnectionLost) as unsent:
            client.poll(1)
        self.assertIs(unsent.exception.done, False)
        with self.assertRaises(arena.ConnectionLost) as nowhere:
            arena.Client("/nowhere/socket")
        self.assertIs(nowhere.exception.done, False)


class WithoutWaiting(unittest.TestCase):
    """Requests that are sent without waiting, over one end of a pair of sockets."""

    def setUp(self) -> None:
        mine, self.other = socket.socketpair()
        self.client = arena.Client.over(mine)

    def tearDown(self) -> None:
        self.client.close()
        self.other.close()

    def test_replies_come_as_they_come(self) -> None:
        self.client.send_requests([requests.submit(JOB), requests.collect(9), requests.cancel(9)])
        self.assertEqual(self.other.recv(9999).count(b"\n"), 3)
        self.assertEqual(self.client.replies(), [])
        self.other.sendall(b'{"job":4}\n{"code":6,"err')
        self.assertTrue(select.select([self.client], [], [], SOON)[0])
        (first,) = self.client.replies()
        self.assertEqual((first.request.what, first.answer, first.fault), ("submit", 4, None))
        with self.assertRaises(arena.InUse):
            self.client.poll(4)
        self.other.sendall(b'or":"unknown_job"}\n{"first":true,"job":9}\n')
        second, third = self.client.replies()
        self.assertIsInstance(second.fault, arena.UnknownJob)
        self.assertIs(third.answer, True)

    def test_calls_that_wait_follow(self) -> None:
        self.client.send_requests([requests.submit(JOB)])
        self.other.sendall(b'{"job":1}\n')
        self.assertEqual(len(self.client.replies()), 1)
        self.other.sendall(complete(1, 49))
        self.assertEqual(self.client.collect(1, timeout=SOON), arena.Complete(49, 1))

    def test_what_has_no_room_is_sent_later(self) -> None:
        many = [requests.submit(JOB)] * 20_000
        self.client.send_requests(many)
        self.assertTrue(self.client.has_unsent)
        taken = 0
        while taken < sum(len(it.line) for it in many):
            taken += len(self.other.recv(1 << 20))
            self.client.flush()
        self.assertFalse(self.client.has_unsent)

    def test_the_end_comes_after_the_replies(self) -> None:
        self.client.send_requests([requests.submit(JOB), requests.submit(JOB)])
        self.other.sendall(b'{"job":1}\n')
        self.other.close()
        self.assertEqual([it.answer for it in self.client.replies()], [1])
        with self.assertRaises(arena.ConnectionLost):
            self.client.replies()
        self.assertFalse(self.client.is_open)

    def test_replies_to_nothing_are_strange(self) -> None:
        self.other.sendall(b'{"job":1}\n')
        with self.assertRaises(arena.StrangeReply):
            self.client.replies()
        self.assertFalse(self.client.is_open)

    def test_sockets_of_others_are_not_made_anew(self) -> None:
        with self.assertRaises(arena.ConnectionLost) as lost:
            self.client.reconnect()
        self.assertIn("only whoever made it", str(lost.exception))

    def test_asyncio_takes_them_too(self) -> None:
        async def polled() -> object:
            """Polls job 1 over the other end."""
            async with aio.Client.over(self.other, timeout=SOON) as client:
                return await client.poll(1)
        self.client._connection._stream.socket.sendall(b'{"job":1,"status":"running"}\n')
        self.assertEqual(asyncio.run(polled()), arena.Running(1))


@unittest.skipUnless(shutil.which("openssl"), "openssl is not installed")
class OverTls(unittest.TestCase):
    """A server behind TLS that wants a certificate."""

    def setUp(self) -> None:
        self.folder = tempfile.TemporaryDirectory()
        self.key, self.certificate = (os.path.join(self.folder.name, name) for name in ("key", "crt"))
        subprocess.run(["openssl", "req", "-x509", "-newkey", "ec", "-pkeyopt", "ec_paramgen_curve:prime256v1", "-nodes",
                        "-days", "2", "-subj", "/CN=localhost", "-addext", "subjectAltName=DNS:localhost", "-keyout",
                        self.key, "-out", self.certificate], check=True, capture_output=True)
        self.listener = socket.create_server(("127.0.0.1", 0))

    def tearDown(self) -> None:
        self.listener.close()
        self.folder.cleanup()

    def place(self, certificate: bool = True) -> Tls:
        """Where the server is."""
        context = Tls.make_context(self.certificate, *((self.certificate, self.key) if certificate else ()))
        return Tls("127.0.0.1", self.listener.getsockname()[1], context, "localhost")

    def serve(self, talk: Callable[[ssl.SSLSocket], None]) -> threading.Thread:
        """Takes one connection whose client has a certificate."""
        context = ssl.SSLContext(ssl.PROTOCOL_TLS_SERVER)
        context.load_cert_chain(self.certificate, self.key)
        context.load_verify_locations(self.certificate)
        context.verify_mode = ssl.CERT_REQUIRED

        def one() -> None:
            """Takes it."""
            made, _ = self.listener.accept()
            try:
                with context.wrap_socket(made, server_side=True) as secure:
                    talk(secure)
            except OSError:
                made.close()  # the client was refused
        thread = threading.Thread(target=one, daemon=True)
        thread.start()
        return thread

    def answer(self, secure: ssl.SSLSocket) -> None:
        """Answers hello and a collect, in many small parts and in one large one."""
        with secure.makefile("rb") as lines:
            lines.readline()
            for part in b'{"tenant":"acme"}\n':
                secure.sendall(bytes([part]))
            lines.readline()
            secure.sendall(complete(1, 5) * 1000)
            lines.read()

    def test_calls(self) -> None:
        thread = self.serve(self.answer)
        with arena.Client(self.place(), "acme", timeout=SOON) as client:
            client.send_requests([requests.collect(1)] * 1000)
            found: list[object] = []
            while len(found) < 1000:
                self.assertTrue(select.select([client], [], [], SOON)[0])
                found += [it.answer for it in client.replies()]
            self.assertEqual(found, [arena.Complete(5, 1)] * 1000)
        thread.join(SOON)

    def test_asyncio(self) -> None:
        async def collected() -> object:
            """Collects job 1."""
            async with aio.Client(self.place(), "acme", timeout=SOON) as client:
                return await client.collect(1)
        thread = self.serve(self.answer)
        self.assertEqual(asyncio.run(collected()), arena.Complete(5, 1))
        thread.join(SOON)

    def test_clients_without_a_certificate_are_refused(self) -> None:
        thread = self.serve(self.answer)
        with self.assertRaises(arena.ConnectionLost):
            arena.Client(self.place(certificate=False), "acme", timeout=SOON)
        thread.join(SOON)

    def test_connecting_has_the_deadline(self) -> None:
        with self.assertRaises(arena.TimedOut) as over:
            arena.Client(self.place(), "acme", timeout=0.2)
        self.assertIs(over.exception.done, False)


if __name__ == "__main__":
    unittest.main()

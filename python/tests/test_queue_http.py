"""The queue over HTTP: its requests, what is refused, and that tenants see their own jobs alone."""
import asyncio
import http.client
import importlib.util
import json
import logging
import os
import socket
import tempfile
import threading
import time
import unittest
from base64 import b64encode
from urllib.parse import quote

from arena.host.address import Address
from arena.queue.model import Ending, State, Wants
from arena.queue.turns import Turns

SQUARE = [[["mul", 2, 0, 0], ["ret", 2]]]
SOON = 60.0
ALL = Wants({}, 5000, 10)


@unittest.skipUnless(importlib.util.find_spec("aiohttp"), "aiohttp is not installed")
class WithService(unittest.TestCase):
    """Each test has a queue, two tenants with tokens, and a service in a thread."""

    rate = 1_000_000.0

    def setUp(self) -> None:
        from arena.queue.http.service import served
        logging.disable()
        self.addCleanup(logging.disable, logging.NOTSET)
        self.folder = self.enterContext(tempfile.TemporaryDirectory())
        self.path = os.path.join(self.folder, "queue.sqlite")
        self.queue = self.enterContext(Turns(self.path, "off", make=True))
        self.acme, self.beta = self.queue.new_token("acme"), self.queue.new_token("beta")
        began, self.port, loop, ended = threading.Event(), 0, asyncio.new_event_loop(), asyncio.Event()

        def at(port: int) -> None:
            """Notes the port."""
            self.port = port
            began.set()
        thread = threading.Thread(target=loop.run_until_complete,
                                  args=(served(self.path, Address("127.0.0.1", 0), self.rate, at, ended),))
        thread.start()

        def end() -> None:
            """Ends the service."""
            loop.call_soon_threadsafe(ended.set)
            thread.join(SOON)
            loop.close()
        self.addCleanup(end)
        self.assertTrue(began.wait(SOON))

    def ask(self, method: str, path: str, body: object = None, token: str | None = "", raw: bytes | None = None,
            ) -> tuple[int, object]:
        """The status and the value of an answer. The token is acme's, unless another one is given, or None."""
        connection = http.client.HTTPConnection("127.0.0.1", self.port, timeout=SOON)
        headers = {} if token is None else {"Authorization": f"Bearer {token or self.acme}"}
        try:
            connection.request(method, path, raw if raw is not None else None if body is None else json.dumps(body), headers)
            response = connection.getresponse()
            text = response.read()
            return response.status, json.loads(text) if "json" in response.headers["Content-Type"] else text.decode()
        finally:
            connection.close()

    def end_all(self, value: int) -> None:
        """Ends all jobs that are ready with a value."""
        me = self.queue.register("me", SOON)
        claims = [it for some in self.queue.turn(me, wants=ALL).claims.values() for it in some]
        self.queue.turn(me, [Ending(it.job, it.attempt, State.COMPLETE, value) for it in claims])


class Requests(WithService):
    """What is asked, and what is refused."""

    def test_a_job_and_its_value(self) -> None:
        new = {"procs": SQUARE, "args": [12, 0], "fuel": 10, "key": "order-17"}
        self.assertEqual(self.ask("POST", "/v1/jobs", new), (201, {"job": 1, "made": True}))
        self.assertEqual(self.ask("POST", "/v1/jobs", new), (201, {"job": 1, "made": False}))
        self.assertEqual(self.ask("POST", "/v1/jobs", {**new, "fuel": 11})[0], 409)
        status, job = self.ask("GET", "/v1/jobs/1")
        assert isinstance(job, dict)
        self.assertEqual((status, job["state"], job["args"]), (200, "ready", [12, 0]))
        timer = threading.Timer(0.2, lambda: self._end_elsewhere(144))
        timer.start()
        began = time.monotonic()
        status, job = self.ask("GET", "/v1/jobs/1?wait=55")
        assert isinstance(job, dict)
        self.assertEqual((job["state"], job["value"]), ("complete", 144))
        self.assertLess(time.monotonic() - began, 50)
        timer.join()
        self.assertEqual(self.ask("POST", "/v1/jobs", {"program": job["program"], "args": [1, 1]})[0], 201)
        self.assertEqual(self.ask("POST", "/v1/jobs", {"program": job["program"]}, self.beta)[0], 400, "another tenant's")

    def _end_elsewhere(self, value: int) -> None:
        with Turns(self.path, "off") as other:
            me = other.register("other", SOON)
            claims = other.turn(me, wants=ALL).claims["acme"]
            other.turn(me, [Ending(it.job, it.attempt, State.COMPLETE, value) for it in claims])

    def test_many(self) -> None:
        status, made = self.ask("POST", "/v1/jobs", [{"source": "fn main(a) { return a * a }", "args": [n, 0]} for n in range(1000)])
        assert isinstance(made, list)
        self.assertEqual((status, [it["job"] for it in made]), (201, list(range(1, 1001))))
        status, found = self.ask("GET", "/v1/jobs?limit=2&before=500&state=ready")
        assert isinstance(found, list)
        self.assertEqual([it["job"] for it in found], [499, 498])
        self.assertEqual(self.ask("POST", "/v1/jobs", [{"procs": SQUARE}] * 1001)[0], 400)
        self.assertEqual(self.ask("POST", "/v1/jobs", [])[0], 400)
        status, fault = self.ask("POST", "/v1/jobs", [{"procs": SQUARE}, {"procs": SQUARE, "fuel": 0}])
        self.assertEqual((status, fault), (400, {"error": "[1]: fuel: a whole number from 1 to 1000000"}))
        self.assertEqual(self.queue.counts(State.READY), 1000, "all or none")

    def test_requests_at_once(self) -> None:
        found: list[tuple[int, object]] = []
        threads = [threading.Thread(target=lambda n=n: found.append(self.ask(
            "POST", "/v1/jobs", {"procs": SQUARE, "args": [n % 2, 0], "key": "one"}))) for n in range(20)]
        for it in threads:
            it.start()
        for it in threads:
            it.join()
        statuses = sorted(status for status, _ in found)
        self.assertEqual(statuses, [201] * 10 + [409] * 10)

    def test_tenants_see_their_own(self) -> None:
        self.ask("POST", "/v1/jobs", {"procs": SQUARE})
        for method, path in (("GET", "/v1/jobs/1"), ("POST", "/v1/jobs/1/cancel"), ("POST", "/v1/jobs/1/retry")):
            self.assertEqual(self.ask(method, path, token=self.beta)[0], 404, path)
        self.assertEqual(self.ask("GET", "/v1/jobs", token=self.beta), (200, []))
        self.assertEqual(self.ask("GET", "/v1/stats", token=self.beta)[1],
                         {"tenant": "beta", "jobs": {it.value: 0 for it in State}})
        self.assertIn('arena_queue_jobs{tenant="acme",state="ready"} 1\n', str(self.ask("GET", "/metrics")[1]))
        self.assertNotIn("acme", str(self.ask("GET", "/metrics", token=self.beta)[1]))

    def test_limits_of_a_token(self) -> None:
        small = self.queue.new_token("acme", rate=0.001, bytes=60)
        self.assertEqual(self.ask("POST", "/v1/jobs", raw=b" " * 61, token=small)[0], 413)
        self.assertEqual(self.ask("GET", "/v1/stats", token=small)[0], 429)
        self.assertEqual(self.ask("POST", "/v1/jobs", {"procs": SQUARE})[0], 201, "others have their own")

    def test_a_body_without_a_length(self) -> None:
        small = self.queue.new_token("acme", bytes=60)
        for body, wanted in ((b"{" + b" " * 60, 413), (b'{"procs":[[["ret",0]]]}', 201)):
            connection = http.client.HTTPConnection("127.0.0.1", self.port, timeout=SOON)
            connection.request("POST", "/v1/jobs", iter([body]), {"Authorization": f"Bearer {small}"}, encode_chunked=True)
            self.assertEqual(connection.getresponse().status, wanted)
            connection.close()

    def test_the_page(self) -> None:
        self.ask("POST", "/v1/jobs", {"source": "fn main(a) {\n    return 1 / a;\n}", "key": "<k>"})
        me = self.queue.register("me", SOON)
        self.queue.turn(me, wants=ALL)
        self.queue.turn(me, [Ending(1, 1, State.FAULT, fault=1)])
        self.ask("POST", "/v1/jobs", {"procs": SQUARE})
        for way, wanted in (("Bearer " + self.acme, 200), ("Basic " + b64encode(f":{self.acme}".encode()).decode(), 200),
                            ("Basic " + b64encode(self.acme.encode()).decode(), 401), ("Basic \u00e9", 401), ("", 401)):
            connection = http.client.HTTPConnection("127.0.0.1", self.port, timeout=SOON)
            connection.request("GET", "/", headers={"Authorization": way.encode()})
            said = connection.getresponse()
            text = said.read().decode()
            self.assertEqual(said.status, wanted, way)
            self.assertIn("Basic" if wanted == 401 else "default-src 'none'",
                          said.headers["WWW-Authenticate" if wanted == 401 else "Content-Security-Policy"])
            if wanted == 200:
                for part in ("main, line 2", "return 1 / a;", "&lt;k&gt;", '<b class="ready">1</b>'):
                    self.assertIn(part, text)
            connection.close()

    def test_tokens(self) -> None:
        for token in (None, "nobody", "\u00e9"):
            self.assertEqual(self.ask("GET", "/v1/jobs", token=token)[0], 401)
        self.assertEqual(self.ask("GET", "/healthz", token=None), (200, {"ok": True}))
        self.assertEqual(self.ask("GET", "/v1/jobs", token=self.queue.base.rows("SELECT hash FROM token")[0][0])[0], 401)
        self.assertEqual(self.queue.drop_tokens("acme"), 1)
        self.assertIsNone(self.queue.grant_of(self.acme))

    def test_cancel_and_retry(self) -> None:
        self.ask("POST", "/v1/jobs", {"procs": SQUARE, "delay": 3600})
        self.assertEqual(self.ask("POST", "/v1/jobs/1/cancel"), (200, {"job": 1, "state": "canceled"}))
        self.assertEqual(self.ask("POST", "/v1/jobs/1/retry"), (200, {"job": 1, "state": "ready"}))
        self.end_all(1)
        self.assertEqual(self.ask("POST", "/v1/jobs/1/retry")[0], 409)

    def test_what_is_wrong(self) -> None:
        for body in ({}, 7, None, "x", {"procs": SQUARE, "source": ""}, {"procs": []}, {"procs": {}}, {"procs": [[["nothing"]]]},
                     {"source": "fn main( {"}, {"source": 7}, {"source": "\ud800"}, {"program": "none"}, {"program": "a\0"}, {"source": "a\0"}, {"program": "\u00e9"},
                     *({"procs": SQUARE, **it} for it in (
                         {"args": [1]}, {"args": [1, 2**63]}, {"args": [1, True]}, {"args": [1, 1.5]}, {"fuel": "1"}, {"key": 7},
                         {"key": ""}, {"key": "a\0"}, {"key": "k" * 201}, {"key": "\ud800"}, {"priority": 1001}, {"delay": -1}, {"delay": "1"},
                         {"failures": 0}, {"more": 1}))):
            status, fault = self.ask("POST", "/v1/jobs", body, raw=b"null" if body is None else None)
            self.assertEqual((status, isinstance(fault, dict) and list(fault)), (400, ["error"]), body)
        for raw in (b"", b"{", b"\xff", b"[" * 100_000, b'{"procs":' + b"[" * 5000, b'{"delay":NaN,"procs":[[["ret",0]]]}'):
            self.assertEqual(self.ask("POST", "/v1/jobs", raw=raw)[0], 400, raw[:20])
        self.assertEqual(self.ask("POST", "/v1/jobs", raw=b" " * (9 << 20))[0], 413)
        for path, wanted in (("/v1/jobs/x", 404), ("/v1/jobs/-1", 404), (f"/v1/jobs/{2**64}", 404), ("/v1/jobs/9", 404),
                             ("/v1/jobs/1?wait=x", 400), ("/v1/jobs/1?wait=61", 400), ("/v1/jobs?limit=-5", 400),
                             ("/v1/jobs?limit=1001", 400), ("/v1/jobs?state=none", 400), ("/v1/jobs?before=\u0663", 400),
                             ("/v2", 404), ("/v1/jobs/%00", 404)):
            self.assertEqual(self.ask("GET", quote(path, "/?=&%"))[0], wanted, path)
        self.assertEqual(self.ask("DELETE", "/v1/jobs")[0], 405)
        self.assertEqual(self.ask("DELETE", "/v2", token=None)[0], 401, "before it is known whether there is such a path")
        self.assertEqual(self.queue.listed(), [])

    def test_methods_and_expectations(self) -> None:
        """A method that a path has not, the head of an answer alone, and a client that asks before it sends its body."""
        def said(head: str, body: bytes = b"") -> list[bytes]:
            """The lines of what is answered, after which the connection ends."""
            with socket.create_connection(("127.0.0.1", self.port), timeout=SOON) as link:
                link.sendall(f"{head}\r\nHost: here\r\nConnection: close\r\nAuthorization: Bearer {self.acme}\r\n\r\n".encode() + body)
                return b"".join(iter(lambda: link.recv(4096), b"")).split(b"\r\n")
        for coding in ("gzip", "deflate"):
            answer = said(f"POST /v1/jobs HTTP/1.1\r\nContent-Encoding: {coding}\r\nContent-Length: 2", b"{}")
            self.assertIn(b" 400 ", answer[0], "the body is not what its headers say")
        self.assertIn(b"Allow: GET,HEAD,POST", said("PUT /v1/jobs HTTP/1.1"))
        self.assertIn(b"Allow: POST", said("GET /v1/jobs/1/retry HTTP/1.1"))
        self.assertEqual((said("HEAD /healthz HTTP/1.1")[0], said("HEAD /healthz HTTP/1.1")[-1]), (b"HTTP/1.1 200 OK", b""))
        body = json.dumps({"procs": SQUARE}).encode()
        post = f"POST /v1/jobs HTTP/1.1\r\nContent-Length: {len(body)}\r\nExpect: "
        self.assertEqual(said(f"{post}100-continue", body)[:3], [b"HTTP/1.1 100 Continue", b"", b"HTTP/1.1 201 Created"])
        self.assertEqual(said(f"{post}tea", body)[0], b"HTTP/1.1 417 Expectation Failed")
        self.assertEqual(len(self.queue.listed()), 1)

    def test_a_file_that_is_lost(self) -> None:
        self.assertEqual(self.ask("GET", "/healthz")[0], 200)
        self.queue.base.change("ALTER TABLE job RENAME TO gone")
        status, fault = self.ask("GET", "/v1/jobs")
        self.assertEqual(status, 503)
        self.assertNotIn(self.folder, str(fault))
        self.queue.base.change("ALTER TABLE gone RENAME TO job")
        self.assertEqual(self.ask("GET", "/v1/jobs"), (200, []))

    def test_the_description(self) -> None:
        status, it = self.ask("GET", "/openapi.json", token=None)
        assert isinstance(it, dict)
        self.assertEqual((status, it["openapi"]), (200, "3.0.3"))
        paths = {path for path, _ in self._routes()}
        self.assertEqual(set(it["paths"]), paths - {"/openapi.json"})
        self.assertEqual({(path, method) for path, of in it["paths"].items() for method in of},
                         {(path, method.lower()) for path, method in self._routes() if path != "/openapi.json"})

    def _routes(self) -> set[tuple[str, str]]:
        from arena.queue.http.access import Access
        from arena.queue.http.service import Service as Its
        return {(path, method) for path, methods in Its(Access(self.path), 1.0).paths.items() for method in methods}


class Rates(WithService):
    """A token that may ask once in a hundred seconds."""

    rate = 0.01

    def test_rates(self) -> None:
        self.assertEqual([self.ask("GET", "/v1/stats")[0] for _ in range(3)], [200, 429, 429])
        self.assertEqual(self.ask("GET", "/v1/stats", token=self.beta)[0], 200, "another token")
        self.assertEqual(self.ask("GET", "/healthz", token=None)[0], 200)


if __name__ == "__main__":
    unittest.main()

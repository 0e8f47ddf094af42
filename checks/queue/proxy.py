"""HAProxy with examples/queue/haproxy.cfg before two services: TLS, long polls, refusals that pass through, and a service that ends."""
import http.client
import json
import shutil
import socket
import ssl
import subprocess
from dataclasses import dataclass

import places
from processes import PATIENCE, Place, Process, place, until

EXAMPLES = places.TOP / "examples"
NAME = "queue.example.org"
SQUARE = {"procs": [[["mul", 2, 0, 0], ["ret", 2]]], "args": [12, 0], "fuel": 10}


def free_port() -> int:
    """A port of this machine that nobody uses now."""
    with socket.create_server(("127.0.0.1", 0)) as it:
        return int(it.getsockname()[1])


def replaced(text: str, changes: dict[str, str]) -> str:
    """A text with all changes, each of which must have a place there."""
    for old, new in changes.items():
        assert old in text, f"the configuration has no {old!r}"
        text = text.replace(old, new)
    return text


@dataclass
class Proxied:
    """HAProxy, before two services of one queue."""

    at: Place
    services: list[Process]
    port: int
    plain_port: int
    token: str

    def ask(self, method: str, path: str, body: object = None, token: str | None = "", is_plain: bool = False) -> tuple[int, str, object]:
        """The status, where else to go, and the value of an answer, over TLS by the authority's word."""
        link = http.client.HTTPConnection("127.0.0.1", self.plain_port, timeout=PATIENCE)
        if not is_plain:
            trusting = ssl.create_default_context(cafile=self.at.folder / "tls" / "ca.crt")
            link.sock = trusting.wrap_socket(socket.create_connection(("127.0.0.1", self.port), PATIENCE), server_hostname=NAME)
        try:
            link.request(method, path, None if body is None else json.dumps(body),
                         {} if token is None else {"Authorization": f"Bearer {token or self.token}"})
            said = link.getresponse()
            text = said.read()
            is_json = "json" in said.headers.get("Content-Type", "")
            return said.status, said.headers.get("Location", ""), json.loads(text) if is_json else text
        finally:
            link.close()

    def wait_until_answered(self) -> None:
        """Waits until HAProxy has found a service that is well."""
        until(lambda: self.ask("GET", "/healthz", token=None)[0] == 200, "a service behind HAProxy")


def proxied(at: Place, python: str) -> Proxied:
    """The services, and HAProxy before them."""
    ports = [free_port() for _ in range(4)]
    services = [at.process(f"serve{port}", python, "-m", "arena", "queue", "serve", "-q", at.queue, "--listen", f"127.0.0.1:{port}")
                for port in ports[:2]]
    certificate = at.folder / "tls" / subprocess.run([EXAMPLES / "haproxy" / "certificates.sh", at.folder / "tls", "server", NAME],
                                                     capture_output=True, text=True, check=True).stdout.split()[-1]
    text = replaced((EXAMPLES / "queue" / "haproxy.cfg").read_text(), {
        "log /dev/log local0": "log stdout format raw local0", "    user haproxy\n    group haproxy\n": "",
        "bind :80\n": f"bind 127.0.0.1:{ports[2]}\n", "bind :443 ": f"bind 127.0.0.1:{ports[3]} ",
        "/etc/haproxy/arena/queue.pem": str(certificate), "127.0.0.1:9780": f"127.0.0.1:{ports[0]}",
        "# server two queue2.example.org:9780": f"server two 127.0.0.1:{ports[1]}", "maxconn 4000": "maxconn 200"})
    (at.folder / "haproxy.cfg").write_text(text)
    front = at.process("haproxy", shutil.which("haproxy"), "-db", "-f", at.folder / "haproxy.cfg")
    for it in (*services, front):
        it.start()
    until(lambda: all("serving at" in it.printed() for it in services), "the services", why=services[0].printed)
    until(lambda: is_open(ports[3]), "HAProxy", why=front.printed)
    made = Proxied(at, services, ports[3], ports[2], at.arena("queue", "token").strip())
    made.wait_until_answered()
    return made


def is_open(port: int) -> bool:
    """Whether somebody listens at a port."""
    try:
        socket.create_connection(("127.0.0.1", port)).close()
    except OSError:
        return False
    return True


def jobs_pass_through_haproxy() -> None:
    """What is asked over TLS is answered as by the service itself, and goes on when one of two services ends."""
    python = places.python_with("aiohttp")
    if python is None or shutil.which("haproxy") is None or shutil.which("openssl") is None:
        print("aiohttp, HAProxy or openssl is not installed: HAProxy before the queue was not tried")
        return
    with place() as at:
        at.arena("queue", "init")
        for it in (at.host(0), at.dispatcher(0, 0)):
            it.start()
        web = proxied(at, python)
        assert web.ask("GET", "/v1/jobs/1", token=None)[0] == 401
        assert web.ask("GET", "/", is_plain=True)[:2] == (301, f"https://127.0.0.1:{web.plain_port}/")
        for service, key in zip(web.services, ("first", "second"), strict=True):
            status, _, made = web.ask("POST", "/v1/jobs", {**SQUARE, "key": key})
            assert status == 201 and isinstance(made, dict) and made["made"], made
            until(lambda: web.ask("GET", f"/v1/jobs/{made['job']}?wait=60")[2]["state"] == "complete", "the job's end")
            assert web.ask("POST", "/v1/jobs", {**SQUARE, "key": key})[::2] == (201, {"job": made["job"], "made": False})
            service.kill()
            if service is web.services[0]:
                web.wait_until_answered()
        until(lambda: web.ask("GET", "/healthz", token=None)[0] == 503, "the answer of HAProxy that no service is there")
        web.services[0].start()
        web.wait_until_answered()
        assert web.ask("GET", f"/v1/jobs/{made['job']}")[2]["value"] == 144


CHECKS = (jobs_pass_through_haproxy,)

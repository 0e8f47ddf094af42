"""HAProxy with the configurations of examples/haproxy, in a folder of the check's own, and its clients."""
import json
import pathlib
import shutil
import socket
import ssl
import subprocess
import time
import urllib.request
from collections.abc import Callable
from dataclasses import dataclass, field

from shards import EXAMPLES, Shard, run

FRONT, INNER = "front.example.org", "shard2.example.org"
# How many connections a shard has at a time, and a tenant in all, in place of those of the examples.
SESSIONS, OF_TENANT = 4, 12
# How long anything may take that comes by itself, in seconds, and how long a client has for its first line, in place of
# ten.
SOON, FIRST_LINE = 60, 3


def free_port() -> int:
    """A port of this machine that nobody uses now."""
    with socket.create_server(("127.0.0.1", 0)) as it:
        return it.getsockname()[1]


def replaced(text: str, changes: dict[str, object]) -> str:
    """A text with all changes, each of which must have a place there."""
    for old, new in changes.items():
        assert old in text, f"the configuration has no {old!r}"
        text = text.replace(old, str(new))
    return text


@dataclass
class Client:
    """A client of the front, by a certificate, or by none. What it sends and gets are lines of JSON."""

    line: ssl.SSLSocket

    def send(self, *requests: object) -> None:
        """Sends requests: lines as they are, others as JSON."""
        lines = (it if isinstance(it, str) else json.dumps(it, separators=(",", ":")) for it in requests)
        self.line.sendall("".join(f"{it}\n" for it in lines).encode())

    def replies(self, count: int) -> list[dict]:
        """The next replies, fewer if the connection ends before. Raises TimeoutError if they don't come soon."""
        self.line.settimeout(SOON)
        got = b""
        while got.count(b"\n") < count and (some := self.line.recv(1 << 16)):
            got += some
        return [json.loads(it) for it in got.splitlines()]

    def ask(self, *requests: object) -> list[dict]:
        """Sends requests, and returns their replies."""
        self.send(*requests)
        return self.replies(len(requests))

    def has_reply(self) -> bool:
        """Whether a reply or an end comes within a moment. A reply is lost then."""
        self.line.settimeout(0.5)
        try:
            self.line.recv(1)
            return True
        except TimeoutError:
            return False

    def is_closed(self) -> bool:
        """Whether the other side ends the connection soon."""
        self.line.settimeout(SOON)
        return self.line.recv(1) == b""

    def close(self) -> None:
        """Ends the connection."""
        self.line.close()

    def __enter__(self) -> "Client":
        return self

    def __exit__(self, *_: object) -> None:
        self.close()


@dataclass
class Front:
    """The front with two shards: the first by its socket, the second as on another machine, by TLS."""

    folder: pathlib.Path
    shards: tuple[Shard, Shard]
    port: int = field(default_factory=free_port)
    metrics_port: int = field(default_factory=free_port)
    inner_port: int = field(default_factory=free_port)
    processes: list[subprocess.Popen] = field(default_factory=list)

    def certificate(self, kind: str, name: str, folder: str = "") -> pathlib.Path:
        """Makes a certificate, and returns its path."""
        there = self.folder / folder
        return there / run(EXAMPLES / "certificates.sh", there, kind, name).split()[-1]

    def changes(self, folder: pathlib.Path, shard: Shard) -> dict[str, object]:
        """What the check changes of both configurations."""
        return {"log /dev/log local0": "log stdout format raw local0", "    user haproxy\n    group arena\n": "",
                "/etc/haproxy/arena": folder, "/run/haproxy": folder, "/var/lib/arena/socket": shard.socket,
                "maxconn 60": f"maxconn {SESSIONS}"}

    def write(self) -> None:
        """Writes both configurations, the second in the folder of the other machine."""
        inner = self.folder / "inner"
        inner.mkdir()
        self.certificate("server", FRONT).rename(self.folder / "server.pem")
        self.certificate("server", INNER).rename(inner / "server.pem")
        self.certificate("front", FRONT)
        shutil.copy(self.folder / "ca.crt", inner)
        text = (EXAMPLES / "front.cfg").read_text()
        commented = text[text.index("# backend shard2\n"):].split("\n\n")[0]
        text = text.replace(commented, commented.replace("# ", ""))
        text = replaced(text, {":7443": f"127.0.0.1:{self.port}", f"{INNER}:7444": f"127.0.0.1:{self.inner_port}",
                               "127.0.0.1:8404": f"127.0.0.1:{self.metrics_port}", "maxconn 20000": "maxconn 500",
                               "gt 500": f"gt {OF_TENANT}", "inspect-delay 10s": f"inspect-delay {FIRST_LINE}s",
                               **self.changes(self.folder, self.shards[0])})
        (self.folder / "front.cfg").write_text(text)
        text = replaced((EXAMPLES / "shard.cfg").read_text(), {
            ":7444": f"127.0.0.1:{self.inner_port}", "maxconn 1000": "maxconn 100", **self.changes(inner, self.shards[1])})
        (inner / "shard.cfg").write_text(text)

    def start(self) -> None:
        """Starts both, and waits until they listen."""
        for path, port in (("front.cfg", self.port), ("inner/shard.cfg", self.inner_port)):
            run("haproxy", "-c", "-f", self.folder / path)
            with open(self.folder / f"{path}.log", "a") as log:
                self.processes.append(subprocess.Popen(["haproxy", "-db", "-f", self.folder / path], stdout=log, stderr=log))
            wait_for(lambda at=port: is_open(at), "HAProxy listens")

    def stop(self) -> None:
        """Ends both."""
        for process in self.processes:
            process.terminate()
            process.wait(timeout=SOON)
        self.processes.clear()

    def connect(self, certificate: pathlib.Path | None, port: int | None = None, name: str = FRONT) -> Client:
        """A client that trusts the front's authority."""
        context = ssl.create_default_context(cafile=self.folder / "ca.crt")
        if certificate:
            context.load_cert_chain(certificate)
        line = socket.create_connection(("127.0.0.1", port or self.port), timeout=SOON)
        return Client(context.wrap_socket(line, server_hostname=name))

    def metrics(self) -> dict[str, float]:
        """What a Prometheus would read: each value by its name with its labels."""
        with urllib.request.urlopen(f"http://127.0.0.1:{self.metrics_port}/metrics", timeout=SOON) as page:
            lines = page.read().decode().splitlines()
        return {name: float(value) for name, value in (it.rsplit(" ", 1) for it in lines if it and it[0] != "#")}

    def queue(self) -> int:
        """How many clients wait for the first shard."""
        return int(self.metrics()['haproxy_backend_current_queue{proxy="shard1"}'])


def is_open(port: int) -> bool:
    """Whether somebody listens at a port."""
    with socket.socket() as it:
        return it.connect_ex(("127.0.0.1", port)) == 0


def wait_for(holds: Callable[[], bool], what: str) -> None:
    """Waits until something holds, and fails if it does not soon."""
    end = time.monotonic() + SOON
    while not holds():
        assert time.monotonic() < end, f"not within {SOON} s: {what}"
        time.sleep(0.02)

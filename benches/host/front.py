#!/usr/bin/env python3
"""Measures HAProxy with examples/haproxy/front.cfg in front of one host: new TLS connections a second, the processor time that
one takes of the front, and the memory that it takes to hold clients in the queue.

usage: benches/host/front.py [SECONDS [CLIENTS [HOST]]], at the top of the repository. Each rate takes SECONDS, five if none are
said, and 9,000 clients are held if no number is said; a front needs two open files for each. It needs HAProxy, openssl, and
out/arena-host of `make build` if no program is said. All of it is on this machine, by loopback addresses.
"""
import asyncio
import os
import pathlib
import re
import resource
import ssl
import subprocess
import sys
import tempfile
import time
from dataclasses import dataclass

TOP = pathlib.Path(__file__).resolve().parents[2]
sys.path.insert(0, str(TOP / "checks/haproxy"))
import shards  # noqa: E402  it says where the other modules' imports are
from front import FRONT, Front, is_open, replaced, wait_for  # noqa: E402
from shards import EXAMPLES, Shard  # noqa: E402

SECONDS = int(sys.argv[1]) if len(sys.argv) > 1 else 5
CLIENTS = int(sys.argv[2]) if len(sys.argv) > 2 else 9000
PROGRAM = sys.argv[3] if len(sys.argv) > 3 else os.path.abspath("out/arena-host")
AT_A_TIME = (1, 2, 4)
VISITS = 500
STEP = 3000
HELLO = b'{"op":"hello","tenant":"acme"}\n'


@dataclass
class Measured:
    """A front that runs, with the files of its client."""

    front: Front
    certificate: pathlib.Path
    process: subprocess.Popen

    def processor(self) -> float:
        """The seconds of processors that it has taken so far."""
        words = pathlib.Path(f"/proc/{self.process.pid}/stat").read_text().rpartition(")")[2].split()
        return (int(words[11]) + int(words[12])) / os.sysconf("SC_CLK_TCK")

    def memory(self) -> float:
        """Its resident memory, in MB."""
        said = re.search(r"VmRSS:\s+(\d+) kB", pathlib.Path(f"/proc/{self.process.pid}/status").read_text())
        return int(said[1]) / 1000

    def context(self) -> ssl.SSLContext:
        """What a client in Python trusts, and its certificate."""
        context = ssl.create_default_context(cafile=self.front.folder / "ca.crt")
        context.load_cert_chain(self.certificate)
        return context


def started(folder: pathlib.Path, shard: Shard) -> Measured:
    """Starts the front with one shard, which has 60 connections, as in front.cfg, and with room for all clients."""
    front = Front(folder, (shard, shard))
    front.certificate("server", FRONT).rename(folder / "server.pem")
    certificate = front.certificate("client", "acme")
    (folder / "shards.map").write_text("acme shard1\n")
    changes = front.changes(folder, shard)
    del changes["maxconn 60"]  # which is fewer in the checks
    text = replaced((EXAMPLES / "front.cfg").read_text(), {
        ":7443": f"127.0.0.1:{front.port}", "127.0.0.1:8404": f"127.0.0.1:{front.metrics_port}",
        "maxconn 20000": f"maxconn {CLIENTS + 500}", "gt 500": f"gt {CLIENTS + 500}", **changes})
    (folder / "front.cfg").write_text(text)
    with open(folder / "front.log", "w") as log:
        process = subprocess.Popen(["haproxy", "-db", "-f", folder / "front.cfg"], stdout=log, stderr=log)
    wait_for(lambda: is_open(front.port), f"HAProxy listens: {(folder / 'front.log').read_text()}")
    return Measured(front, certificate, process)


def handshakes(measured: Measured, at_a_time: int) -> None:
    """How many connections so many clients of openssl open and close."""
    words = ["openssl", "s_time", "-connect", f"127.0.0.1:{measured.front.port}", "-new", "-time", str(SECONDS), "-cert",
             measured.certificate, "-key", measured.certificate, "-CAfile", measured.front.folder / "ca.crt"]
    before, began = measured.processor(), time.monotonic()
    asking = [subprocess.Popen(words, stdout=subprocess.PIPE, stderr=subprocess.STDOUT, text=True) for _ in range(at_a_time)]
    said = [it.communicate()[0] for it in asking]
    took = time.monotonic() - began
    count = sum(int(re.search(r"(\d+) connections in \d+ real seconds", it)[1]) for it in said)
    cost = 1000 * (measured.processor() - before) / count
    print(f"| opened and closed by {at_a_time} `openssl s_time` | {count / took:,.0f} | {cost:.2f} |", flush=True)


Client = tuple[asyncio.StreamReader, asyncio.StreamWriter]


async def greeted(measured: Measured, context: ssl.SSLContext) -> Client:
    """A client that has said hello."""
    client = await asyncio.open_connection("127.0.0.1", measured.front.port, ssl=context, server_hostname=FRONT)
    client[1].write(HELLO)
    return client


async def visits(measured: Measured) -> None:
    """Clients that come one after another, say hello, get their reply and go."""
    context = measured.context()
    before, began = measured.processor(), time.monotonic()
    for _ in range(VISITS):
        reader, writer = await greeted(measured, context)
        assert await reader.readline() == b'{"tenant":"acme"}\n'
        writer.close()
    took = time.monotonic() - began
    cost = 1000 * (measured.processor() - before) / VISITS
    print(f"| with hello and reply, by one client in Python | {VISITS / took:,.0f} | {cost:.2f} |", flush=True)


async def held(measured: Measured) -> None:
    """Clients that stay, of whom sixty are served and the others are in the queue."""
    context, there, spare = measured.context(), [], asyncio.Semaphore(50)
    print("\n| Clients held | In the queue | After, s | Memory of the front, MB |\n|---|---|---|---|")
    print(f"| 0 | 0 | 0 | {measured.memory():.0f} |")
    began = time.monotonic()

    async def come() -> None:
        async with spare:
            there.append(await greeted(measured, context))

    for _ in range(CLIENTS // STEP):
        await asyncio.gather(*(come() for _ in range(STEP)))
        await asyncio.sleep(2)
        print(f"| {len(there):,} | {measured.front.queue():,} | {time.monotonic() - began:.0f} | {measured.memory():.0f} |", flush=True)
    print(f"\n{sum(reader.at_eof() for reader, _ in there)} of them were cut off")
    for _, writer in there:
        writer.transport.abort()


def main() -> None:
    """Measures all of it with one front and one host."""
    hard = resource.getrlimit(resource.RLIMIT_NOFILE)[1]
    resource.setrlimit(resource.RLIMIT_NOFILE, (hard, hard))
    shards.program, shards.found = lambda: "arena-host", lambda _: pathlib.Path(PROGRAM)
    with tempfile.TemporaryDirectory(prefix="arena-front-") as folder:
        shard = Shard(pathlib.Path(folder) / "shard", ["acme"], 2)
        shard.start()
        measured = started(pathlib.Path(folder), shard)
        try:
            print("| New TLS connections | A second | Processor time of the front for each, ms |\n|---|---|---|")
            for at_a_time in AT_A_TIME:
                handshakes(measured, at_a_time)
            asyncio.run(visits(measured))
            asyncio.run(held(measured))
        finally:
            measured.process.terminate()
            measured.process.wait()
            shard.kill()


if __name__ == "__main__":
    main()

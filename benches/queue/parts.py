#!/usr/bin/env python3
"""Measures parts of the queue: how much longer a claim takes with many jobs waiting, and how many jobs a second are submitted over HTTP
by 64 clients, one in each request. Processor time is compared with that of a fixed piece of Python in the same run.

usage: benches/queue/parts.py [--waiting N] [--seconds S], at the top of the repository
"""
import argparse
import asyncio
import json
import os
import pathlib
import shutil
import sys
import tempfile
import time

HERE = pathlib.Path(__file__).resolve().parent
sys.path[:0] = [str(HERE), str(HERE.parents[1] / "checks" / "queue")]

import places  # noqa: E402
from clients import LOOP  # noqa: E402
from processes import place, until  # noqa: E402
from run import spent  # noqa: E402

from arena.queue import NewJob, Program, State  # noqa: E402
from arena.queue.model import Ending, Wants  # noqa: E402
from arena.queue.turns import Turns  # noqa: E402

REPLY = '{"job":1,"status":"complete","value":8}'
SIZE, TURNS, ROUNDS, CLIENTS = 64, 60, 8, 64
ONE = Program.of([[["ret", 0]]])


def unit() -> float:
    """How many microseconds of processor json.loads takes for a reply here and now, at best."""
    best = float("inf")
    for _ in range(20):
        began = time.process_time()
        for _ in range(5000):
            json.loads(REPLY)
        best = min(best, time.process_time() - began)
    return best * 1e6 / 5000


def prepared(folder: str, waiting: int) -> str:
    """The path of a queue with so many jobs that wait."""
    path = os.path.join(folder, f"{waiting}.sqlite")
    with Turns(path, "off", make=True) as queue:
        for _ in range(0, waiting, 10_000):
            queue.submit([NewJob("acme", ONE, (n, 0)) for n in range(10_000)])
    return path


def turns(original: str, is_empty: bool) -> float:
    """The microseconds of processor, at the lower quartile, for a job that is claimed and ended in turns of 64."""
    times, endings = [], []
    with tempfile.TemporaryDirectory() as folder:
        path = shutil.copy(original, folder)
        with Turns(path, "normal") as queue:
            me = queue.register("me", 1000.0)
            for _ in range(TURNS):
                if is_empty:
                    queue.submit([NewJob("acme", ONE, (n, 0)) for n in range(SIZE)])
                began = time.process_time()
                turn = queue.turn(me, endings, wants=Wants({"acme": SIZE}))
                times.append(time.process_time() - began)
                endings = [Ending(it.job, it.attempt, State.COMPLETE, 8, tenant="acme", ran=100) for it in turn.claims["acme"]]
    return sorted(times)[TURNS // 4] * 1e6 / SIZE


def claims(waiting: int) -> None:
    """Prints how long turns take with no other job, and with many that wait, in turn."""
    with tempfile.TemporaryDirectory() as folder:
        paths = {0: prepared(folder, 0), waiting: prepared(folder, waiting)}
        rounds = [{it: turns(path, it == 0) for it, path in paths.items()} for _ in range(ROUNDS)]
        found = {it: min(one[it] for one in rounds) for it in paths}
    print(f"a job is claimed and ended in {found[0]:.1f} us of processor, with {waiting:,} waiting in {found[waiting]:.1f}: "
          f"{found[waiting] / found[0]:.2f} times as much; json.loads of a reply takes {unit():.1f}")


async def submits(port: int, token: str, seconds: float) -> int:
    """How many jobs were submitted in so many seconds by clients that keep their connections."""
    body = json.dumps({"procs": LOOP, "args": [6, 0], "fuel": 1000})
    request = (f"POST /v1/jobs HTTP/1.1\r\nHost: here\r\nAuthorization: Bearer {token}\r\nContent-Length: {len(body)}\r\n\r\n{body}").encode()
    end = time.perf_counter() + seconds

    async def client() -> int:
        """One of them."""
        done = 0
        reader, writer = await asyncio.open_connection("127.0.0.1", port)
        while time.perf_counter() < end:
            writer.write(request)
            head = (await reader.readuntil(b"\r\n\r\n")).lower()
            assert b" 201 " in head, head
            await reader.readexactly(int(head.partition(b"content-length: ")[2].split()[0]))
            done += 1
        writer.close()
        return done
    return sum(await asyncio.gather(*(client() for _ in range(CLIENTS))))


def spent_by_children(parent: int) -> float:
    """How many seconds of processor time the children of a process have had."""
    pids = pathlib.Path(f"/proc/{parent}/task/{parent}/children").read_text().split()
    return sum(spent(int(it)) for it in pids)


def over_http(processes: int, seconds: float) -> None:
    """Prints how many jobs a second are submitted over HTTP, each flushed, to so many processes."""
    python = places.python_with("aiohttp")
    if python is None:
        print("aiohttp is not installed")
        return
    with place() as at:
        at.arena("queue", "init")
        server = at.process("serve", python, "-m", "arena", "queue", "serve", "-q", at.queue, "--listen", "127.0.0.1:0", "--rate", 1e6,
                            "--processes", processes)
        server.start()
        until(lambda: "serving at" in server.printed(), "the service", why=server.printed)
        port, token = int(server.printed().partition("127.0.0.1:")[2].split()[0]), at.arena("queue", "token").strip()
        asyncio.run(submits(port, token, 1.0))
        before, began = spent_by_children(server.pid), time.perf_counter()
        done = asyncio.run(submits(port, token, seconds))
        took, used = time.perf_counter() - began, 1e6 * (spent_by_children(server.pid) - before) / done
    print(f"{processes} process(es): {done / took:.0f} submissions a second over HTTP by {CLIENTS} clients; {used:.0f} us of processor for each, {used / unit():.0f} "
          f"times json.loads of a reply; load {os.getloadavg()[0]:.1f}")


def main() -> None:
    """Measures both."""
    parser = argparse.ArgumentParser()
    parser.add_argument("--waiting", type=int, default=1_000_000)
    parser.add_argument("--seconds", type=float, default=5.0)
    words = parser.parse_args()
    for processes in (1, 2, 4):
        over_http(processes, words.seconds)
    claims(words.waiting)


if __name__ == "__main__":
    main()

#!/usr/bin/env python3
"""Measures small jobs through the queue, in a file or in PostgreSQL, each submission and outcome flushed or not, beside Celery on Redis,
which writes its file each second or with each command, beanstalkd, which flushes each, and gearmand on SQLite, where these are installed.
All cases are run in turn, several rounds; the last lines are a table of medians and of ratios.

usage: benches/queue/run.py [--seconds S] [--rounds R] [--quick-host], at the top of the repository, with a built host

With --quick-host jobs are not run, but answered at once by a stand-in, so that the queue is measured alone.
"""
import argparse
import contextlib
import json
import os
import pathlib
import shutil
import socket
import statistics
import subprocess
import sys
import time
from collections.abc import Iterator
from dataclasses import dataclass

HERE = pathlib.Path(__file__).resolve().parent
TOP = HERE.parents[1]
sys.path.insert(0, str(TOP / "checks" / "queue"))

import places  # noqa: E402
from processes import Place, Process, place, until  # noqa: E402
from tests.postgres_server import Server, programs, served  # noqa: E402

DEBIAN = "/usr/bin/python3"
"""The interpreter for which Debian installs Celery."""
WINDOWS = (1, 64)
BESIDE = "Celery, each second"


@dataclass(frozen=True)
class Case:
    """What is measured: by which client, and whatever it needs."""

    name: str
    words: tuple[str, ...]
    python: str = sys.executable
    redis: str = ""
    dispatcher: Process | None = None


def measured(case: Case, most: int, seconds: float) -> dict[str, float]:
    """How a case does with so many jobs in flight, with the processor time of its dispatcher for a job, in microseconds."""
    pid = 0 if case.dispatcher is None else case.dispatcher.pid
    before = spent(pid)
    words = [case.python, str(HERE / "clients.py"), *case.words, str(most), str(seconds)]
    done = subprocess.run(words, capture_output=True, text=True, check=True, env={**os.environ, "PYTHONPATH": f"{places.PACKAGE}:{HERE}",
                                                                                  "BENCH_REDIS": case.redis})
    found = json.loads(done.stdout)
    return found | {"dispatcher": 1e6 * (spent(pid) - before) / found["jobs"]}


def spent(pid: int) -> float:
    """How many seconds of processor time a process has had; 0 stands for none."""
    if not pid:
        return 0.0
    words = pathlib.Path(f"/proc/{pid}/stat").read_text().rpartition(")")[2].split()
    return (int(words[11]) + int(words[12])) / os.sysconf("SC_CLK_TCK")


def has_celery() -> bool:
    """Whether both Celery and Redis are installed."""
    if shutil.which("redis-server") is None or not os.path.exists(DEBIAN):
        return False
    return subprocess.run([DEBIAN, "-c", "import celery, redis"], capture_output=True).returncode == 0


def queue_cases(at: Place, is_quick: bool, server: Server | None, python: str | None) -> Iterator[Case]:
    """The queue with each commit flushed, and without, in a file and in PostgreSQL; each has a dispatcher and a host."""
    number = 0
    for where in ("SQLite", "PostgreSQL"):
        for synchronous in ("full", "normal"):
            if where == "PostgreSQL" and (server is None or python is None):
                continue
            interpreter = sys.executable if where == "SQLite" or python is None else python
            queue = str(at.folder / f"{synchronous}.sqlite")
            if where == "PostgreSQL" and server is not None:
                server.run_sql(f"CREATE SCHEMA {synchronous}_")
                queue = f"{server.url}&options=-csearch_path%3D{synchronous}_"
            subprocess.run([interpreter, "-m", "arena", "queue", "init", "-q", queue], check=True, stdout=subprocess.DEVNULL,
                           env={**os.environ, "PYTHONPATH": places.PACKAGE})
            dispatcher = at.process(f"dispatcher{number}", interpreter, "-m", "arena", "queue", "run", host(at, number, is_quick),
                                    "-q", queue, "--synchronous", synchronous)
            dispatcher.start()
            number += 1
            yield Case(f"the queue on {where}, {'flushed' if synchronous == 'full' else 'not flushed'}", ("queue", queue, synchronous),
                       interpreter, dispatcher=dispatcher)


def host(at: Place, number: int, is_quick: bool) -> pathlib.Path:
    """The socket of a host that is started."""
    if is_quick:
        path = at.folder / f"quick{number}"
        at.process(f"quick{number}", sys.executable, HERE / "quick_host.py", path).start()
        return path
    at.host(number, steps=1_000_000).start()
    return at.folder / f"host{number}" / "socket"


def beanstalk_cases(at: Place) -> Iterator[Case]:
    """beanstalkd with a log that is flushed with each write, and four workers."""
    program = shutil.which("beanstalkd")
    if program is None:
        return
    (at.folder / "log").mkdir()
    port = free_port()
    at.process("beanstalkd", program, "-l", "127.0.0.1", "-p", port, "-b", at.folder / "log", "-f0").start()
    until(lambda: is_open(port), "beanstalkd")
    for number in range(4):
        at.process(f"beanstalk{number}", sys.executable, HERE / "beanstalk.py", port).start()
    yield Case("beanstalkd, with each write", ("beanstalk", str(port)))


def gearman_cases(at: Place) -> Iterator[Case]:
    """gearmand with its queue in a file of SQLite, and four workers."""
    program = shutil.which("gearmand")
    if program is None:
        return
    port = free_port()
    at.process("gearmand", program, "-L", "127.0.0.1", "-p", port, "-q", "libsqlite3", "--libsqlite3-db", at.folder / "gearman.sqlite",
               "--log-file", at.folder / "gearman.log").start()
    until(lambda: is_open(port), "gearmand")
    for number in range(4):
        at.process(f"gearman{number}", sys.executable, HERE / "gearman.py", port).start()
    yield Case("gearmand on SQLite", ("gearman", str(port)))


def free_port() -> int:
    """A port at which nobody listens."""
    with socket.socket() as it:
        it.bind(("127.0.0.1", 0))
        return int(it.getsockname()[1])


def is_open(port: int) -> bool:
    """Whether somebody listens at a port."""
    with contextlib.suppress(OSError), socket.create_connection(("127.0.0.1", port)):
        return True
    return False


def celery_cases(at: Place) -> Iterator[Case]:
    """Celery with a Redis that writes each second, and with one that writes with each command."""
    for name, how in ((BESIDE, "everysec"), ("Celery, with each command", "always")):
        folder = at.folder / how
        folder.mkdir()
        path = str(folder / "redis")
        at.process(f"redis-{how}", "redis-server", "--port", "0", "--unixsocket", path, "--dir", folder, "--appendonly", "yes",
                   "--appendfsync", how, "--save", "").start()
        until(lambda path=path: os.path.exists(path), "Redis")
        at.process(f"celery-{how}", DEBIAN, "-m", "celery", "-A", "engine", "worker", "-c", "4", "-l", "error", "--without-gossip",
                   "--without-mingle", BENCH_REDIS=path, PYTHONPATH=str(HERE)).start()
        yield Case(name, ("celery",), DEBIAN, path)


def sync_seconds(folder: pathlib.Path) -> float:
    """How long the disk takes to flush a small write, at the median."""
    took = []
    with open(folder / "sync", "wb") as it:
        for _ in range(50):
            it.write(b"x" * 4096)
            it.flush()
            began = time.perf_counter()
            os.fdatasync(it.fileno())
            took.append(time.perf_counter() - began)
    return statistics.median(took)


def table(found: dict[tuple[str, int], list[dict[str, float]]]) -> Iterator[str]:
    """The table, a line each: medians, and how many times as many jobs as the case beside which it stands."""
    yield "| Case | in flight | jobs a second | ms a job | times Celery's, each second | us of processor: dispatcher, client |"
    yield "|---|---|---|---|---|---|"
    for (name, most), rounds in found.items():
        rate = statistics.median(it["rate"] for it in rounds)
        beside = found.get((BESIDE, most))
        ratio = f"{rate / statistics.median(it['rate'] for it in beside):.2f}" if beside else ""
        used = [f"{statistics.median(it[of] for it in rounds):.0f}" for of in ("dispatcher", "us")]
        yield (f"| {name} | {most} | {rate:.0f} | {statistics.median(it['ms'] for it in rounds):.2f} | {ratio} | "
               f"{', '.join(it for it in used if it != '0')} |")


def main() -> None:
    """Measures all that is installed."""
    parser = argparse.ArgumentParser()
    parser.add_argument("--seconds", type=float, default=3.0)
    parser.add_argument("--rounds", type=int, default=3)
    parser.add_argument("--quick-host", action="store_true")
    words = parser.parse_args()
    if places.host_program() is None and not words.quick_host:
        sys.exit("no arena-host is built: `make build`, or checks/build/unproved.py arena-host")
    with contextlib.ExitStack() as opened:
        at = opened.enter_context(place())
        python = places.python_with("psycopg2")
        server = opened.enter_context(served()) if python is not None and programs() is not None else None
        cases = [*queue_cases(at, words.quick_host, server, python), *(celery_cases(at) if has_celery() else ()), *beanstalk_cases(at),
                 *gearman_cases(at)]
        found: dict[tuple[str, int], list[dict[str, float]]] = {(it.name, most): [] for it in cases for most in WINDOWS}
        for it in cases:
            measured(it, 8, 1.0)  # to warm up
        for _ in range(words.rounds):
            for most in WINDOWS:
                for it in cases:
                    found[it.name, most].append(measured(it, most, words.seconds))
        print(f"a flush of the disk takes {1000 * sync_seconds(at.folder):.2f} ms; load {os.getloadavg()[0]:.1f}; by "
              f"{'a stand-in for a host' if words.quick_host else places.host_program().relative_to(TOP)}" + ("" if has_celery() else "; Celery or Redis is not installed"))
    print("\n".join(table(found)))


if __name__ == "__main__":
    main()

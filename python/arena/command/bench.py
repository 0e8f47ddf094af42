"""`arena bench`: how many requests and jobs a second the server answers, by how many clients."""
import threading
import time
from collections.abc import Callable
from concurrent.futures import ThreadPoolExecutor
from dataclasses import dataclass, field
from typing import Any

from arena.client import Client
from arena.command.builds import build_of
from arena.command.call import Call
from arena.command.output import Progress
from arena.command.sources import job_of
from arena.command.words import JOB_WORDS, Command, Completes, Status, from_to, option, positional
from arena.replies import ArenaError
from arena.trace.report import table

SMALLEST = {"args": [7, 0], "fuel": 10, "procs": [[["ret", 0]]]}
PERCENTS = (50, 90, 99, 100)
MOST_CLIENTS = 64
"""As many as a server serves at a time; one more would wait for ever."""


@dataclass
class Measured:
    """What some clients did: how long each reply took, in seconds, how long all took together, and what was refused."""

    what: str
    clients: int
    times: list[float] = field(default_factory=list)
    seconds: float = 0.0
    faults: list[ArenaError] = field(default_factory=list)

    @property
    def rate(self) -> float:
        """How many a second."""
        return len(self.times) / self.seconds if self.seconds else 0.0

    def percentile(self, percent: int) -> float | None:
        """The time within which that share of the replies came, in milliseconds."""
        if not self.times:
            return None
        ordered = sorted(self.times)
        return 1000 * ordered[min(len(ordered) * percent // 100, len(ordered) - 1)]

    def to_value(self) -> dict[str, Any]:
        """As JSON."""
        return {"clients": self.clients, "count": len(self.times), "per_second": round(self.rate, 1), "what": self.what,
                "refused": len(self.faults),
                "milliseconds": {str(it): None if (ms := self.percentile(it)) is None else round(ms, 3) for it in PERCENTS}}


def measure(call: Call, what: str, clients: int, count: int, ask: Callable[[Client], object]) -> Measured:
    """Lets so many clients together ask so many times. A client stops at its first fault. Blocks until all have ended, and
    raises what one of them met that is no ArenaError."""
    measured, lock, start = Measured(what, clients), threading.Lock(), threading.Barrier(clients + 1)
    open_clients = [call.connect() for _ in range(clients)]
    progress = Progress(what, count)

    def work(client: Client, share: int) -> None:
        """What one client does, on a thread of its own."""
        mine: list[float] = []
        start.wait()
        try:
            for _ in range(share):
                begun = time.perf_counter()
                ask(client)
                mine.append(time.perf_counter() - begun)
        except ArenaError as fault:
            with lock:
                measured.faults.append(fault)
        finally:
            with lock:
                measured.times += mine

    shares = [count // clients + (at < count % clients) for at in range(clients)]
    with ThreadPoolExecutor(max(clients, 1)) as pool:
        asking = [pool.submit(work, *pair) for pair in zip(open_clients, shares)]
        start.wait()
        begun = time.perf_counter()
        for at, it in enumerate(asking):
            it.exception()  # waits until it has ended
            progress.at(count * at // clients)
        measured.seconds = time.perf_counter() - begun
    progress.end()
    for client in open_clients:
        client.close()
    for it in asking:
        it.result()
    return measured


def rounds(call: Call, clients: int, count: int, ask: Callable[[Client], object], retire: bool) -> Measured:
    """Lets clients run jobs. With `retire` the jobs are retired after each round of 256, so that there may be more."""
    whole = Measured("jobs", clients)
    while count > 0:
        part = measure(call, "jobs", clients, min(count, 256) if retire else count, ask)
        whole.times += part.times
        whole.seconds += part.seconds
        whole.faults += part.faults
        count -= 256 if retire else count
        if part.faults:
            break
        if retire:
            with call.connect() as client:
                client.retire()
    return whole


def bench(call: Call) -> int:
    """Measures requests, and then jobs."""
    words = call.words
    value = job_of(words) if words.FILE else SMALLEST
    clients = words.clients

    def ask(client: Client) -> object:
        """Runs one job."""
        return client.execute(value) if words.execute else client.collect(client.submit(value))

    with call.connect() as client:
        build = build_of(client.server_process())
        if words.retire:
            client.retire()
    all_measured = [measure(call, "requests", clients, words.requests,
                            lambda client: client.arena())] if words.requests else []
    if words.jobs:
        all_measured.append(rounds(call, clients, words.jobs, ask, words.retire))
    if call.output.json:
        for it in all_measured:
            call.output.say("", {**it.to_value(), "build": build and build.value})
    else:
        rows = [[it.what, it.clients, len(it.times), f"{it.rate:,.0f}",
                 *("" if (ms := it.percentile(p)) is None else f"{ms:.2f}" for p in PERCENTS)] for it in all_measured]
        head = ("", "clients", "count", "a second", *(f"{p} %, ms" for p in PERCENTS[:-1]), "slowest, ms")
        print(table(head, rows, (0,)))
        if build:
            print(build)
    faults = [fault for it in all_measured for fault in it.faults]
    for text in sorted({str(fault) for fault in faults}):
        call.output.complain(f"arena: {sum(str(it) == text for it in faults)} of {clients} clients ended early: {text}")
    if faults:
        raise faults[0]
    return Status.DONE


COMMANDS = (
    Command("bench", "measure requests and jobs a second",
            "Measures how many requests, and then how many jobs, a number of clients gets answered in a second, and "
            "how long each took. Every request and job takes entries of the tenant's history, which are not given "
            "back. Jobs are those of FILE, or return at once. It says, where that can be seen, whether the server was built "
            "without proofs. With --retire the tenant's jobs are forgotten before and "
            "after each round of 256; without it 256 jobs are the "
            "most.", "arena bench examples/jobs/fib.job --args 15 --clients 8 --jobs 1000 --retire", bench,
            (positional("FILE", "a job, as for `run`", Completes.JOB_FILE, nargs="?"), *JOB_WORDS[1:],
             option("-c", "--clients", help="how many connections ask at once", type=from_to(1, MOST_CLIENTS), default=4, metavar="N"),
             option("-n", "--jobs", help="how many jobs in all", type=from_to(0), default=200, metavar="N"),
             option("--requests", help="how many requests in all", type=from_to(0), default=1000, metavar="N"),
             option("--execute", help="execute each job, rather than submit and collect it", action="store_true"),
             option("--retire", help="forget the tenant's jobs as is needed", action="store_true"))),
)

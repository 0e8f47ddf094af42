#!/usr/bin/env python3
"""Lets a host of 64 tenants with 32 workers serve more clients than it has places, minute after minute: clients come,
ask at random and go, some in the midst of a wait, and files ask for rotations beside those that histories bring about.
Replies are compared with what the jobs give under any schedule. No more terms of a tenant may be there than its page says; each
term must close, with no job lost; the newest dumps of each tenant must be kept, and whole.

usage: checks/host/soak.py [MINUTES [ASKS]], at the top of the repository, after `rt ci` or `make build`. It runs for ten
minutes if none are said, and its clients ask as fast as they are answered, or ASKS times a second together, so that a soak can
run beside other work. It prints what it has seen, and ends with a status other than 0 at the first thing that is not as it
must be.
"""
import collections
import os
import pathlib
import random
import sys
import threading
import time

from hosts import MOST_TERMS, PROGRAM, SCRIPT, Host, ask, dump_lines, dumps, hang_up

os.environ["MALLOC_MMAP_THRESHOLD_"] = "16384"  # as docs/HOST.md says, Memory
sys.path.append(str(pathlib.Path(__file__).resolve().parents[1] / "server"))
from stress import JOBS, MAY_FAIL, TENANTS, WORKERS, tenant_config  # noqa: E402

CLIENTS = 96
PLACES = 64
KEEP = 2


class Soak:
    """A host, its clients, and what was seen of both."""

    def __init__(self, minutes: float, asks: float | None = None) -> None:
        """Starts the host. Clients ask for so many minutes, `asks` times a second together, or as fast as they can."""
        self.end = time.monotonic() + 60 * minutes
        self.pause = CLIENTS / asks if asks else 0.0  # the mean time between two asks of a client, in seconds
        dice = random.Random(3)
        tenants = [{**tenant_config(number, dice), "steps": dice.choice([5_000, 20_000, 100_000])} for number in range(TENANTS)]
        self.names = [it["name"] for it in tenants]
        self.host = Host(tenants, "--connections", PLACES, "--keep", KEEP, workers=WORKERS)
        self.seen = collections.Counter()
        self.most = collections.Counter()
        self.wrong = []
        self.lock = threading.Lock()

    def is_over(self) -> bool:
        """Whether the time is over, or something was wrong."""
        return time.monotonic() > self.end or bool(self.wrong)

    def client(self, number: int) -> None:
        """What a thread does: one client after another."""
        dice = random.Random(number)
        while not self.is_over():
            try:
                what = self.visit(dice)
            except OSError as fault:
                what = collections.Counter({f"connection ended: {type(fault).__name__}": 1})
            except Exception as fault:
                self.wrong.append(repr(fault))
                break
            with self.lock:
                self.seen.update(what)

    def visit(self, dice: random.Random) -> collections.Counter:
        """What a client met that asks a few times, and goes, perhaps in the midst of a wait."""
        met = collections.Counter({"connections": 1})
        connection = self.host.connect(dice.choice(self.names))
        try:
            for _ in range(dice.randrange(1, 8)):
                job, outcome = dice.choice(JOBS)
                if self.pause:
                    time.sleep(dice.expovariate(1 / self.pause))
                if dice.random() < 0.05:
                    connection[0].sendall(b'{"job":1,"op":"collect"}\n')
                    met["gone while it waits"] += 1
                    break
                reply = ask(connection, {"op": "execute", "job": job})
                if reply is None:
                    met["ended with its host"] += 1
                    break
                met.update(self.judged(reply, outcome))
                if reply.get("error") == "job_limit":
                    ask(connection, {"op": "retire"})
        finally:
            hang_up(connection)
        return met

    def judged(self, reply: dict, outcome: dict) -> dict[str, int]:
        """What a reply counts as. One that is neither the outcome nor a refusal that may be is wrong."""
        if "code" in reply and reply["code"] in MAY_FAIL:
            return {f"error {reply['code']}": 1}
        if {**outcome, "job": reply.get("job")} != reply:
            self.wrong.append((reply, outcome))
        return {"right": 1}

    def watch(self) -> None:
        """Looks at the status as long as clients ask, and asks for a rotation now and then."""
        dice = random.Random(4)
        while not self.is_over():
            time.sleep(0.5)
            status = self.host.status()
            self.most["memory"] = max(self.most["memory"], status["memory"])
            at_once = collections.Counter(it["tenant"] for it in status["terms"])
            self.most["terms of a tenant at once"] = max(self.most["terms of a tenant at once"], *at_once.values(), 0)
            for term in status["terms"]:
                if term["state"] == "serving":
                    full = 100 * term["entries"] // term["steps"]
                    self.most["per cent of a serving history"] = max(self.most["per cent of a serving history"], full)
            if dice.random() < 0.02:
                open(self.host.path("rotate"), "w").close()

    def run(self) -> int:
        """Lets the clients ask until the time is over, stops the host, and returns its status."""
        threads = [threading.Thread(target=self.client, args=(number,), daemon=True) for number in range(CLIENTS)]
        for thread in threads:
            thread.start()
        self.watch()
        for thread in threads:
            thread.join()
        return self.host.stop()

    def report(self) -> None:
        """Prints what was seen."""
        host = self.host
        closed = host.told("closed")
        print(f"{len(closed)} terms closed, {sum(sum(it.values()) for it in host.closed().values())} entries, "
              f"{sum(it['lost'] for it in closed)} jobs lost")
        print(f"closing and dumping took {max((it['ms'] for it in closed), default=0)} ms at most, opening "
              f"{max((it['ms'] for it in host.told('opened')), default=0)} ms at most")
        print(dict(sorted(self.seen.items())))
        print(dict(self.most), f"{len(host.told('waiting'))} terms waited for room")


def main() -> None:
    """Soaks a host, and compares what was seen at its end."""
    for program in (PROGRAM, SCRIPT):
        assert os.path.exists(program), f"{program} is not there: `rt ci` or `make build` builds it"
    soak = Soak(*map(float, sys.argv[1:3] or ["10"]))
    try:
        status = soak.run()
    finally:
        soak.report()
    host = soak.host
    closed = host.closed()
    assert not soak.wrong, soak.wrong[:5]
    assert status == 0 and len(closed) == TENANTS and not any(it["lost"] for it in host.told("closed"))
    assert not host.told("fault"), host.told("fault")
    assert soak.most["terms of a tenant at once"] <= MOST_TERMS
    for name in soak.names:
        opened = [it["term"] for it in host.told("opened", tenant=name)]
        assert sorted(closed[name]) == opened == list(range(len(opened))) and dumps(host, name) == opened[-KEEP:], name
    for name in os.listdir(host.path("dumps")):
        dump_lines(host.path("dumps", name))


main()

"""What a server does while its workers have much to do: how soon it stops, and what sessions that wait cost it."""
import json
import pathlib
import re
import time
from typing import NamedTuple

from endings import SOON, greeted, hang_up, is_closed, send
from levels import bound
from servers import PATIENCE, Server, tenant
from waits import processor_seconds

# As many jobs as a tenant may have, each of which spends all its fuel, which takes a thousand entries, and tenants that
# have as many each. A fast machine does such a job in less than a millisecond, and a server looks four times a second
# whether it is to stop: all of them take it several times as long as that.
JOBS, NAMES = 256, ("acme", "beta", "gamma", "delta", "epsilon", "zeta", "eta", "theta")
SPINNING = {"args": [0, 0], "fuel": 1_000_000, "procs": [[["jmp", 0]]]}
# A job of so many entries, one for each time that it sets a cell.
ENTRIES = 10_000
STORING = {"args": [0, 0], "fuel": 1_000_000, "procs": [
    [["set", 2, ENTRIES], ["set", 3, 1], ["store", 0, 0], ["sub", 2, 2, 3], ["jz", 2, 6], ["jmp", 2], ["ret", 3]]]}
FEW, MANY = 8, 40


def stop_reaches_a_worker_that_has_work() -> None:
    """The only worker has far more to do when the server is stopped than it can until that is seen, and leaves much of
    it."""
    server = Server([{**tenant(name, 1, 0), "rows": JOBS, "steps": 400_000} for name in NAMES], 1, len(NAMES))
    clients = [bound(server, name) for name in NAMES]
    for client in clients:
        send(client.client, *[{"op": "submit", "job": SPINNING}] * JOBS)
        made = [json.loads(client.replies.readline())["job"] for _ in range(JOBS)]
        assert made == list(range(1, JOBS + 1))
    began = time.monotonic()
    server.stop()
    server.process.wait(PATIENCE)
    took = time.monotonic() - began
    lines, err, status = server.end()
    assert is_closed(lines, NAMES) and (err, status) == ("", 0)
    entries = sum(int(line.split()[2]) for line in lines)
    assert took < SOON and entries < 1000 * JOBS * len(NAMES), f"{took:.1f} s and {entries} entries"
    hang_up(*clients)


class Cost(NamedTuple):
    """How long a server used processors, in seconds, and how often its threads went to sleep meanwhile."""

    seconds: float
    sleeps: int


def cost_so_far(process: int) -> Cost:
    """The cost of all threads of a process that have not ended."""
    sleeps = 0
    for status in pathlib.Path(f"/proc/{process}/task").glob("*/status"):
        sleeps += int(re.search(r"^voluntary_ctxt_switches:\s+(\d+)", status.read_text(), re.M)[1])
    return Cost(processor_seconds(process), sleeps)


def cost_with_waits(waits: int) -> Cost:
    """What it costs a server that a worker runs a job of many entries, and so many clients collect it."""
    server = Server([{**tenant("acme", 2, 1), "steps": 100_000}], 1, waits)
    clients = [greeted(server) for _ in range(waits)]
    before = cost_so_far(server.process.pid)
    send(clients[0].client, {"op": "submit", "job": STORING})
    assert json.loads(clients[0].replies.readline()) == {"job": 1}
    for client in clients:
        send(client.client, {"op": "collect", "job": 1})
    for client in clients:
        assert json.loads(client.replies.readline()) == {"job": 1, "status": "complete", "value": 1}
    after = cost_so_far(server.process.pid)
    hang_up(*clients)
    assert is_closed(server.end().lines)
    return Cost(after.seconds - before.seconds, after.sleeps - before.sleeps)


def waits_for_a_job_cost_little() -> None:
    """Forty clients that wait for a job cost the server about as much as eight: no entry wakes them all, as seen by how
    often they sleep again, and by the processor time, of which a faster build needs less for all else."""
    few, many = cost_with_waits(FEW), cost_with_waits(MANY)
    assert many.sleeps < ENTRIES and many.seconds < 6 * few.seconds, (few, many)


CHECKS = [stop_reaches_a_worker_that_has_work, waits_for_a_job_cost_little]

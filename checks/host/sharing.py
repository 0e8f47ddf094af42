"""A host's only worker between a noisy tenant and a quiet one, and several workers at one tenant."""
import collections
import json
import time
from dataclasses import dataclass

from hosts import FIB, Host, ask, hang_up, tenant
from servers import SEVEN

# How many jobs the noisy tenant has, and how often it is tried in case they don't keep the worker for long enough.
JOBS = 100
TRIES = 10
# A job that spends all its fuel, which takes a thousand entries.
SPINNING = {"args": [0, 0], "fuel": 1_000_000, "procs": [[["jmp", 0]]]}

# A job of some 20,000 entries, each of which takes a third of a microsecond where the gate was measured, and one of
# four tasks that take 230 entries each, of 1,000 instructions. These are divisions, so that such an entry takes some
# microseconds by a fast machine too.
SHORT_TASKS = {"args": [17, 0], "fuel": 1_000_000, "procs": FIB}
DIVISIONS, ROUNDS = 220, 1_050
LONG_TASKS = {"args": [0, 0], "fuel": 1_000_000, "procs": [
    [["set", 2, ROUNDS], ["set", 3, 7], *[["spawn", 0, 1, 2, 3]] * 4, ["wait", 3, 4, 0], ["ret", 3]],
    [["set", 2, 1], ["jz", 0, DIVISIONS + 4], *[["div", 3, 0, 1]] * DIVISIONS, ["sub", 0, 0, 2], ["jmp", 1],
     ["ret", 0]]]}
WORKERS = 4
# Up to how many microseconds an entry a job is left to one worker: from one on more come, as docs/HOST.md says, and
# some stretches of a job take longer than others.
LEFT_ALONE = 0.7


def is_quiet_served_first() -> bool | None:
    """Whether the quiet tenant's job is answered before the last of the noisy one's, all of which came before it: none if the
    worker was free before it came."""
    host = Host([tenant("noisy", steps=400_000, slots=1, reserved=0), tenant("quiet", slots=1, reserved=0)], workers=1)
    noisy, quiet = host.connect("noisy"), host.connect("quiet")
    noisy.client.sendall((json.dumps({"op": "submit", "job": SPINNING}) + "\n").encode() * JOBS)
    assert [json.loads(noisy.replies.readline()) for _ in range(JOBS)] == [{"job": n + 1} for n in range(JOBS)]
    assert ask(quiet, {"op": "submit", "job": SEVEN}) == {"job": 1}
    poll = {"op": "poll", "job": JOBS}
    was_kept = ask(noisy, poll)["status"] == "running"
    assert ask(quiet, {"op": "collect", "job": 1}) == {"job": 1, "status": "complete", "value": 7}
    is_first = ask(noisy, poll)["status"] == "running"
    assert ask(noisy, {"op": "collect", "job": JOBS}) == {"fault": 2, "job": JOBS, "status": "fault"}
    hang_up(noisy, quiet)
    assert host.stop() == 0
    return is_first if was_kept else None


def worker_leaves_a_noisy_tenant_after_a_row() -> None:
    """For a call of the same level. A client that comes late to look sees all rows ended, so it is tried more than once."""
    assert any(is_quiet_served_first() for _ in range(TRIES))


@dataclass(frozen=True)
class Done:
    """A job as it was done: the advances of each slot, and how many microseconds an entry took, seen from outside."""

    advances: collections.Counter[int]
    pace: float

    @property
    def share_of_busiest(self) -> float:
        """Which part of the advances the slot has that has most of them."""
        return max(self.advances.values()) / self.advances.total()


def done(job: dict, count: int, workers: int) -> list[Done]:
    """How so many jobs are done, one after another, where so many workers may come."""
    host = Host([tenant("acme", steps=1_048_576, slots=WORKERS, reserved=0)], workers=workers)
    acme, took = host.connect(), []
    for number in range(1, count + 1):
        began = time.perf_counter()
        assert ask(acme, {"op": "submit", "job": job}) == {"job": number}
        assert ask(acme, {"op": "collect", "job": number})["status"] == "complete"
        took.append(time.perf_counter() - began)
    hang_up(acme)
    assert host.stop() == 0
    slots = []
    with open(host.path("dumps", "acme.000000.jsonl")) as dump:
        for entry in map(json.loads, dump):
            if entry.get("request", {}).get("op") == "submit":
                slots.append(collections.Counter())
            elif entry.get("step") == "advance":
                slots[-1][entry["slot"]] += 1
    return [Done(it, 1e6 * seconds / it.total()) for it, seconds in zip(slots, took, strict=True)]


def a_job_of_short_tasks_is_left_to_one_worker() -> None:
    """More would only wait for each other. A worker that loses its processor for a while gets help, so not all jobs
    count. Nor does it count where entries take so long, with one worker that has nobody to wait for, that more are to
    come: on a machine that is slow, or so busy that each job is held up."""
    paces = []
    for _try in range(TRIES):
        paces.append(min(it.pace for it in done(SHORT_TASKS, 4, 1)))
        if paces[-1] < LEFT_ALONE and max(it.share_of_busiest for it in done(SHORT_TASKS, 8, WORKERS)) > 0.75:
            return
    assert min(paces) >= LEFT_ALONE, f"more workers come, though an entry takes {min(paces):.2f} microseconds"
    print(f"short tasks: skipped, an entry takes {min(paces):.2f} microseconds here, so more workers are to come")


def a_job_of_long_tasks_gets_more_workers() -> None:
    """They come once its entries are seen to take long, if a processor is free for them before the job is done."""
    assert any(min(it.share_of_busiest for it in done(LONG_TASKS, 100, WORKERS)) < 0.75 for _try in range(TRIES))


CHECKS = [worker_leaves_a_noisy_tenant_after_a_row, a_job_of_short_tasks_is_left_to_one_worker, a_job_of_long_tasks_gets_more_workers]

"""Jobs, each with the outcome that every schedule gives it."""
from dataclasses import dataclass

FIB = [[["set", 2, 2], ["lt", 3, 0, 2], ["jz", 3, 4], ["ret", 0], ["set", 2, 1], ["sub", 3, 0, 2], ["spawn", 0, 0, 3, 1],
        ["sub", 3, 3, 2], ["spawn", 0, 0, 3, 1], ["wait", 4, 5, 0], ["ret", 4]]]
COUNTING = [[["set", 2, 1], ["jz", 0, 6], ["sub", 0, 0, 2], ["add", 1, 1, 2], ["lt", 3, 1, 0], ["jmp", 1], ["ret", 1]]]
# Stores a 5 in its slot's cell of key 0, waits in a region, and finds the 5 again.
ISOLATED = [[["set", 2, 5], ["store", 0, 2], ["isolate", 3, 1, 0, 1], ["load", 5, 0], ["ret", 5]],
            [["spawn", 0, 2, 0, 1], ["wait", 2, 3, 0], ["ret", 2]], [["ret", 0]]]
DIVIDING = [[["set", 2, 1], ["div", 2, 2, 3], ["ret", 2]]]
# Each row spawns the next one, and goes on once a later one runs: the rows are on several slots, and wait for one another.
CHAIN = [
    [["spawn", 0, 1, 0, 1], ["wait", 3, 4, 0], ["ret", 3]],
    [["spawn", 0, 2, 0, 1], ["wait", 3, 4, 0], ["ret", 3]],
    [["spawn", 0, 3, 0, 1], ["wait", 3, 4, 0], ["ret", 3]],
    [["set", 2, 1], ["set", 3, 40], ["count", 4, 1], ["sub", 3, 3, 2], ["jz", 3, 6], ["jmp", 2], ["set", 2, 5], ["ret", 2]]]

# Two rows, each of which looks at a cell forty times, an entry each. Their maker looks too, before it waits for them: by
# then workers may have taken both, and its own slot has nothing to run until they end.
PAIR = [[["spawn", 0, 1, 0, 1], ["spawn", 0, 1, 0, 1], *[["count", 2, 1]] * 15, ["wait", 3, 4, 0], ["ret", 3]], CHAIN[3]]


@dataclass(frozen=True)
class Job:
    """A job as it is sent, and what its status says beside its number."""

    sent: dict
    outcome: dict


def completes(value: int, procs: list, *args: int, fuel: int = 100_000) -> Job:
    """A job that completes with a value."""
    return Job({"args": list(args), "fuel": fuel, "procs": procs}, {"status": "complete", "value": value})


JOBS = (
    completes(7, [[["ret", 0]]], 7, 0),
    completes(8, FIB, 6, 0),
    completes(21, FIB, 8, 0),
    completes(2500, COUNTING, 2500, 0),
    completes(5, ISOLATED, 0, 0),
    completes(5, CHAIN, 0, 0),
    completes(10, PAIR, 0, 0),
    Job({"args": [0, 0], "fuel": 10, "procs": DIVIDING}, {"status": "fault", "fault": 1}),
    Job({"args": [0, 0], "fuel": 3000, "procs": [[["jmp", 0]]]}, {"status": "fault", "fault": 2}),
)
LONG = tuple(it for it, job in enumerate(JOBS) if job.sent["procs"] in (CHAIN, PAIR, FIB))
"""Those of several rows, by their places."""

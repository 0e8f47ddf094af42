"""That workers at one tenant, whose moves are short, go on by turns and not move by move."""
import itertools
import json
import os

from servers import FIB, HELLO, Server, tenant

# A job of some 47,000 entries, whose private runs have a few instructions each.
SHORT_TASKS = {**FIB, "args": [19, 0], "fuel": 1_000_000}
VALUE = 4181
WORKERS = 4
# How many moves a thread makes at least, on the average, before another one does. Threads that take the lock as soon as
# they can come to 1.2 where each has a processor, and those of this server to some forty. Where other work keeps the
# processors busy the threads seldom meet, and this sees nothing.
LONG = 10


def slots_that_moved(folder: str, name: str) -> list[int]:
    """The slot of each advance in the dump of a tenant, in order."""
    with open(os.path.join(folder, name + ".jsonl")) as dump:
        steps = [json.loads(line) for line in dump]
    return [step["slot"] for step in steps if step.get("step") == "advance"]


def short_moves_are_made_by_turns() -> None:
    """Of four workers with a processor each, or fewer processors, all of which find tasks."""
    server = Server([{**tenant("acme", WORKERS, 0), "rows": 4096, "steps": 400_000}], WORKERS, 1)
    replies = server.ask(HELLO, {"op": "submit", "job": SHORT_TASKS}, {"op": "collect", "job": 1})
    assert replies[2] == {"job": 1, "status": "complete", "value": VALUE}, replies
    lines, err, status = server.end()
    assert (len(lines), err, status) == (1, "", 0)
    moves = slots_that_moved(server.dumps, "acme")
    changes = sum(before != after for before, after in itertools.pairwise(moves))
    assert changes * LONG <= len(moves), f"{len(moves)} moves, {changes} changes of the slot"


CHECKS = [short_moves_are_made_by_turns]

"""Runs jobs by `arena-script`: alone on a tenant under a drawn schedule, and by the word `serial`."""
import json
import random
import subprocess
from collections.abc import Iterable, Sequence

from arena.replies import Complete, Fault
from arena.trace.rehearsal import rehearse
from arena.trace.replay import Impossible
from paths import PROGRAM

JOBS_OF_A_TENANT = 200
STEPS = 1_048_576
SHORTEST, LONGEST = 12, 20_000
STEPS_AT_A_TIME = 300
# How long some jobs may take at most, in seconds.
PATIENCE = 60


class Tenant:
    """An `arena-script own` for a drawn tenant, which runs one job after another."""

    def __init__(self, draws: random.Random, slots: int | None = None) -> None:
        self.draws, self.jobs = draws, 0
        self.slots = slots or draws.randint(1, 4)
        self.reserved = draws.randint(0, self.slots - 1)  # a posted row needs a worker, or a row that waits
        isolation = draws.choice(("exact", "within"))
        self.program = subprocess.Popen([PROGRAM, "own"], stdin=subprocess.PIPE, stdout=subprocess.PIPE, text=True)
        self.write({"tenant": {"isolation": isolation, "name": "a", "priority": "low", "reserved": self.reserved,
                               "rows": 4096, "slots": self.slots, "steps": STEPS}})

    def write(self, line: object) -> None:
        """Gives it one line."""
        self.program.stdin.write(json.dumps(line, separators=(",", ":")) + "\n")

    def answers(self, steps: Sequence[dict]) -> list[dict]:
        """The answers to steps; only so many steps are under way at a time as the pipes hold."""
        found = []
        for start in range(0, len(steps), STEPS_AT_A_TIME):
            part = steps[start:start + STEPS_AT_A_TIME]
            for it in part:
                self.write(it)
            self.program.stdin.flush()
            found += [json.loads(self.program.stdout.readline()) for _ in part]
        return found

    def move(self, slot: int) -> dict:
        """An arrival at a slot, or an advance of it."""
        step = "advance" if slot < self.reserved or self.draws.random() < 0.7 else "arrive"
        return {"slot": slot, "step": step}

    def moves(self, count: int) -> list[dict]:
        """Drawn moves, which may stay at a slot for a while."""
        slot, found = 0, []
        for _ in range(count):
            if self.draws.random() < 0.5:
                slot = self.draws.randrange(self.slots)
            found.append(self.move(slot))
        return found

    def outcome(self, job: dict, length: int) -> dict:
        """The status of a job once it has an outcome, after about so many moves at a time; `running` if it has none
        after very many."""
        self.jobs += 1
        op = "execute" if self.reserved else "submit"
        steps = [ask({"job": job, "op": op})]
        asked = ask({"job": self.jobs, "op": "poll"})
        moved = 0
        while moved < LONGEST:
            moves = self.moves(max(SHORTEST, length))
            moved += len(moves)
            status = self.answers([*steps, *moves, asked])[-1]
            steps = []
            if status.get("status") != "running":
                break
        return status

    def retire(self) -> dict:
        """Retires all jobs and cells, which have ended."""
        return self.answers([ask({"op": "retire"})])[0]

    def is_spent(self) -> bool:
        """Whether it has had so many jobs that another tenant should take its place."""
        return self.jobs >= JOBS_OF_A_TENANT

    def close(self) -> None:
        """Lets it end, and waits for that."""
        self.program.stdin.close()
        self.program.stdout.close()
        self.program.wait(PATIENCE)

    def cells(self, key: int) -> dict:
        """The reply for the cells of a key."""
        return self.answers([ask({"key": key, "op": "cells"})])[0]


class Stage:
    """A tenant of a drawn number of slots in this process, which needs no built program: `arena.trace.rehearsal`."""

    def __init__(self, draws: random.Random) -> None:
        self.draws, self.slots = draws, draws.randint(1, 4)

    def outcome(self, job: dict, _length: int) -> dict:
        """The status of a job once it has an outcome."""
        try:
            outcome = rehearse(job, self.slots, self.draws).outcome
        except Impossible as why:
            return {"status": f"not valid: {why}"}
        match outcome:
            case Complete(value=value):
                return {"status": "complete", "value": value}
            case Fault(code=code):
                return {"status": "fault", "fault": code.value}
        return {"status": "canceled"}

    def retire(self) -> None:
        """Each job has a stage of its own."""

    def is_spent(self) -> bool:
        """Whether another one should take its place, for another number of slots."""
        return self.draws.random() < 0.1

    def close(self) -> None:
        """There is nothing to end."""


def ask(request: dict) -> dict:
    """The step of a request."""
    return {"request": request, "step": "ask"}


def serial_values(jobs: Iterable[dict]) -> list:
    """What `arena-script serial` says of each job: a number, `none` or `not_serial`, or else its whole line."""
    return serial_answers(json.dumps(it, separators=(",", ":")) for it in jobs)


def serial_answers(lines: Iterable[str]) -> list:
    """What `arena-script serial` says of each line."""
    ran = subprocess.run([PROGRAM, "serial"], input="".join(f"{it}\n" for it in lines), capture_output=True, text=True,
                         check=True, timeout=PATIENCE)
    return [json.loads(line).get("serial", line) for line in ran.stdout.splitlines()]

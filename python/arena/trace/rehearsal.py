"""Runs a job in this process, on slots of its own, in an order that is drawn: no server is needed.

The slots start and advance rows by the rules of docs/PROTOCOL.md; which slot moves next is drawn. What the rows do is
computed by the replay of histories.
"""
import random
from collections.abc import Iterator, Mapping
from dataclasses import dataclass
from typing import Any

from arena.replies import Canceled, Complete, Fault, FaultCode, Outcome
from arena.trace.dump import Advance, Arrive, Ask, Entry, Tenant
from arena.trace.machine import WAIT
from arena.trace.model import Job, Kind, Row
from arena.trace.replay import HEIGHT, Replay

MOST_SLOTS, MOST_ROWS, STEPS = 16, 4_096, 1_048_576
STAYS = 0.8
"""How likely the slot that moved last moves again."""


@dataclass(frozen=True, slots=True)
class FaultAt:
    """Where a job had its first fault: the procedure and its instruction, from 0."""

    code: FaultCode
    procedure: int
    instruction: int


@dataclass(frozen=True, slots=True)
class Rehearsed:
    """What came of a rehearsal: the outcome, where the fault was if it is one, the fuel that was used, in instructions,
    and the sums of the cells by their keys."""

    outcome: Outcome
    fault: FaultAt | None
    fuel: int
    cells: Mapping[int, int]


def rehearse(job: Mapping[str, Any], slots: int = 1, draws: random.Random | None = None,
             rows: int = MOST_ROWS) -> Rehearsed:
    """Runs a valid JOB to its outcome, on so many slots. Without `draws` the lowest slot that can move does. `rows` limits
    the open rows, as a tenant does. It blocks for as long as it computes: some seconds for 1,000,000 instructions."""
    tenant = Tenant("rehearsal", slots, 0, rows, STEPS)
    stage = _Stage(tenant, draws)
    made = stage.submit(job)
    while made.open:
        stage.move()
    cells: dict[int, int] = {}
    for (key, _), value in stage.replay.cells.items():
        cells[key] = cells.get(key, 0) + value
    at = made.fault
    fault = None if at is None else FaultAt(at.code, at.proc, at.instr)
    return Rehearsed(_outcome(made), fault, made.given - made.left, cells)


def _outcome(job: Job) -> Outcome:
    if job.fault is not None:
        return Fault(job.fault.code, job.number)
    return Canceled(job.number) if job.value is None else Complete(job.value, job.number)


class _Stage:
    """The slots, and whose turn it is."""

    def __init__(self, tenant: Tenant, draws: random.Random | None) -> None:
        self.replay, self.draws, self.slot = Replay(tenant), draws, 0

    def submit(self, job: Mapping[str, Any]) -> Job:
        """Makes the job."""
        self.replay.step(Ask({"op": "submit", "job": job}, {"job": 1}))
        return self.replay.jobs[1]

    def move(self) -> None:
        """Lets one slot start a row, or advance."""
        for slot in self._turns():
            entry = self._entry(slot)
            if entry is not None:
                self.slot = slot
                self.replay.step(entry)
                return
        raise RuntimeError("no slot can move, and a row is open")

    def _turns(self) -> Iterator[int]:
        """The slots, in the order in which they are asked whether they can move."""
        slots = list(range(self.replay.tenant.slots))
        if self.draws is None:
            yield from slots
            return
        if self.draws.random() < STAYS:
            yield self.slot
        self.draws.shuffle(slots)
        yield from slots

    def _entry(self, slot: int) -> Entry | None:
        """What a slot does if it is its turn; None if it can do nothing."""
        stack = self.replay.stacks[slot]
        if stack and not _is_blocked(stack[-1]):
            return Advance(slot, None, False)
        row = self._next_row(slot)
        if row is None:
            return None
        if not stack:
            return Arrive(slot, row.number)
        return Advance(slot, row.number if len(stack) < HEIGHT else None, False)

    def _next_row(self, slot: int) -> Row | None:
        """The row that a slot starts next: the newest that was made on it, else the oldest; around a region, of its own
        rows alone."""
        stack = self.replay.stacks[slot]
        around = _region(stack[-1]) if stack else None
        waiting = [it for it in self.replay.waiting.values() if around is None or _region(it) is around]
        own = next((it for it in reversed(waiting) if it.made_on == slot), None)
        return own or next(iter(waiting), None)


def _is_blocked(row: Row) -> bool:
    """Whether a row is before a wait for a group of which a row is open."""
    instr = row.job.code[row.proc].instrs[row.at]
    return instr.op == WAIT and bool(row.groups and row.groups[instr.z].members)


def _region(row: Row) -> Row | None:
    """The innermost region that a row is in, or is."""
    at: Row | None = row
    while at is not None and at.kind is not Kind.REGION:
        at = at.maker
    return at

"""Where a job reads cells that it has not written: they have what earlier jobs of the tenant stored, or jobs that run at the
same time."""
from collections.abc import Iterator
from dataclasses import dataclass

from arena.jobs import Job, Procedure


@dataclass(frozen=True, slots=True)
class Read:
    """An instruction that reads cells: its procedure and its number, from 0, its name, and the key."""

    procedure: int
    instruction: int
    name: str
    key: int

    def __str__(self) -> str:
        if self.name == "load":
            return (f"the cell of key {self.key} is read where this task has not stored it on each way: it may have what an "
                    "earlier job stored, or another job at the same time")
        return f"cells of key {self.key} are read on all slots, and those that other jobs stored count, too"


def reads_of_others(job: Job) -> Iterator[Read]:
    """The instructions of a valid job that may read what other jobs stored: a slot's cell that the row itself has not stored on
    each way there, and the sums and counts over all slots."""
    for number, procedure in enumerate(job.procedures):
        stored = _stored_before(procedure)
        for at, it in enumerate(procedure):
            keys = stored[at]
            if keys is not None and it.name in ("load", "sum", "count"):
                key = it.operands[1]
                if it.name != "load" or key not in keys:
                    yield Read(number, at, it.name, key)


def _stored_before(procedure: Procedure) -> list[frozenset[int] | None]:
    """For each instruction the keys that are stored on each way to it; None if there is no way."""
    found: list[frozenset[int] | None] = [None] * len(procedure)
    found[0] = frozenset()
    waiting = [0]
    while waiting:
        at = waiting.pop()
        it, keys = procedure[at], found[at] or frozenset()
        if it.name == "store":
            keys |= {it.operands[0]}
        for following in _successors(procedure, at):
            before = found[following]
            after = keys if before is None else before & keys
            if after != before:
                found[following] = after
                waiting.append(following)
    return found


def _successors(procedure: Procedure, at: int) -> tuple[int, ...]:
    it = procedure[at]
    if it.name == "jmp":
        return (it.operands[0],)
    if it.name == "jz":
        return (at + 1, it.operands[1])
    return () if it.name == "ret" else (at + 1,)

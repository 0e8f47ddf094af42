"""Where a job of the queue had its fault, found out by running it again in this process, for a while."""
import json
from dataclasses import dataclass
from functools import lru_cache

from arena.language import Compiled, SourceFault, compile_source
from arena.queue.model import Job
from arena.replies import FaultCode
from arena.texts import lines_of
from arena.trace.rehearsal import FaultAt, rehearse

MOST_FUEL = 20_000
"""How many instructions a job is run for at most: a fault that comes later is not looked for."""


@dataclass(frozen=True, slots=True)
class Place:
    """Where a fault was: the place in words, and the text of its line, if the program was compiled from a source."""

    name: str
    text: str = ""


def place_of(job: Job, procs: str, source: str | None) -> Place | None:
    """Where a job had its fault. None if that is not known: it came late, or it owes something to what ran beside the job."""
    if job.fault is None:
        return None
    at = _found(procs, job.args, min(job.fuel, MOST_FUEL), FaultCode(job.fault))
    if at is None:
        return None
    made = None if source is None else _compiled(source, procs)
    if made is None:
        return Place(f"procedure {at.procedure}, instruction {at.instruction}",
                     json.dumps(json.loads(procs)[at.procedure][at.instruction]))
    name = made.place(at.procedure, at.instruction)
    number = name.rpartition(" line ")[2]
    lines = lines_of(source or "")
    return Place(name, lines[int(number) - 1].strip() if number.isdigit() and int(number) <= len(lines) else "")


@lru_cache(1000)
def _found(procs: str, args: tuple[int, int], fuel: int, code: FaultCode) -> FaultAt | None:
    """Where the fault is that comes within some fuel, if it is this one."""
    at = rehearse({"args": list(args), "fuel": fuel, "procs": json.loads(procs)}).fault
    return at if at is not None and at.code is code else None


@lru_cache(100)
def _compiled(source: str, procs: str) -> Compiled | None:
    """What a source is compiled to, if that is these procedures."""
    try:
        made = compile_source(source)
    except (SourceFault, ValueError, RecursionError):
        return None
    return made if json.dumps(made.job.to_value()["procs"], separators=(",", ":")) == procs else None

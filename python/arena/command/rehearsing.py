"""Where a job had its fault, found out by running it again in this process."""
from collections.abc import Mapping
from typing import Any

from arena.command.sources import JobSource
from arena.jobs import Job
from arena.replies import FaultCode


def place_of_fault(source: JobSource, code: FaultCode) -> str:
    """Where a job has the fault that the server found: the procedure and the line of its source, as far as it can be known;
    empty if a rehearsal on one slot ends otherwise. A schedule decides where a job that is not serial has its first fault,
    and where one runs out of fuel. It blocks for as long as the rehearsal computes."""
    from arena.trace.rehearsal import rehearse
    at = rehearse(source.job).fault
    if at is None or at.code is not code:
        return ""
    is_sure = code is not FaultCode.FUEL and is_serial(source.job)
    return f"{', in' if is_sure else '; in a rehearsal on one slot it is in'} {source.place(at.procedure, at.instruction)}"


def is_serial(job: Mapping[str, Any]) -> bool:
    """Whether no schedule changes the value of a JOB."""
    return Job.from_value(dict(job)).is_serial()

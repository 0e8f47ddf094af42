"""Which jobs a client made, so that one which was lost with its connection differs from one that never was."""
from dataclasses import dataclass, field
from typing import TypeVar

from arena.replies import LostJob, UnknownJob
from arena.requests import Request

Value = TypeVar("Value")


@dataclass
class JobsMade:
    """The numbers of the jobs that a client made, each with the connection that it was made on; a client's connections
    are numbered from 0, and `connection` is the one that it has.

    Numbers begin anew with each start of arena-server, so a number that is made again is that of the new job.
    """

    connection: int = 0
    _made: dict[int, int] = field(default_factory=dict)

    def value(self, request: Request[Value], line: bytes, connection: int) -> Value:
        """What the reply to a request on a connection says, as `Request.value`; the job that it made is kept in mind.
        Raises LostJob in the place of UnknownJob, if the client made the job on a connection before that one."""
        try:
            value = request.value(line)
        except UnknownJob as fault:
            if request.job is not None and self._made.get(request.job, connection) < connection:
                raise LostJob(fault.request) from None
            raise
        if request.made is not None:
            self._made[request.made(value)] = connection
        if request.releases and request.job is not None:
            self._made.pop(request.job, None)
        if request.retires:
            self._made.clear()
        return value

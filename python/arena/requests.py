"""The lines that a client sends, each with what its reply means. Both clients and the pipeline stand on these."""
import json
from collections.abc import Callable, Mapping
from dataclasses import dataclass, replace
from functools import partial
from typing import Any, Generic, Protocol, TypeVar

from arena.replies import (GREATEST_COUNT, REFUSALS, BadProgram, Cells, Limits, Outcome, Refused, Status, StrangeReply,
                           cells_of, limits_of, members, number_of, outcome_of, status_of, whole)

Value = TypeVar("Value")


class HasValue(Protocol):
    """A job that can say its JSON value, as `arena.jobs.Job`."""

    def to_value(self) -> dict[str, Any]:
        """The JOB."""
        ...


class HasJob(Protocol):
    """What a compiler gives: a job with more about it."""

    job: HasValue


JobLike = HasValue | HasJob | Mapping[str, Any]


def value_of(job: JobLike) -> Mapping[str, Any]:
    """The JSON value of a job, of what the compiler gave, or of a mapping with args, fuel and procs."""
    if isinstance(job, Mapping):
        return job
    inner: Any = getattr(job, "job", job)
    value: Mapping[str, Any] = inner.to_value()
    return value


def line_of(value: object) -> bytes:
    """A JSON value as the compact line, with its newline, that is sent."""
    return json.dumps(value, separators=(",", ":"), sort_keys=True).encode() + b"\n"


@dataclass(frozen=True, slots=True)
class Request(Generic[Value]):
    """A line to send. `what` names the request in errors; `read` makes a value of a reply that is no error. `job` is
    the number that it asks about; `made` gives the number of the job that it made by the value; `retires` is whether
    it makes the server forget all jobs, and `releases` whether it makes it forget this one; `program` is the JOB in it."""

    what: str
    line: bytes
    read: Callable[[dict[str, Any]], Value]
    job: int | None = None
    made: Callable[[Value], int] | None = None
    retires: bool = False
    releases: bool = False
    program: Mapping[str, Any] | None = None

    def value(self, line: bytes) -> Value:
        """What the line of a reply says. Raises the `Refused` of an error reply, and StrangeReply for whatever is no
        reply to this request."""
        try:
            reply = json.loads(line.decode())
            if "error" in reply:
                raise self._refusal(*members(reply, "code", "error"))
            return self.read(reply)
        except (ValueError, KeyError, TypeError, AttributeError, RecursionError):
            raise StrangeReply(f"{self.what}: {line[:100]!r} is no reply of arena-server to this; connect "
                               "anew") from None

    def _refusal(self, code: object, name: object) -> Refused:
        """The exception of an error reply. Raises ValueError and KeyError if there is no such error."""
        kind = REFUSALS[whole(code)]
        if kind.name != name:
            raise ValueError(f"error {code} is called {kind.name}")
        return BadProgram(self.what, place_in(self.program)) if kind is BadProgram else kind(self.what)


def place_in(program: Mapping[str, Any] | None) -> str:
    """Where a JOB has its first fault, and which, as `arena lint` says it; empty if it has none that is known here."""
    from arena.lint import first_fault_of_job, read_value
    try:
        return str(first_fault_of_job(read_value(json.dumps(program))) or "") if program is not None else ""
    except ValueError as fault:
        return str(fault)


def _asked(op: str, read: Callable[[dict[str, Any]], Value], **more: object) -> Request[Value]:
    job = more.get("job")
    number = job if isinstance(job, int) else None
    return Request(op if number is None else f"{op} {number}", line_of({"op": op} | more), read, number)


def _same_tenant(reply: dict[str, Any], tenant: str) -> str:
    (named,) = members(reply, "tenant")
    if named != tenant:
        raise ValueError("the connection is bound to another tenant")
    return tenant


def _first(reply: dict[str, Any], number: int) -> bool:
    first, job = members(reply, "first", "job")
    if type(first) is not bool:
        raise ValueError("`first` is true or false")
    number_of(job, number)
    return first


def _released(reply: dict[str, Any], number: int) -> None:
    (released,) = members(reply, "released")
    number_of(released, number)


def hello(tenant: str) -> Request[str]:
    """Binds the connection to a tenant."""
    return _asked("hello", lambda reply: _same_tenant(reply, tenant), tenant=tenant)


def submit(job: JobLike) -> Request[int]:
    """Makes a job that waits for a worker; its number."""
    program = value_of(job)
    return replace(_asked("submit", lambda reply: number_of(*members(reply, "job")), job=program),
                   made=lambda number: number, program=program)


def execute(job: JobLike) -> Request[Outcome]:
    """Runs a job, on a reserved slot if one is free; its outcome."""
    program = value_of(job)
    return replace(_asked("execute", outcome_of, job=program), made=lambda outcome: outcome.job, program=program)


def poll(number: int) -> Request[Status]:
    """A job's status now."""
    return _asked("poll", lambda reply: status_of(reply, number), job=number)


def collect(number: int, release: bool = False) -> Request[Outcome]:
    """A job's outcome, once it has one; with `release` the job is released in the same step."""
    line = b'{"job":%d,"op":"collect","release":true}\n' if release else b'{"job":%d,"op":"collect"}\n'
    return Request(f"collect {number}", line % number, partial(outcome_of, asked=number), number, releases=release)


def release(number: int) -> Request[None]:
    """Forgets a job that has its outcome."""
    return replace(_asked("release", lambda reply: _released(reply, number), job=number), releases=True)


def cancel(number: int) -> Request[bool]:
    """Cancels a job; whether this request did it."""
    return _asked("cancel", lambda reply: _first(reply, number), job=number)


def cells(key: int) -> Request[Cells]:
    """The cells of a key."""
    return _asked("cells", lambda reply: cells_of(reply, key), key=key)


def limits() -> Request[Limits]:
    """The tenant's slots and priority."""
    return _asked("arena", limits_of)


def retire() -> Request[int]:
    """Forgets all jobs and cells; the epoch that begins."""
    return replace(_asked("retire", lambda reply: whole(members(reply, "epoch")[0], 1, GREATEST_COUNT)), retires=True)

"""What the queue keeps: jobs, their states, and what a dispatcher says of them."""
import enum
import time
from collections.abc import Mapping
from dataclasses import dataclass, field
from typing import Any, NamedTuple

from arena.queue.programs import Program
from arena.replies import ArenaError, FaultCode

SECOND = 1_000_000
"""Times are whole microseconds since 1970."""

MOST_FAILURES = 20
"""How often a job may be lost before it is dead, if its submitter says nothing else."""

LONGEST_KEY = 200
"""How many characters a key has at most."""


def now() -> int:
    """The time by this machine's clock, in microseconds since 1970."""
    return time.time_ns() // 1000


class State(enum.StrEnum):
    """How far a job is. The last four are its end, which only `retry` takes back."""

    SCHEDULED = "scheduled"
    READY = "ready"
    RUNNING = "running"
    COMPLETE = "complete"
    FAULT = "fault"
    CANCELED = "canceled"
    DEAD = "dead"

    @property
    def has_ended(self) -> bool:
        """Whether the job has its outcome."""
        return self in ENDED


ENDED = (State.COMPLETE, State.FAULT, State.CANCELED, State.DEAD)


class QueueError(ArenaError):
    """The queue can't do what was asked for, and did nothing; the text says why."""

    done = False


class UnknownQueueJob(QueueError):
    """No job of the tenant has that number in the queue."""


class KeyTaken(QueueError):
    """A job of the tenant has that key, and is another one."""


class LeaseLost(QueueError):
    """The dispatcher was taken for dead, and its jobs were given to others."""


@dataclass(frozen=True, slots=True)
class NewJob:
    """A job to submit. Two of one tenant with one key are the same job. It is not run before `run_at`, or, if there is a
    `delay`, before so many microseconds after it was submitted, by the clock of the queue; jobs of a higher priority are run
    first; after `most_failures` losses it is dead. Raises QueueError for what is out of range."""

    tenant: str
    program: Program
    args: tuple[int, int] = (0, 0)
    fuel: int = 1_000_000
    key: str | None = None
    priority: int = 0
    run_at: int | None = None
    most_failures: int = MOST_FAILURES
    delay: int = 0

    def __post_init__(self) -> None:
        if not self.tenant:
            raise QueueError("a job has a tenant")
        if self.key is not None and not 1 <= len(self.key) <= LONGEST_KEY:
            raise QueueError(f"a key has 1 to {LONGEST_KEY} characters")
        if "\0" in self.tenant or "\0" in (self.key or ""):
            raise QueueError("the names of tenants and keys have no character 0")
        if not -1000 <= self.priority <= 1000:
            raise QueueError(f"{self.priority}: a priority is from -1000 to 1000")
        if not 1 <= self.most_failures <= 1_000_000:
            raise QueueError(f"{self.most_failures}: a job may be lost 1 to 1,000,000 times")


class Submitted(NamedTuple):
    """The number of a submitted job; `made` is false if it was there before, under its key."""

    job: int
    made: bool


@dataclass(frozen=True, slots=True)
class Job:
    """A job as it stands in the queue. Times are in microseconds since 1970."""

    job: int
    tenant: str
    key: str | None
    program: str
    is_serial: bool
    args: tuple[int, int]
    fuel: int
    priority: int
    state: State
    run_at: int
    attempts: int
    failures: int
    value: int | None
    fault: int | None
    error: str | None
    made_at: int
    started_at: int | None
    ended_at: int | None

    def to_value(self) -> dict[str, Any]:
        """It as JSON; times are seconds."""
        value: dict[str, Any] = {
            "job": self.job, "tenant": self.tenant, "state": self.state.value, "program": self.program,
            "serial": self.is_serial, "args": list(self.args), "fuel": self.fuel, "priority": self.priority,
            "attempts": self.attempts, "failures": self.failures}
        for name in ("key", "value", "error"):
            if getattr(self, name) is not None:
                value[name] = getattr(self, name)
        if self.fault is not None:
            value["fault"] = {"code": self.fault, "text": FaultCode(self.fault).text}
        for name in ("run_at", "made_at", "started_at", "ended_at"):
            if (at := getattr(self, name)) is not None:
                value[name] = at / SECOND
        return value


class Event(NamedTuple):
    """Something out of the ordinary that happened to a job."""

    at: int
    what: str
    attempt: int
    detail: str | None


class Claim(NamedTuple):
    """A job that a dispatcher has to run. `attempt` is the fence: an outcome counts only for the attempt under way. `alone` is
    how often it was to be run again alone for a fault that load may have made."""

    job: int
    attempt: int
    program: int
    x: int
    y: int
    fuel: int
    failures: int
    alone: int
    tenant: str
    waited: int
    """For how many microseconds it was ready."""


class Ending(NamedTuple):
    """The outcome of an attempt. `ran` is how many microseconds the attempt took, if a host has run the job."""

    job: int
    attempt: int
    state: State
    value: int | None = None
    fault: int | None = None
    error: str | None = None
    tenant: str = ""
    ran: int | None = None


class GiveBack(NamedTuple):
    """An attempt without an outcome. If it `counts`, the job may have run, and is one failure nearer to its death. It is run
    again after `delay` microseconds at the earliest, `alone` if nothing else of its tenant is to run beside it."""

    job: int
    attempt: int
    error: str
    counts: bool
    delay: int = 0
    alone: bool = False


@dataclass(frozen=True, slots=True)
class Grant:
    """What a token allows: to ask for a tenant, so many times a second, with so many bytes at a time; None is what the service
    says."""

    tenant: str
    rate: float | None = None
    bytes: int | None = None


@dataclass(frozen=True, slots=True)
class Wants:
    """What a dispatcher has room for: so many jobs of each tenant, and so many of each of `tenants` others."""

    each: Mapping[str, int] = field(default_factory=dict)
    others: int = 0
    tenants: int = 0

    def __bool__(self) -> bool:
        return self.others > 0 and self.tenants > 0 or any(self.each.values())


@dataclass(slots=True)
class Turn:
    """What a dispatcher's transaction did: the jobs that it claimed for each tenant, whether there are more, the outcomes that
    were refused since their attempt was over, running jobs that are to be cancelled, and in how many microseconds the next scheduled job is due."""

    claims: dict[str, list[Claim]] = field(default_factory=dict)
    has_more: bool = False
    refused: list[int] = field(default_factory=list)
    cancels: list[int] = field(default_factory=list)
    next_in: int | None = None

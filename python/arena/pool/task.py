"""Jobs that are to be run on a host, and what can become of them."""
from collections.abc import Mapping
from dataclasses import dataclass
from typing import Any, Generic, TypeVar

from arena.replies import ArenaError, Outcome, Refused

Tag = TypeVar("Tag")


@dataclass(eq=False, slots=True)
class Task(Generic[Tag]):
    """A job to run. `tag` is what its owner knows it by; `alone` is whether no other job of the desk runs beside it."""

    tag: Tag
    line: bytes
    """The line that submits it."""
    alone: bool = False
    program: Mapping[str, Any] | None = None
    """The JOB, so that an error can say what is wrong with it."""


@dataclass(slots=True)
class Ended(Generic[Tag]):
    """The job has this outcome."""

    task: Task[Tag]
    outcome: Outcome


@dataclass(frozen=True, slots=True)
class NotRun(Generic[Tag]):
    """Nothing of the job was run: the host has no room for it now, or can't be reached."""

    task: Task[Tag]
    why: str
    fault: ArenaError | None = None


@dataclass(frozen=True, slots=True)
class Lost(Generic[Tag]):
    """The job may have run, or run still; its outcome will not come."""

    task: Task[Tag]
    why: str


@dataclass(frozen=True, slots=True)
class Never(Generic[Tag]):
    """No host will take the job."""

    task: Task[Tag]
    fault: Refused


Result = Ended[Tag] | NotRun[Tag] | Lost[Tag] | Never[Tag]


@dataclass(frozen=True, slots=True)
class Settings:
    """How hosts are used. Times are in seconds."""

    window: int = 64
    """How many jobs are under way on a connection."""
    lanes: int = 1
    """How many connections a tenant has; old ones that are left count no more."""
    connections: int = 16
    """How many connections there are to a host, of all tenants."""
    connecting: float = 2.0
    """How long it may take to connect."""
    reply: float = 60.0
    """How long a host may be silent while it owes a reply."""
    renew: float = 1.0
    """How long a connection takes new jobs: then another one takes its place."""
    renew_jobs: int = 4000
    """How many jobs a connection takes."""
    idle: float = 10.0
    """How long a connection without jobs is kept."""
    retire: bool = False
    """Whether the host may be asked to forget all jobs of the tenant: if it has no room for another one though none of this
    desk is under way, and before a job that is to run alone, since what lost connections have left may run there. Others of
    the tenant lose outcomes that they have not collected."""

"""What `status.json` of arena-host says, as values."""
import enum
from dataclasses import dataclass
from typing import Any

FRESH_SECONDS = 5
"""How old a status may be, in seconds, before one has to doubt that its host still runs; it is written each second."""


class State(enum.Enum):
    """What a term does: `serving` takes new jobs, `finishing` goes on for those that it has."""

    SERVING = "serving"
    FINISHING = "finishing"
    CLOSING = "closing"


class Why(enum.Enum):
    """Why a term was left: its history was nearly full, a file asked for it, the tenant's configuration changed, its journal
    could not be written, or the host was stopped."""

    HISTORY = "history"
    FILE = "file"
    CONFIG = "config"
    JOURNAL = "journal"
    STOP = "stop"


class Durable(enum.Enum):
    """What a host's replies wait for, and so what outlives what, as docs/HOST.md says."""

    OFF = "off"
    WRITE = "write"
    SECOND = "second"
    REPLY = "reply"


@dataclass(frozen=True, slots=True)
class JobsNow:
    """How many jobs of a term are how far, of those that are neither retired nor released."""

    running: int
    complete: int
    canceled: int
    fault: int


@dataclass(frozen=True, slots=True)
class RowsNow:
    """How many rows of a term are open, and how many of these wait to be started."""

    open: int
    waiting: int


@dataclass(frozen=True, slots=True)
class Term:
    """A term of a tenant that is not closed. `began` is in seconds since 1970, and `why` is None while it serves; its jobs are
    numbered after `base`. Then the room of its history and what it holds, in entries; requests that were asked of it, and
    jobs that were made; and how far its jobs and rows are."""

    tenant: str
    number: int
    state: State
    began: int
    why: Why | None
    base: int
    steps: int
    entries: int
    asks: int
    jobs: int
    jobs_now: JobsNow
    rows: RowsNow

    @property
    def share(self) -> float:
        """How full the history is, from 0 to 1."""
        return self.entries / self.steps


@dataclass(frozen=True, slots=True)
class WorkerStatus:
    """Where a worker was last: at a slot of a tenant, or None for both while it waits for a call."""

    worker: int
    tenant: str | None
    slot: int | None


@dataclass(frozen=True, slots=True)
class ClosedTerm:
    """A term that was closed. `began` and `ended` are in seconds since 1970; `lost` is how many of its jobs had no outcome,
    and `left` how many more get theirs at the next start; `fault` is the number of the close fault or None, `dumped` whether its dump was written; `ms` is how many milliseconds
    closing and writing took."""

    tenant: str
    number: int
    began: int
    ended: int
    why: Why
    base: int
    entries: int
    lost: int
    left: int
    fault: int | None
    dumped: bool
    ms: int


@dataclass(frozen=True, slots=True)
class Cut:
    """How many connections a host has ended so far: those that said no hello in time, and those that asked nothing."""

    hello: int
    idle: int


@dataclass(frozen=True, slots=True)
class TenantStatus:
    """What a tenant has of a host's connections: how many are bound to it now, and how many hellos were refused so far since
    it had as many as it may."""

    tenant: str
    connected: int
    refused: int


@dataclass(frozen=True, slots=True)
class HostStatus:
    """What a host said of itself. `time` and `began` are in seconds since 1970, `memory` in bytes or None, `rotate_at` in per
    cent, `finish` in seconds, and so are `hello_seconds` and `idle_seconds`, where 0 stands for any time; `connections` is
    the most at a time, `connected` how many there are now, `served` all so far, `tenant_connections` the most of one tenant.
    The tenants stand in the order in which they came, those that are not configured any more among them. The terms of one tenant stand together, the oldest first, and of those that are closed the newest is last."""

    version: str
    time: int
    began: int
    connections: int
    connected: int
    served: int
    cut: Cut
    tenant_connections: int
    hello_seconds: int
    idle_seconds: int
    rotate_at: int
    keep: int
    finish: int
    durable: Durable
    memory: int | None
    workers: tuple[WorkerStatus, ...]
    tenants: tuple[TenantStatus, ...]
    terms: tuple[Term, ...]
    closed: tuple[ClosedTerm, ...]

    @property
    def serving(self) -> dict[str, Term]:
        """The term of each tenant that takes new jobs; a tenant has none while the host stops."""
        return {it.tenant: it for it in self.terms if it.state is State.SERVING}

    def connected_to(self, tenant: str) -> int:
        """How many connections are bound to a tenant."""
        return sum(it.connected for it in self.tenants if it.tenant == tenant)

    def workers_at(self, tenant: str) -> int:
        """How many workers were last at a slot of a tenant."""
        return sum(it.tenant == tenant for it in self.workers)


@dataclass(frozen=True, slots=True)
class Reading:
    """A status with the object that it was read from, and when it was written, in seconds since 1970 and as exactly as
    the file says."""

    status: HostStatus
    value: dict[str, Any]
    written: float

    def stale(self, now: float) -> str | None:
        """Why the status is no longer that of now, which is in seconds since 1970; None if it is at most 5 s old."""
        age = int(now) - self.status.time
        if age > FRESH_SECONDS:
            return f"written {age} s ago, and a host writes it each second"
        if age < -FRESH_SECONDS:
            return f"its time is {-age} s ahead of the clock here"
        return None

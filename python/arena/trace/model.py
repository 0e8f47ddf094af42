"""What a replay knows: rows, groups, jobs, and what happened in an entry."""
import enum
from dataclasses import dataclass, field
from typing import Any, TypeVar

from arena.replies import FaultCode
from arena.trace.machine import Procedure


Value = TypeVar("Value")


def there(value: Value | None) -> Value:
    """What is always there where this is asked for, though it is not at first."""
    assert value is not None
    return value


class Kind(enum.Enum):
    """What made a row."""

    ROOT = "root"
    TASK = "task"
    POST = "post"
    REGION = "region"


class State(enum.Enum):
    """Where a row is in its life. It is open while it waits or is live."""

    WAITING = "waiting"
    LIVE = "live"
    RETURNED = "returned"
    DROPPED = "dropped"
    FAULTED = "faulted"


class Move(enum.Enum):
    """What an entry is: a request, or a move of a slot."""

    ASKED = "asked"
    ARRIVED = "arrived"
    NESTED = "nested"
    RAN = "ran"


@dataclass(frozen=True, slots=True)
class FaultPlace:
    """Where a job had its first fault: the entry, and the row with its procedure and instruction, from 0."""

    code: FaultCode
    entry: int
    row: int
    proc: int
    instr: int


@dataclass(slots=True, eq=False)
class Job:
    """A job. Entries are numbered from 1; `work`, `span` and fuel are in instructions."""

    number: int
    code: list[Procedure]
    procs: list[list[list[Any]]]
    args: tuple[int, int]
    given: int
    left: int
    asked: int
    is_executed: bool
    started: int | None = None
    ended: int | None = None
    open: int = 0
    rows: int = 0
    taken: int = 0
    highest: int = 0
    runs: int = 0
    work: int = 0
    span: int = 0
    value: int | None = None
    fault: FaultPlace | None = None
    is_cancelled: bool = False
    waiting: dict[int, "Row"] = field(default_factory=dict)

    @property
    def is_stopped(self) -> bool:
        """Whether what waits of it is dropped: it was cancelled by request, or had a fault."""
        return self.is_cancelled or self.fault is not None

    @property
    def outcome(self) -> str:
        """`running`, `fault`, `canceled` or `complete`, as in a reply."""
        if self.open:
            return "running"
        return "fault" if self.fault else "canceled" if self.is_cancelled else "complete"

    @property
    def result(self) -> str:
        """The value that it returned, or what came in its place: `fault 2`, `canceled`, `running`."""
        if self.outcome == "complete":
            return str(self.value)
        return f"fault {there(self.fault).code.value}" if self.outcome == "fault" else self.outcome


@dataclass(slots=True, eq=False)
class Group:
    """One of a row's four groups, since its last completed wait. `members` are the open ones; `longest` is the greatest
    path of those that have ended."""

    members: dict[int, "Row"] = field(default_factory=dict)
    total: int = 0
    is_used: bool = False
    is_cancelled: bool = False
    longest: int = 0


@dataclass(slots=True, eq=False)
class Row:
    """A row. `made_on` is the slot on which it was made, none for roots and posts; heights begin at 1, entries at 1.

    `path` is how many instructions lie on the longest chain from the start of the job to where the row is now, of
    rows that had to wait for each other. """

    number: int
    kind: Kind
    job: Job
    maker: "Row | None"
    group: int | None
    made_on: int | None
    proc: int
    registers: list[int]
    made: int
    path: int
    is_cancelled: bool
    at: int = 0
    state: State = State.WAITING
    slot: int | None = None
    height: int | None = None
    started: int | None = None
    ended: int | None = None
    value: int | None = None
    cost: int = 0
    groups: list[Group] | None = None
    region: "Row | None" = None

    def group_of(self, number: int) -> Group:
        """One of its groups."""
        if self.groups is None:
            self.groups = [Group(), Group(), Group(), Group()]
        return self.groups[number]

    @property
    def is_taken(self) -> bool:
        """Whether it was started on another slot than that on which it was made."""
        return self.made_on is not None and self.slot is not None and self.made_on != self.slot


@dataclass(slots=True, eq=False)
class Happening:
    """What happened in one entry.

    `row` is the row that ran, was started or was made by a request. A run went from instruction `since` to `until`,
    where the row is now (or had its fault), and executed `cost` instructions, the last of them the shared instruction
    `shared` if there is one. `made` is the row that it made, `ended` are the rows that ended in this entry. """

    number: int
    move: Move
    slot: int | None = None
    row: Row | None = None
    since: int = 0
    until: int = 0
    cost: int = 0
    shared: str | None = None
    made: Row | None = None
    fault: FaultCode | None = None
    ended: list[Row] = field(default_factory=list)
    op: str | None = None
    reply: dict[str, Any] | None = None
    job: Job | None = None

"""The database of a queue, whichever it is: what `Store` and `Turns` do, they do by this."""
import abc
import contextlib
import re
import sys
from collections.abc import Sequence
from typing import Any, NamedTuple, Self

from arena.queue.model import Ending, QueueError
from arena.queue.wake import Waker

Row = tuple[Any, ...]

SYNCHRONOUS = ("full", "normal", "off")
"""`full`: what was acknowledged outlives the machine's end; `normal`: it outlives that of any process."""

SCHEMES = ("postgresql://", "postgres://")
"""What the URL of a queue in PostgreSQL begins with. Everything else is the path of a file."""


class Orphan(NamedTuple):
    """A job that a lost dispatcher ran, its attempt, and how often it was lost that way before."""

    job: int
    attempt: int
    orphaned: int


class Lease(NamedTuple):
    """A dispatcher that has a lease, and for how many seconds it still has it."""

    dispatcher: int
    name: str
    seconds: float


class Base(abc.ABC):
    """A connection to a database, for one thread. What it raises if the database can't be used now is in `faults`; what was
    under way then may have been done or not, if it was a commit. `where` is its path or URL. """

    where: str
    faults: tuple[type[Exception], ...]

    def __enter__(self) -> Self:
        return self

    def __exit__(self, *_: object) -> None:
        self.close()

    @abc.abstractmethod
    def close(self) -> None:
        """Ends the connection."""

    # Statements. Values stand for each `?`.

    @abc.abstractmethod
    def transaction(self, *, durable: bool = True) -> contextlib.AbstractContextManager[None]:
        """One transaction. One that is not durable may be undone by the end of the machine, but not by that of a process."""

    @abc.abstractmethod
    def rows(self, sql: str, *values: object) -> list[Row]:
        """The rows of a query, or of a change that returns some."""

    @abc.abstractmethod
    def first(self, sql: str, *values: object) -> Row | None:
        """The first row, if there is one."""

    @abc.abstractmethod
    def change(self, sql: str, *values: object) -> int:
        """Makes a change; how many rows it changed."""

    # News.

    @abc.abstractmethod
    def wake(self, topic: str) -> None:
        """Wakes those that wait for a topic, `ready` or `ended`, when the transaction under way has been committed."""

    @abc.abstractmethod
    def waker(self, topic: str) -> Waker:
        """What wakes this process when something of the topic was committed."""

    # What differs. Each is called in a transaction.

    @abc.abstractmethod
    def numbers(self, count: int) -> list[int]:
        """Numbers for so many new jobs, in order. Some may never be used."""

    @abc.abstractmethod
    def insert(self, rows: Sequence[Row]) -> set[int]:
        """Inserts jobs, but none whose key is there; the numbers of those inserted. A row has id, tenant, key, program, x, y,
        fuel, priority, run_at (None is now), most_failures, reuse, value and error; one with a value is complete."""

    @abc.abstractmethod
    def settle(self, dispatcher: int, endings: Sequence[Ending]) -> list[int]:
        """Records outcomes of attempts that are under way; the jobs of the others."""

    @abc.abstractmethod
    def promote(self) -> None:
        """Makes those jobs ready that are due."""

    @abc.abstractmethod
    def hurry(self, longest: int) -> None:
        """Makes those jobs ready that were given back and still wait for more than `longest` microseconds: none is given back for
        longer, so the clock was set back meanwhile."""

    @abc.abstractmethod
    def claim(self, dispatcher: int, tenant: str, limit: int) -> list[Row]:
        """Takes ready jobs of a tenant, the first ones in any order: id, attempt, program, x, y, fuel, failures, alone, tenant,
        for how long it was ready, priority."""

    @abc.abstractmethod
    def hold_job(self, job: int) -> None:
        """Sees to it that nobody else changes a job before the transaction ends."""

    @abc.abstractmethod
    def hold_programs(self, *, all: bool = False) -> None:
        """Sees to it that no program goes before the transaction ends; with `all` that none is come by either."""

    @abc.abstractmethod
    def hold_hosts(self) -> None:
        """Sees to it that nobody else takes a host before the transaction ends."""

    @abc.abstractmethod
    def keep(self, rows: Sequence[Row]) -> None:
        """Adds to the figures of this minute: tenant, what, bucket, jobs, microseconds."""

    @abc.abstractmethod
    def fold(self, minutes: int) -> None:
        """Makes one sum of the figures of all minutes but the latest."""

    # Leases.

    @abc.abstractmethod
    def register(self, name: str, seconds: float) -> int:
        """A lease for a new dispatcher; its number."""

    @abc.abstractmethod
    def hold_lease(self, dispatcher: int, seconds: float | None) -> bool:
        """Whether a dispatcher has its lease, which nobody takes away before the transaction ends; with `seconds` it is renewed."""

    @abc.abstractmethod
    def overdue(self) -> list[int]:
        """The dispatchers whose leases have run out, which nobody renews before the transaction ends."""

    @abc.abstractmethod
    def leases(self) -> list[Lease]:
        """The dispatchers that have a lease."""

    @abc.abstractmethod
    def orphans(self, dispatcher: int) -> list[Orphan]:
        """The jobs that a dispatcher runs, whose lease is to be taken away: nobody renews it before the transaction ends."""


def is_url(where: str) -> bool:
    """Whether a queue is in PostgreSQL."""
    return where.startswith(SCHEMES)


def shown(where: str) -> str:
    """Where a queue is, without a password."""
    if not is_url(where):
        return where
    return re.sub(r"([?&]password=)[^&]*", r"\1..", re.sub(r"(://[^/@]*?):[^/]*@", r"\1:..@", where))


def open_base(where: str, synchronous: str = "full", *, make: bool = False) -> Base:
    """A connection to the queue at a path or URL. Raises QueueError, and what is among its `faults`."""
    if synchronous not in SYNCHRONOUS:
        raise QueueError(f"{synchronous}: the word for synchronous is one of {', '.join(SYNCHRONOUS)}")
    if not is_url(where):
        from arena.queue.sqlite.database import Sqlite
        return Sqlite(where, synchronous, make=make)
    try:
        from arena.queue.postgres.database import Postgres
    except ImportError as fault:
        raise QueueError(f"{fault}: a queue in PostgreSQL needs psycopg2 (Debian: apt install python3-psycopg2)") from None
    return Postgres(where, synchronous, make=make)


def all_faults() -> tuple[type[Exception], ...]:
    """What any database of a queue has raised that can't be used now."""
    import sqlite3
    loaded = sys.modules.get("psycopg2")
    return (sqlite3.Error,) if loaded is None else (sqlite3.Error, loaded.Error)


def faults_of(where: str) -> tuple[type[Exception], ...]:
    """What is raised if the database of a queue can't be used now."""
    import sqlite3
    if not is_url(where):
        return (sqlite3.Error,)
    try:
        import psycopg2
    except ImportError:
        return ()
    return (psycopg2.Error,)

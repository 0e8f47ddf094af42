"""The queue's file."""
import contextlib
import fcntl
import os
import sqlite3
import time
from collections.abc import Iterator, Sequence

from arena.queue.base import Base, Lease, Orphan, Row
from arena.queue.figures import MINUTE
from arena.queue.model import SECOND, Ending, QueueError, State, now
from arena.queue.sqlite import statements
from arena.queue.sqlite.schema import STEPS
from arena.queue.wake import Sender, SocketWaker, Waker

BUSY_SECONDS = 30
"""How long SQLite waits for a lock of its own."""

SETTINGS = ("journal_mode = WAL", "foreign_keys = OFF", "temp_store = MEMORY", "cache_size = -65536",
            "wal_autocheckpoint = 4000")


def boot() -> str:
    """What names this start of the machine."""
    with open("/proc/sys/kernel/random/boot_id") as it:
        return it.read().strip()


def uptime() -> int:
    """Microseconds since the machine's start: no clock that somebody sets."""
    return time.clock_gettime_ns(time.CLOCK_BOOTTIME) // 1000


class Sqlite(Base):
    """A connection to the file at a path.

    Writers take turns at a lock beside the file: SQLite's own wait sleeps up to a tenth of a second at a time, and whoever
    comes just then is first. So there is one transaction at a time, and nothing more has to be held. Raises QueueError for a file
    that is no queue, and sqlite3.Error. """

    faults = (sqlite3.Error,)

    def __init__(self, path: str, synchronous: str = "full", *, make: bool = False) -> None:
        if not make and not os.path.exists(path):
            raise QueueError(f"{path}: there is no queue; `arena queue init` makes one")
        self.where = self.path = path
        self.synchronous = synchronous
        self._mode, self._topics = "", set[str]()
        with contextlib.ExitStack() as opened:
            try:
                self._base = sqlite3.connect(path, timeout=BUSY_SECONDS, isolation_level=None, cached_statements=256)
            except sqlite3.OperationalError as fault:
                raise sqlite3.OperationalError(f"{path}: {fault}") from None
            opened.callback(self._base.close)
            self._sender = opened.enter_context(contextlib.closing(Sender(f"{path}-wake")))
            try:
                self._base.execute("PRAGMA schema_version")  # of a file that is no queue, before one is made beside it
                self._turns = os.open(f"{path}-turns", os.O_CREAT | os.O_RDWR | os.O_CLOEXEC, 0o666)
                opened.callback(os.close, self._turns)
                self._base.create_function("arena_now", 0, now)
                for setting in SETTINGS:
                    self._base.execute(f"PRAGMA {setting}")
                for stage in statements.STAGES:
                    self._base.execute(stage)
                self._migrate(make)
            except sqlite3.DatabaseError as fault:
                if type(fault) is not sqlite3.DatabaseError:
                    raise  # it can't be read or written now
                raise QueueError(f"{path}: this is no queue: {fault}") from None
            self._closing = opened.pop_all()

    @contextlib.contextmanager
    def transaction(self, *, durable: bool = True) -> Iterator[None]:
        """See `Base`."""
        mode = self.synchronous if durable or self.synchronous == "off" else "normal"
        if mode != self._mode:
            self._base.execute(f"PRAGMA synchronous = {mode}")
            self._mode = mode
        self._topics.clear()
        fcntl.flock(self._turns, fcntl.LOCK_EX)
        try:
            self._base.execute("BEGIN IMMEDIATE")
            try:
                yield
                self._base.execute("COMMIT")
            except BaseException:
                if self._base.in_transaction:
                    self._base.execute("ROLLBACK")
                raise
        finally:
            fcntl.flock(self._turns, fcntl.LOCK_UN)
        for topic in self._topics:
            self._sender.wake(topic)

    def rows(self, sql: str, *values: object) -> list[Row]:
        """See `Base`."""
        return self._base.execute(sql, values).fetchall()

    def first(self, sql: str, *values: object) -> Row | None:
        """See `Base`."""
        row: Row | None = self._base.execute(sql, values).fetchone()
        return row

    def change(self, sql: str, *values: object) -> int:
        """See `Base`."""
        return self._base.execute(sql, values).rowcount

    def change_many(self, sql: str, values: Sequence[Row]) -> int:
        """Makes a change with each of some values; how many rows these changed."""
        return self._base.executemany(sql, values).rowcount

    def wake(self, topic: str) -> None:
        """See `Base`."""
        self._topics.add(topic)

    def waker(self, topic: str) -> Waker:
        """See `Base`."""
        return SocketWaker(self._sender.folder, topic)

    def close(self) -> None:
        """See `Base`."""
        self._closing.close()

    # What is SQLite's own.

    def numbers(self, count: int) -> list[int]:
        """See `Base`."""
        last = self.first("SELECT seq FROM sqlite_sequence WHERE name = 'job'")
        first = (last[0] if last else 0) + 1
        return list(range(first, first + count))

    def insert(self, rows: Sequence[Row]) -> set[int]:
        """See `Base`."""
        at = now()
        self.change_many(statements.BRING_JOB, [self._completed(row, at) for row in rows])
        made = self.change(statements.INSERT)
        self.change("DELETE FROM new_job")
        numbers = {row[0] for row in rows}
        return numbers if made == len(rows) else {it for it, in self.rows("SELECT id FROM job WHERE id >= ?", min(numbers))}

    @staticmethod
    def _completed(row: Row, at: int) -> Row:
        """A row with its state and times."""
        number, tenant, key, program, x, y, fuel, priority, run_at, *rest, value, error = row
        state = State.SCHEDULED if run_at is not None and run_at > at else State.READY
        if value is not None:
            state = State.COMPLETE
        return (number, tenant, key, program, x, y, fuel, priority, at if run_at is None else run_at, *rest, value, error, state.value,
                at, None if value is None else at)

    def settle(self, dispatcher: int, endings: Sequence[Ending]) -> list[int]:
        """See `Base`."""
        self.change_many(statements.BRING_ENDING,
                         [(it.job, it.attempt, it.state.value, it.value, it.fault, it.error) for it in endings])
        done = {it for it, in self.rows(statements.SETTLE, now(), dispatcher)}
        self.change("DELETE FROM ending")
        return [it.job for it in endings if it.job not in done]

    def promote(self) -> None:
        """See `Base`."""
        self.change(statements.PROMOTE)

    def hurry(self, longest: int) -> None:
        """See `Base`."""
        self.change(statements.HURRY, longest)

    def claim(self, dispatcher: int, tenant: str, limit: int) -> list[Row]:
        """See `Base`."""
        return self.rows(statements.CLAIM, dispatcher, now(), tenant, limit)

    def hold_job(self, job: int) -> None:
        """See `Base`."""

    def hold_programs(self, *, all: bool = False) -> None:
        """See `Base`."""

    def hold_hosts(self) -> None:
        """See `Base`."""

    def keep(self, rows: Sequence[Row]) -> None:
        """See `Base`."""
        minute = now() // MINUTE
        self.change_many(statements.KEEP, [(tenant, minute, *rest) for tenant, *rest in rows])

    def fold(self, minutes: int) -> None:
        """See `Base`."""
        before = now() // MINUTE - minutes
        self.change(statements.FOLD, before)
        self.change("DELETE FROM figure WHERE minute BETWEEN 1 AND ?", before)

    # Leases, by the clock since the machine's start.

    def register(self, name: str, seconds: float) -> int:
        """See `Base`."""
        return int(self.rows("INSERT INTO dispatcher (name, began_at, boot, until) VALUES (?, ?, ?, ?) RETURNING id", name, now(),
                             boot(), uptime() + int(seconds * SECOND))[0][0])

    def hold_lease(self, dispatcher: int, seconds: float | None) -> bool:
        """See `Base`."""
        if seconds is None:
            return self.first("SELECT 1 FROM dispatcher WHERE id = ?", dispatcher) is not None
        return self.change("UPDATE dispatcher SET until = ? WHERE id = ?", uptime() + int(seconds * SECOND), dispatcher) > 0

    def overdue(self) -> list[int]:
        """See `Base`."""
        return [it for it, in self.rows("SELECT id FROM dispatcher WHERE until < ? OR boot <> ?", uptime(), boot())]

    def leases(self) -> list[Lease]:
        """See `Base`."""
        return [Lease(number, name, (until - uptime()) / SECOND)
                for number, name, until in self.rows("SELECT id, name, until FROM dispatcher ORDER BY id")]

    def orphans(self, dispatcher: int) -> list[Orphan]:
        """See `Base`."""
        return [Orphan(*it) for it in self.rows("SELECT id, attempt, orphaned FROM job WHERE state = 'running' AND dispatcher = ?",
                                                dispatcher)]

    # Tables.

    def _migrate(self, make: bool) -> None:
        """Brings the tables up to date, or looks whether they are."""
        version = self._version()
        if version > len(STEPS):
            raise QueueError(f"{self.path}: its tables are of step {version}, and this program knows {len(STEPS)}: it is older "
                             "than whoever made them")
        if version == len(STEPS):
            return
        if not make:
            raise QueueError(f"{self.path}: its tables are of step {version}, and {len(STEPS)} is wanted: `arena queue init` "
                             "brings them up to date")
        with self.transaction():
            for number in range(self._version(), len(STEPS)):
                for statement in STEPS[number]:
                    self.change(statement)
                self.change(f"PRAGMA user_version = {number + 1}")

    def _version(self) -> int:
        version: int = self.rows("PRAGMA user_version")[0][0]
        return version

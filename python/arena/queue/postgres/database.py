"""The queue's connection to PostgreSQL."""
import contextlib
import time
from collections.abc import Iterator, Sequence
from typing import Any

import psycopg2

from arena.queue.base import Base, Lease, Orphan, Row
from arena.queue.model import Ending, QueueError
from arena.queue.postgres import statements
from arena.queue.postgres.schema import STEPS
from arena.queue.postgres.wake import Listener
from arena.queue.wake import Waker

CONNECTING: dict[str, Any] = {"application_name": "arena queue", "connect_timeout": 10, "keepalives_idle": 10, "keepalives_interval": 5,
              "keepalives_count": 3, "tcp_user_timeout": 30_000}

MOST_VALUES = 20
"""How many values a statement has whose plan is kept; one with more has a list of some length, which may not come again."""

PLANNED = ("SELECT", "INSERT", "UPDATE", "DELETE", "WITH")


class Postgres(Base):
    """A connection to the database at a URL. Raises QueueError for one that has no queue, and psycopg2.Error.

    `synchronous` is that of the commits which acknowledge something; `normal` and `off` are both PostgreSQL's `off`. Statements of
    which nothing has to be known travel with the next one: that saves journeys to the server. """

    faults = (psycopg2.Error,)

    def __init__(self, url: str, synchronous: str = "full", *, make: bool = False) -> None:
        self.where = url
        self._is_durable = synchronous == "full"
        self._later: list[str] = []
        self._planned: dict[str, str] = {}
        self._seen: dict[int, tuple[int, float]] = {}
        self._base = psycopg2.connect(url, **CONNECTING)
        try:
            self._base.autocommit = True
            self._at = self._base.cursor()
            self._migrate(make)
        except BaseException:
            self._base.close()
            raise

    def close(self) -> None:
        """See `Base`."""
        self._base.close()

    # Statements.

    @contextlib.contextmanager
    def transaction(self, *, durable: bool = True) -> Iterator[None]:
        """See `Base`."""
        self._later = ["BEGIN"] if durable and self._is_durable else ["BEGIN", "SET LOCAL synchronous_commit TO off"]
        try:
            yield
        except BaseException:
            has_begun, self._later = not self._later or self._later[0] != "BEGIN", []
            if has_begun:
                with contextlib.suppress(psycopg2.Error):
                    self._at.execute("ROLLBACK")
            raise
        self._run("COMMIT", ())

    def rows(self, sql: str, *values: object) -> list[Row]:
        """See `Base`."""
        self._run(sql, values)
        found: list[Row] = self._at.fetchall()
        return found

    def first(self, sql: str, *values: object) -> Row | None:
        """See `Base`."""
        self._run(sql, values)
        found: Row | None = self._at.fetchone()
        return found

    def change(self, sql: str, *values: object) -> int:
        """See `Base`."""
        self._run(sql, values)
        return int(self._at.rowcount)

    def _run(self, sql: str, values: Sequence[object]) -> None:
        sent = "; ".join((*self._later, self._call(sql)))
        self._later = []
        self._at.execute(sent, values or None)

    def _call(self, sql: str) -> str:
        """The statement by the name of its plan, which is made once: it takes longer than to carry one out."""
        if not sql.startswith(PLANNED) or sql.count("?") > MOST_VALUES:
            return sql.replace("?", "%s")
        if (call := self._planned.get(sql)) is None:
            name, parts = f"arena_{len(self._planned)}", sql.split("?")
            text = parts[0] + "".join(f"${at}{part}" for at, part in enumerate(parts[1:], 1))
            later, self._later = self._later, []
            self._at.execute("; ".join((*later, f"PREPARE {name} AS {text}")))
            call = self._planned[sql] = f"EXECUTE {name}" + (f"({', '.join(['%s'] * (len(parts) - 1))})" if parts[1:] else "")
        return call

    # News.

    def wake(self, topic: str) -> None:
        """See `Base`."""
        if (sql := f"NOTIFY arena_{topic}") not in self._later:
            self._later.append(sql)

    def waker(self, topic: str) -> Waker:
        """See `Base`."""
        return Listener(self.where, topic)

    # What is PostgreSQL's own.

    def numbers(self, count: int) -> list[int]:
        """See `Base`."""
        return [it for it, in self.rows(statements.NUMBERS, count)]

    def insert(self, rows: Sequence[Row]) -> set[int]:
        """See `Base`."""
        in_order = sorted(rows, key=lambda row: (row[1], row[2] or "", row[0]))  # so that two with the same keys don't wait for each other
        return {it for it, in self.rows(statements.INSERT, *map(list, zip(*in_order, strict=True)))}

    def settle(self, dispatcher: int, endings: Sequence[Ending]) -> list[int]:
        """See `Base`."""
        in_order = sorted(endings, key=lambda it: it.job)
        columns = zip(*((it.job, it.attempt, it.state.value, it.value, it.fault, it.error) for it in in_order), strict=True)
        done = {it for it, in self.rows(statements.SETTLE, *map(list, columns), dispatcher)}
        return [it.job for it in endings if it.job not in done]

    def promote(self) -> None:
        """See `Base`."""
        call = self._call(statements.PROMOTE)  # first: what is to travel with it may be sent by this
        self._later.append(call)

    def hurry(self, longest: int) -> None:
        """See `Base`."""
        self.change(statements.HURRY, longest)

    def claim(self, dispatcher: int, tenant: str, limit: int) -> list[Row]:
        """See `Base`."""
        return self.rows(statements.CLAIM, tenant, limit, dispatcher)

    def hold_job(self, job: int) -> None:
        """See `Base`."""
        self.rows("SELECT 1 FROM job WHERE id = ? FOR UPDATE", job)

    def hold_programs(self, *, all: bool = False) -> None:
        """See `Base`."""
        self._later.append(f"SELECT pg_advisory_xact_lock{'' if all else '_shared'}({statements.PROGRAMS})")

    def hold_hosts(self) -> None:
        """See `Base`."""
        self.rows("SELECT pg_advisory_xact_lock(?)", statements.HOSTS)

    def keep(self, rows: Sequence[Row]) -> None:
        """See `Base`."""
        self.change(statements.KEEP, *map(list, zip(*rows, strict=True)))

    def fold(self, minutes: int) -> None:
        """See `Base`."""
        if self.rows("SELECT pg_try_advisory_xact_lock(?)", statements.FOLDING)[0][0]:
            self.change(statements.FOLD_TALLY)
            self.change(statements.FOLD_FIGURES, minutes)

    # Leases. The server's clock may be set, so each dispatcher looks by its own for how long another one is silent.

    def register(self, name: str, seconds: float) -> int:
        """See `Base`."""
        return int(self.rows("INSERT INTO dispatcher (name, began_at, beaten_at, seconds) VALUES (?, arena_now(), arena_now(), ?) "
                             "RETURNING id", name, seconds)[0][0])

    def hold_lease(self, dispatcher: int, seconds: float | None) -> bool:
        """See `Base`."""
        if seconds is None:
            return self.first("SELECT 1 FROM dispatcher WHERE id = ? FOR SHARE", dispatcher) is not None
        return self.change("UPDATE dispatcher SET beat = beat + 1, beaten_at = arena_now(), seconds = ? WHERE id = ?", seconds,
                           dispatcher) > 0

    def overdue(self) -> list[int]:
        """See `Base`."""
        clock, seen = time.monotonic(), self._seen
        rows = self.rows("SELECT id, beat, seconds FROM dispatcher")
        self._seen = {it: seen[it] if it in seen and seen[it][0] == beat else (beat, clock) for it, beat, _ in rows}
        late = [it for it, beat, seconds in rows if clock - self._seen[it][1] > seconds]
        return [it for it in late if self.rows("SELECT 1 FROM dispatcher WHERE id = ? AND beat = ? FOR UPDATE SKIP LOCKED", it,
                                               self._seen[it][0])]

    def leases(self) -> list[Lease]:
        """See `Base`."""
        return [Lease(*it) for it in self.rows("SELECT id, name, seconds - (arena_now() - beaten_at) / 1e6 FROM dispatcher ORDER BY id")]

    def orphans(self, dispatcher: int) -> list[Orphan]:
        """See `Base`."""
        self.rows("SELECT 1 FROM dispatcher WHERE id = ? FOR UPDATE", dispatcher)
        return [Orphan(*it) for it in self.rows(statements.ORPHANS, dispatcher)]

    # Tables.

    def _migrate(self, make: bool) -> None:
        """Brings the tables up to date, or looks whether they are."""
        step = self._step()
        if step > len(STEPS):
            raise QueueError(f"the queue's tables are of step {step}, and this program knows {len(STEPS)}: it is older than whoever "
                             "made them")
        if step == len(STEPS):
            return
        if not make:
            raise QueueError("the database has no queue, or an older one; `arena queue init` makes one, or brings it up to date")
        with self.transaction():
            self.rows("SELECT pg_advisory_xact_lock(?)", statements.MIGRATING)
            self.change("CREATE TABLE IF NOT EXISTS migration (step integer PRIMARY KEY, at timestamptz NOT NULL DEFAULT now())")
            words = {"schema": self.rows("SELECT quote_ident(current_schema())")[0][0], "programs": statements.PROGRAMS}
            for number in range(self._step(), len(STEPS)):
                for statement in STEPS[number]:
                    self._at.execute(statement.format_map(words) if "{schema}" in statement else statement)
                self.change("INSERT INTO migration (step) VALUES (?)", number + 1)

    def _step(self) -> int:
        if self.rows("SELECT to_regclass('migration')")[0][0] is None:
            return 0
        return int(self.rows("SELECT coalesce(max(step), 0) FROM migration")[0][0])

"""The queue as those who submit see it: jobs are kept, waited for, listed, cancelled and removed."""
import hashlib
import secrets
import time
from collections import Counter
from collections.abc import Callable, Iterable, Mapping, Sequence
from dataclasses import dataclass
from typing import Any, Self

from arena.queue.base import Row, open_base
from arena.queue.figures import KEPT_MINUTES, Figures, Histogram, What
from arena.queue.model import (ENDED, SECOND, Event, Grant, Job, KeyTaken, NewJob, QueueError, State, Submitted, UnknownQueueJob)
from arena.queue.programs import Program

AT_ONCE = 500
"""How many numbers a statement has at most."""

LOOK = 1.0
"""How often, in seconds, who waits looks for himself."""

JOB = """SELECT j.id, j.tenant, j.key, p.hash, p.serial, j.x, j.y, j.fuel, j.priority, j.state, j.run_at, j.attempt, j.failures,
    j.value, j.fault, j.error, j.made_at, j.started_at, j.ended_at FROM job j JOIN program p ON p.id = j.program"""

REUSED = """SELECT id, value FROM job WHERE tenant = ? AND program = ? AND x = ? AND y = ? AND state = 'complete' AND reuse = 1
    AND fuel <= ? LIMIT 1"""
"""A value that a job with no more fuel has had. Each instruction of a serial job is executed under any schedule, so with as
much fuel or more it completes as well."""


def hash_of(token: str) -> str:
    """What is kept of a token."""
    return hashlib.sha256(token.encode()).hexdigest()


def job_of(row: Row) -> Job:
    """The job of a row of `JOB`."""
    number, tenant, key, program, serial, x, y, fuel, priority, state, *rest = row
    return Job(number, tenant, key, program, bool(serial), (x, y), fuel, priority, State(state), *rest)


def marks(values: Sequence[object]) -> str:
    """A question mark for each value."""
    return ",".join("?" * len(values))


def parts(values: Sequence[int]) -> Iterable[Sequence[int]]:
    """Some of the values at a time."""
    return (values[at:at + AT_ONCE] for at in range(0, len(values), AT_ONCE))


@dataclass(frozen=True, slots=True)
class Keeping:
    """How long ended jobs are kept, in seconds, and how many; None is for ever, and all."""

    seconds: int | None
    jobs: int | None


class Store:
    """The queue at a path or URL, for one thread. What its `base` raises, this raises too."""

    def __init__(self, where: str, synchronous: str = "full", *, make: bool = False) -> None:
        self.base = open_base(where, synchronous, make=make)

    def __enter__(self) -> Self:
        return self

    def __exit__(self, *_: object) -> None:
        self.close()

    def close(self) -> None:
        """Ends the connection."""
        self.base.close()

    # Submitting.

    def submit(self, jobs: Sequence[NewJob]) -> list[Submitted]:
        """Submits jobs in one transaction: once this returns, they are kept. Raises KeyTaken, and then submits none."""
        with self.base.transaction():
            self.base.hold_programs()
            programs = {hash: self._program(it) for hash, it in sorted({job.program.hash: job.program for job in jobs}.items())}
            numbers, made = self._insert(jobs, programs)
            submitted = [Submitted(number, True) if number in made else Submitted(self._same(job, programs), False)
                         for job, number in zip(jobs, numbers, strict=True)]
            if made:
                figures = Figures()
                for tenant, count in Counter(it.tenant for it, number in zip(jobs, numbers, strict=True) if number in made).items():
                    figures.add_many(tenant, What.MADE, count)
                self.keep(figures)
                self.base.wake("ready")
        return submitted

    def program_of_hash(self, tenant: str, hash: str) -> Program | None:
        """A program that a job of the tenant has, or that stays, by its hash."""
        row = self.base.first("""SELECT hash, procs, serial, source FROM program p WHERE hash = ? AND (kept = 1 OR EXISTS
            (SELECT 1 FROM job WHERE tenant = ? AND program = p.id))""", hash, tenant)
        return None if row is None else Program(row[0], row[1], bool(row[2]), row[3])

    def keep_program(self, program: Program) -> None:
        """Keeps a program, so that jobs can name it by its hash, also once none has it."""
        with self.base.transaction():
            self.base.hold_programs()
            self.base.change("UPDATE program SET kept = 1 WHERE id = ?", self._program(program))

    def _program(self, program: Program) -> int:
        """The number of a program, which is kept if it is new."""
        if found := self.base.first("SELECT id, source IS NULL FROM program WHERE hash = ?", program.hash):
            if found[1] and program.source is not None:
                self.base.change("UPDATE program SET source = ? WHERE id = ?", program.source, found[0])
            return int(found[0])
        return int(self.base.rows("""INSERT INTO program (hash, procs, serial, source, made_at) VALUES (?, ?, ?, ?, arena_now())
            ON CONFLICT (hash) DO UPDATE SET hash = excluded.hash RETURNING id""", program.hash, program.procs,
            int(program.is_serial), program.source)[0][0])

    def _insert(self, jobs: Sequence[NewJob], programs: Mapping[str, int]) -> tuple[list[int], set[int]]:
        """Inserts jobs, but none whose key is there; the number that each got or would have got, and those inserted."""
        reuses = {it for it, in self.base.rows("SELECT name FROM tenant WHERE reuse = 1")}
        numbers = self.base.numbers(len(jobs))
        at = int(self.base.rows("SELECT arena_now()")[0][0]) if any(job.delay for job in jobs) else 0
        rows = [self._row(number, job, programs[job.program.hash], job.program.is_serial and job.tenant in reuses, at)
                for number, job in zip(numbers, jobs, strict=True)]
        return numbers, self.base.insert(rows)

    def _row(self, number: int, job: NewJob, program: int, reuse: bool, at: int) -> Row:
        """A row for `Base.insert`; `at` is when a delay begins. A job whose value is known already, and wanted, is complete at once."""
        found = self.base.first(REUSED, job.tenant, program, *job.args, job.fuel) if reuse else None
        value, error = (None, None) if found is None else (found[1], f"the value of job {found[0]}")
        if found is not None:
            self.base.wake("ended")
        run_at = at + job.delay if job.delay else job.run_at
        return (number, job.tenant, job.key, program, *job.args, job.fuel, job.priority, run_at, job.most_failures, int(reuse),
                value, error)

    def _same(self, job: NewJob, programs: Mapping[str, int]) -> int:
        """The job that has the key already. Raises KeyTaken if it is another one."""
        (number, *there), = self.base.rows("SELECT id, program, x, y, fuel FROM job WHERE tenant = ? AND key = ?", job.tenant,
                                           job.key)
        if there != [programs[job.program.hash], *job.args, job.fuel]:
            raise KeyTaken(f"the key {job.key!r} of {job.tenant} is that of job {number}, which is another one")
        return int(number)

    # Jobs.

    def job(self, number: int, tenant: str | None = None) -> Job:
        """A job. Raises UnknownQueueJob."""
        return self.jobs([number], tenant)[0]

    def jobs(self, numbers: Sequence[int], tenant: str | None = None) -> list[Job]:
        """Jobs by their numbers. Raises UnknownQueueJob."""
        found: dict[int, Job] = {}
        for some in parts(numbers):
            rows = self.base.rows(f"{JOB} WHERE j.id IN ({marks(some)})", *some)
            found |= {row[0]: job_of(row) for row in rows}
        for number in numbers:
            if number not in found or tenant not in (None, found[number].tenant):
                raise UnknownQueueJob(f"no job has the number {number}" + (f" and is of {tenant}" if tenant else "")
                                      + "; ended ones are removed in time")
        return [found[it] for it in numbers]

    def of_key(self, tenant: str, key: str) -> Job:
        """A job by its key. Raises UnknownQueueJob."""
        row = self.base.first(f"{JOB} WHERE j.tenant = ? AND j.key = ?", tenant, key)
        if row is None:
            raise UnknownQueueJob(f"no job of {tenant} has the key {key!r}")
        return job_of(row)

    def listed(self, tenant: str | None = None, state: State | None = None, before: int | None = None,
               limit: int = 50) -> list[Job]:
        """Jobs, the newest first, with numbers below `before`."""
        texts, values = ["1 = 1"], list[object]()
        if tenant is not None:
            texts, values = [*texts, "j.tenant = ?"], [*values, tenant]
        if state is not None:
            texts.append(f"j.state = '{state.value}'")  # as a word, so that the indexes of some states are seen to serve
        if before is not None:
            texts, values = [*texts, "j.id < ?"], [*values, before]
        rows = self.base.rows(f"{JOB} WHERE {' AND '.join(texts)} ORDER BY j.id DESC LIMIT ?", *values, max(0, limit))
        return [job_of(it) for it in rows]

    def events(self, number: int) -> list[Event]:
        """What happened to a job out of the ordinary."""
        return [Event(*it) for it in self.base.rows("SELECT at, what, attempt, detail FROM event WHERE job = ? ORDER BY id",
                                                    number)]

    def wait(self, numbers: Sequence[int], seconds: float | None = None,
             told: Callable[[int], object] = lambda left: None) -> list[Job]:
        """Waits until all of some jobs have ended, or for some seconds; `told` is called with how many have not. Raises
        UnknownQueueJob."""
        deadline = None if seconds is None else time.monotonic() + seconds
        left = set(numbers)
        with self.base.waker("ended") as waker:
            while True:
                for some in parts(list(left)):
                    left -= {it for it, in self.base.rows(
                        f"SELECT id FROM job WHERE id IN ({marks(some)}) AND ended_at IS NOT NULL", *some)}
                told(len(left))
                rest = LOOK if deadline is None else min(LOOK, deadline - time.monotonic())
                if not left or rest <= 0:
                    return self.jobs(numbers)
                if rest == LOOK:
                    self.jobs(list(left))  # one that was removed is not waited for
                waker.wait(rest)

    def cancel(self, number: int, tenant: str | None = None) -> State:
        """Cancels a job. One that is not running is cancelled now. Of one that is, its host is told if that can still be, and
        it is not run again; its outcome says what came of it. Raises UnknownQueueJob."""
        with self.base.transaction():
            self.base.hold_job(number)
            job = self.job(number, tenant)
            if self.base.change("UPDATE job SET state = 'canceled', ended_at = arena_now(), cancel = 1 WHERE id = ? AND state "
                                "IN ('ready', 'scheduled')", number):
                self.note(number, "cancelled", job.attempts)
                self.base.wake("ended")
            elif self.base.change("UPDATE job SET cancel = 1 WHERE id = ? AND state = 'running'", number):
                self.note(number, "to be cancelled", job.attempts)
            return self.job(number).state

    def retry(self, number: int, tenant: str | None = None) -> State:
        """Runs a job again that has ended without a value. Raises UnknownQueueJob, QueueError."""
        with self.base.transaction():
            self.base.hold_job(number)
            job = self.job(number, tenant)
            if not self.base.change("""UPDATE job SET state = 'ready', run_at = arena_now(), failures = 0, alone = 0, orphaned = 0,
                    cancel = 0, fault = NULL, error = NULL, ended_at = NULL WHERE id = ? AND state IN ('fault', 'canceled', 'dead')""", number):
                raise QueueError(f"job {number} is {job.state.value}; only one that is fault, canceled or dead is run again")
            self.note(number, "to be run again", job.attempts, job.state.value)
            self.base.wake("ready")
            return State.READY

    def note(self, job: int, what: str, attempt: int = 0, detail: str | None = None) -> None:
        """Keeps what happened to a job."""
        self.base.change("INSERT INTO event (job, at, what, attempt, detail) VALUES (?, arena_now(), ?, ?, ?)", job, what,
                         attempt, detail)

    # Keeping.

    def keeping(self) -> Keeping:
        """How long ended jobs are kept, and how many."""
        found: dict[str, int | None] = {name: value for name, value in self.base.rows("SELECT name, value FROM setting")}
        return Keeping(found.get("keep_seconds"), found.get("keep_jobs"))

    def set_keeping(self, keeping: Keeping) -> None:
        """Says how long ended jobs are kept, and how many."""
        with self.base.transaction():
            for name, value in (("keep_seconds", keeping.seconds), ("keep_jobs", keeping.jobs)):
                self.base.change("INSERT INTO setting VALUES (?, ?) ON CONFLICT (name) DO UPDATE SET value = excluded.value",
                                 name, value)

    def set_reuse(self, tenant: str, reuse: bool) -> None:
        """Says whether a tenant's serial jobs may have the value of an earlier job of the same program and arguments, which is
        kept and was submitted while this was so."""
        with self.base.transaction():
            self.base.change("INSERT INTO tenant VALUES (?, ?) ON CONFLICT (name) DO UPDATE SET reuse = excluded.reuse", tenant,
                             int(reuse))

    def purge(self, seconds: float, states: Sequence[State] = ENDED, limit: int = 1000) -> int:
        """Removes up to `limit` jobs that ended so many seconds ago; how many."""
        return self._remove(f"""SELECT id FROM job WHERE ended_at <= arena_now() - ? AND state IN ({marks(states)})
            ORDER BY ended_at LIMIT ?""", int(seconds * SECOND), *(it.value for it in states), limit)

    def purge_by_settings(self, limit: int = 1000, by_age: bool = True) -> int:
        """Removes up to `limit` jobs that are kept no longer; how many. Without `by_age` none is removed for its age."""
        keeping, gone = self.keeping(), 0
        if keeping.seconds is not None and by_age:
            gone = self.purge(keeping.seconds, limit=limit)
        if keeping.jobs is not None and gone < limit:
            excess = sum(self.counts(state) for state in ENDED) - keeping.jobs
            if excess > 0:
                gone += self._remove("SELECT id FROM job WHERE ended_at IS NOT NULL ORDER BY ended_at LIMIT ?",
                                     min(excess, limit - gone))
        return gone

    def purge_programs(self) -> int:
        """Removes the programs that no job has; how many. It reads all jobs."""
        with self.base.transaction(durable=False):
            self.base.hold_programs(all=True)
            return self.base.change("DELETE FROM program WHERE kept = 0 AND id NOT IN (SELECT program FROM job)")

    def _remove(self, sql: str, *values: object) -> int:
        with self.base.transaction(durable=False):
            jobs = [it for it, in self.base.rows(sql, *values)]
            for some in parts(jobs):
                self.base.change(f"DELETE FROM event WHERE job IN ({marks(some)})", *some)
                self.base.change(f"DELETE FROM job WHERE id IN ({marks(some)})", *some)
        return len(jobs)

    # Tokens.

    def new_token(self, tenant: str, note: str = "", rate: float | None = None, bytes: int | None = None) -> str:
        """A token with which one may ask over HTTP for a tenant, so many times a second, with so many bytes at a time; only its
        hash is kept."""
        token = secrets.token_urlsafe(24)
        with self.base.transaction():
            self.base.change("INSERT INTO token (hash, tenant, note, made_at, rate, bytes) VALUES (?, ?, ?, arena_now(), ?, ?)",
                             hash_of(token), tenant, note, rate, bytes)
        return token

    def drop_tokens(self, tenant: str) -> int:
        """Makes all tokens of a tenant worthless; how many there were."""
        with self.base.transaction():
            return self.base.change("DELETE FROM token WHERE tenant = ?", tenant)

    def grant_of(self, token: str) -> Grant | None:
        """What a token allows; None if it is none."""
        row = self.base.first("SELECT tenant, rate, bytes FROM token WHERE hash = ?", hash_of(token))
        return None if row is None else Grant(*row)

    # Figures.

    def counts_of(self, tenant: str) -> dict[State, int]:
        """How many jobs of a tenant are in each state."""
        found = {state: int(jobs) for state, jobs in self.base.rows(
            "SELECT state, sum(jobs) FROM tally WHERE tenant = ? GROUP BY state", tenant)}
        return {it: found.get(it.value, 0) for it in State}

    def dispatchers(self) -> int:
        """How many dispatchers have a lease."""
        return int(self.base.rows("SELECT count(*) FROM dispatcher")[0][0])

    def keep(self, figures: Figures) -> None:
        """Keeps what a transaction has counted."""
        if rows := figures.rows():
            self.base.keep(rows)

    def figures(self, tenant: str, minutes: int | None = None) -> dict[What, Histogram]:
        """What was counted of a tenant since the queue was made, or in the minute under way and so many less one before."""
        recent = "" if minutes is None else f"AND minute BETWEEN arena_now() / 60000000 - {minutes - 1} AND arena_now() / 60000000"
        rows = self.base.rows(f"""SELECT what, bucket, sum(jobs), sum(micros) FROM figure WHERE tenant = ? {recent}
            GROUP BY what, bucket""", tenant)
        return {what: Histogram.of((bucket, int(jobs), int(micros)) for name, bucket, jobs, micros in rows if name == what.value)
                for what in What}

    def fold_figures(self) -> None:
        """Makes one sum of what was counted before the last minutes."""
        with self.base.transaction(durable=False):
            self.base.fold(KEPT_MINUTES)

    def entered(self, tenant: str) -> dict[State, int]:
        """How often jobs of a tenant have come into each state."""
        found = {state: int(jobs) for state, jobs in self.base.rows(
            "SELECT state, sum(jobs + passed) FROM tally WHERE tenant = ? GROUP BY state", tenant)}
        return {it: found.get(it.value, 0) for it in State}

    def age(self, tenant: str, state: State = State.READY) -> float | None:
        """For how many seconds the oldest job of a tenant is ready, or running; None if none is."""
        column = "started_at" if state is State.RUNNING else "run_at"
        age, = self.base.rows(f"SELECT arena_now() - min({column}) FROM job WHERE tenant = ? AND state = '{state.value}'", tenant)[0]
        return None if age is None else max(0, age) / SECOND

    def faults(self, tenant: str, limit: int) -> list[tuple[Job, str, str | None]]:
        """The latest jobs of a tenant that have a fault, with their programs and what these were compiled from."""
        rows = self.base.rows(f"{JOB.replace(' FROM', ', p.procs, p.source FROM')} WHERE j.tenant = ? AND j.state = 'fault' "
                              "ORDER BY j.id DESC LIMIT ?", tenant, limit)
        return [(job_of(row[:-2]), row[-2], row[-1]) for row in rows]

    def counts(self, state: State) -> int:
        """How many jobs are in a state, of all tenants."""
        return int(self.base.rows("SELECT coalesce(sum(jobs), 0) FROM tally WHERE state = ?", state.value)[0][0])

    def stats(self, tenant: str | None = None) -> dict[str, Any]:
        """Counts by tenant and state, how long the oldest ready job waits, how many jobs ended in the last minute, and the
        dispatchers that live. No job is counted one by one, but those of the last minute."""
        counts: dict[str, dict[str, int]] = {}
        for name, state, jobs in self.base.rows("""SELECT tenant, state, sum(jobs) FROM tally GROUP BY tenant, state
                HAVING sum(jobs) > 0 ORDER BY tenant, state"""):
            if tenant in (None, name):
                counts.setdefault(name, {})[state] = int(jobs)
        ages = [age for it in counts if (age := self.age(it)) is not None]
        minute, = self.base.rows("SELECT count(*) FROM job WHERE ended_at > arena_now() - ?", 60 * SECOND)[0]
        hosts = self.base.rows("SELECT dispatcher, name FROM host ORDER BY name")
        return {"tenants": counts, "oldest_ready_seconds": max(ages, default=None), "ended_last_minute": minute,
                "dispatchers": [{"dispatcher": it.dispatcher, "name": it.name, "lease_seconds": it.seconds,
                                 "hosts": [host for its, host in hosts if its == it.dispatcher]} for it in self.base.leases()]}

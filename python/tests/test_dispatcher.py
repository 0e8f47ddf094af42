"""The dispatcher: each job of a queue has its outcome, whatever becomes of hosts, dispatchers and the queue's file."""
import contextlib
import io
import logging
import os
import re
import sqlite3
import tempfile
import threading
import time
import unittest
from collections.abc import Sequence
from unittest import mock

from arena.pool.task import Settings as HostSettings
from arena.queue import Job, NewJob, Program, State, Store
from arena.queue.sqlite import statements
from arena.queue.sqlite.database import Sqlite
from arena.queue.dispatcher import Dispatcher, Settings
from arena.queue.turns import Turns
from tests.standin import StandIn

SQUARE = Program.of([[["mul", 2, 0, 0], ["ret", 2]]])
DIVIDES = Program.of([[["div", 2, 0, 1], ["ret", 2]]])
CELL = Program.of([[["store", 0, 0], ["load", 2, 0], ["ret", 2]]])
SPAWNS = Program.of([[*[["spawn", 0, 1, 0, 0]] * 3, ["wait", 2, 3, 0], ["ret", 2]], [["ret", 0]]])
SPAWNS_BESIDE_CELLS = Program.of([[["store", 0, 0], *[["spawn", 0, 1, 0, 0]] * 3, ["wait", 2, 3, 0], ["ret", 2]], [["ret", 0]]])
SOON = 60.0


class WithDispatcher(unittest.TestCase):
    """Each test has a queue and a host."""

    def where(self) -> str:
        """Where the queue is to be."""
        return os.path.join(self.folder, "queue.sqlite")

    def setUp(self) -> None:
        logging.disable()
        self.addCleanup(logging.disable, logging.NOTSET)
        self.folder = self.enterContext(tempfile.TemporaryDirectory())
        self.path = self.where()
        self.queue = self.enterContext(Store(self.path, "off", make=True))
        self.host = self.enterContext(StandIn(("acme", "beta")))

    def run_dispatcher(self, hosts: Sequence[str] = (), lease: float = SOON, **more: float) -> Dispatcher:
        """A dispatcher in a thread, until the test has ended."""
        dispatcher = Dispatcher(self.path, hosts or [self.host.path],
                                Settings(HostSettings(retire=True), lease=lease, look=0.05, **more), synchronous="off")
        thread = threading.Thread(target=dispatcher.run, daemon=True)
        thread.start()

        def end() -> None:
            """Ends it in order."""
            dispatcher.stop()
            thread.join(SOON)
            self.assertFalse(thread.is_alive(), "the dispatcher goes on")
        self.addCleanup(end)
        return dispatcher

    def submit(self, *numbers: int, program: Program = SQUARE, tenant: str = "acme", **more: object) -> list[int]:
        """The numbers of submitted jobs that square these."""
        return [it.job for it in self.queue.submit([NewJob(tenant, program, (n, 0), 100, **more)  # type: ignore[arg-type]
                                                    for n in numbers])]

    def ended(self, jobs: Sequence[int]) -> list[Job]:
        """The jobs once all of them have ended."""
        found = self.queue.wait(jobs, SOON)
        self.assertEqual([it.job for it in found if not it.state.has_ended], [])
        return found

    def values(self, jobs: Sequence[int]) -> list[int | None]:
        """Their values."""
        return [it.value for it in self.ended(jobs)]


class Runs(WithDispatcher):
    """Jobs that are run."""

    def test_jobs_of_two_tenants(self) -> None:
        mine, theirs = self.submit(*range(300)), self.submit(*range(50), tenant="beta")
        self.run_dispatcher()
        self.assertEqual(self.values(mine), [n * n for n in range(300)])
        self.assertEqual(self.values(theirs), [n * n for n in range(50)])
        self.assertEqual((self.host.met["submit"], self.host.tenants["acme"].jobs), (350, {}))

    def test_the_page(self) -> None:
        with open(os.path.join(os.path.dirname(__file__), "..", "..", "docs", "QUEUE.md")) as it:
            code, wanted = re.findall(r"```python\n(.*?)```\n+```text\n(.*?)```", it.read(), re.S)[0]
        self.run_dispatcher()
        out = io.StringIO()
        with contextlib.redirect_stdout(out):
            exec(code.replace("/var/lib/arena/queue.sqlite", self.path), {})
        self.assertEqual(out.getvalue(), wanted)

    def test_what_is_submitted_later(self) -> None:
        self.run_dispatcher()
        for n in range(5):
            self.assertEqual(self.values(self.submit(n)), [n * n])

    def test_faults_and_what_no_host_takes(self) -> None:
        self.run_dispatcher()
        job, = self.ended(self.submit(1, program=DIVIDES))
        self.assertEqual((job.state, job.fault, job.attempts), (State.FAULT, 1, 1))
        self.host.refusals = [4]
        job, = self.ended(self.submit(1))
        self.assertEqual((job.state, job.attempts), (State.DEAD, 1))

    def test_a_tenant_that_no_host_knows(self) -> None:
        self.run_dispatcher()
        job, = self.submit(1, tenant="nobody")
        self.assertEqual(self.values(self.submit(2)), [4])
        while self.queue.job(job).error is None:
            time.sleep(0.01)
        self.assertEqual((self.queue.job(job).error, self.queue.job(job).failures), ("its host does not know the tenant", 0))

    def test_what_is_kept_no_longer_is_removed(self) -> None:
        self.queue.base.change("UPDATE setting SET value = 0 WHERE name = 'keep_seconds'")
        self.run_dispatcher(purge=0.05)
        self.ended_or_gone(self.submit(1, 2, 3))

    def test_a_clock_that_is_set_ahead_removes_nothing(self) -> None:
        jobs, real = self.submit(1, 2), time.time_ns
        self.run_dispatcher(purge=0.05)
        self.assertEqual(self.values(jobs), [1, 4])
        with mock.patch.object(time, "time_ns", lambda: real() + 10**9 * 86_400 * 30):
            self.assertEqual(self.values(self.submit(3)), [9])
            time.sleep(0.3)
        self.assertEqual(len(self.queue.listed()), 3)

    def test_a_clock_that_is_set_back_holds_up_nothing(self) -> None:
        self.host.cuts = 2
        real, before = time.time_ns, self.submit(1, 2, 3)
        with mock.patch.object(time, "time_ns", lambda: real() + 10**9 * 86_400):
            self.run_dispatcher(lease=0.3)
            while not sum(it.failures for it in self.queue.listed()):
                time.sleep(0.001)
        self.assertEqual(self.values(before), [1, 4, 9])

    def ended_or_gone(self, jobs: list[int]) -> None:
        """Waits until the queue has none of the jobs."""
        deadline = time.monotonic() + SOON
        while self.queue.listed():
            self.assertLess(time.monotonic(), deadline)
            time.sleep(0.01)


class Again(WithDispatcher):
    """Jobs that are run again."""

    def test_what_had_no_room(self) -> None:
        self.host.refusals = [7, 8, 9, 10, 7]
        self.run_dispatcher()
        jobs = self.ended(self.submit(*range(20)))
        self.assertEqual(([it.value for it in jobs], sum(it.failures for it in jobs)), ([n * n for n in range(20)], 0))

    def test_lost_connections(self) -> None:
        self.host.cuts = 2
        self.run_dispatcher()
        self.assertEqual(self.values(self.submit(*range(40))), [n * n for n in range(40)])
        self.assertGreater(sum(it.failures for it in self.queue.listed()), 0)

    def test_without_a_host_it_rests(self) -> None:
        """While no host is there, jobs that wait cost next to no time of the processor."""
        self.submit(1)
        self.run_dispatcher([os.path.join(self.folder, "nobody")])
        time.sleep(0.5)
        began = time.process_time()
        time.sleep(1)
        self.assertLess(time.process_time() - began, 0.5)

    def test_a_host_that_is_started_later(self) -> None:
        self.host.kill()
        self.run_dispatcher()
        jobs = self.submit(1, 2)
        self.assertEqual({it.state for it in self.queue.wait(jobs, 0.2)}, {State.READY}, "nothing is claimed for it")
        self.host.start()
        self.assertEqual(self.values(jobs), [1, 4])

    def test_faults_by_load_are_tried_alone(self) -> None:
        self.host.is_crowded = True
        self.run_dispatcher()
        jobs = self.ended(self.submit(*range(12)))
        self.assertEqual([it.value for it in jobs], [n * n for n in range(12)])
        self.assertGreater(sum(it.attempts for it in jobs), 12)
        job, = self.ended(self.submit(3, program=CELL))
        self.assertEqual(job.value, 3, "alone it has no fault")

    def test_alone_is_without_what_lost_connections_left(self) -> None:
        self.host.leave("acme", 1)
        self.host.is_crowded = True
        self.run_dispatcher()
        job, = self.ended(self.submit(3))
        self.assertEqual((job.value, job.attempts, self.host.met["retire"]), (9, 2, 1))

    def test_faults_that_stay_are_final(self) -> None:
        self.host.rows = 2
        self.run_dispatcher()
        job, other = self.ended([*self.submit(3, program=SPAWNS), *self.submit(4, program=SPAWNS_BESIDE_CELLS)])
        self.assertEqual((job.state, job.fault, job.attempts), (State.FAULT, 4, 3))
        self.assertEqual((other.fault, other.attempts), (4, 1), "not serial: at once")

    def test_a_job_that_kills_its_host(self) -> None:
        self.host.poison, self.host.cuts = 9, 100
        self.run_dispatcher()
        jobs = self.submit(*(n for n in range(12) if n != 9))
        killer, = self.submit(9, most_failures=6)
        self.assertEqual(self.values(jobs), [n * n for n in range(12) if n != 9])
        self.assertEqual(self.ended([killer])[0].state, State.DEAD)
        self.assertEqual(self.host.beside[3:], [0, 0, 0], "from the fourth time on it is alone")

    def test_what_lost_connections_left_is_retired(self) -> None:
        self.host.leave("acme", 256)
        self.run_dispatcher()
        self.assertEqual(self.values(self.submit(1, 2)), [1, 4])
        self.assertEqual(self.host.met["retire"], 1)


class Dispatchers(WithDispatcher):
    """Dispatchers that come and go."""

    def test_one_that_died_is_followed(self) -> None:
        jobs = self.submit(*range(10))
        with Turns(self.path, "off") as dead:
            number = dead.register("dead", 0.2)
            dispatcher = Dispatcher(self.path, [self.host.path])
            dead.take_hosts(number, [dispatcher._posts[0].name])
            from arena.queue.model import Wants
            dead.turn(number, wants=Wants({}, 4, 1))
        self.run_dispatcher(lease=0.3)
        self.assertEqual(self.values(jobs), [n * n for n in range(10)])
        self.assertEqual(sorted(it.attempts for it in self.queue.listed()), [1] * 6 + [2] * 4)

    def test_one_that_lost_its_lease_begins_anew(self) -> None:
        self.host.go.clear()
        self.run_dispatcher(lease=0.3)
        jobs = self.submit(*range(5))
        while self.host.met["collect"] < 1:
            time.sleep(0.001)
        with Turns(self.path, "off") as other:
            (number,), = other.base.rows("SELECT id FROM dispatcher")
            me, deadline = other.register("other", SOON), time.monotonic() + SOON
            # It may be renewed before it is taken away.
            while other.base.rows("SELECT 1 FROM dispatcher WHERE id = ?", number):
                self.assertLess(time.monotonic(), deadline)
                with other.base.transaction():
                    other.base.change("UPDATE dispatcher SET until = 0 WHERE id = ?", number)
                other.turn(me, lease=SOON)
        self.host.go.set()
        self.assertEqual(self.values(jobs), [n * n for n in range(5)])
        self.assertEqual({it.attempts for it in self.queue.listed()}, {2})

    def test_a_stop_ends_what_is_under_way(self) -> None:
        self.host.go.clear()
        dispatcher = self.run_dispatcher()
        jobs = self.submit(*range(5))
        while self.host.met["collect"] < 1:
            time.sleep(0.001)
        dispatcher.stop()
        self.host.go.set()
        self.assertEqual(self.values(jobs), [n * n for n in range(5)])

    def test_a_stop_has_a_limit(self) -> None:
        self.host.go.clear()
        dispatcher = self.run_dispatcher(patience=0.1)
        jobs = self.submit(7)
        while self.host.met["collect"] < 1:
            time.sleep(0.001)
        dispatcher.stop()
        while self.queue.job(jobs[0]).state is State.RUNNING:
            time.sleep(0.001)
        self.assertEqual(self.queue.job(jobs[0]).state, State.SCHEDULED)
        self.host.go.set()

    def test_a_program_that_can_not_be_read_for_a_while(self) -> None:
        faults, real = [sqlite3.OperationalError("disk I/O error")], Turns.program

        def program(queue: Turns, number: int) -> tuple[str, bool]:
            """Fails once, at the second program of a turn, when its jobs are claimed."""
            if number == 2 and faults:
                raise faults.pop()
            return real(queue, number)
        jobs = [*self.submit(1, 2), *self.submit(3, program=CELL), *self.submit(4)]
        with mock.patch.object(Turns, "program", program):
            self.run_dispatcher()
            self.assertEqual(self.values(jobs), [1, 4, 3, 16])
        self.assertEqual((faults, {it.attempts for it in self.queue.listed()}), ([], {2}))

    def test_a_file_that_can_not_be_written_for_a_while(self) -> None:
        faults, real = [sqlite3.OperationalError("database or disk is full")] * 3, Sqlite.rows

        def rows(base: Sqlite, sql: str, *values: object) -> list[tuple[object, ...]]:
            """Fails at first where outcomes are recorded."""
            if sql == statements.SETTLE and faults:
                raise faults.pop()
            return real(base, sql, *values)
        with mock.patch.object(Sqlite, "rows", rows):
            self.run_dispatcher()
            self.assertEqual(self.values(self.submit(*range(20))), [n * n for n in range(20)])
        self.assertEqual((faults, {it.attempts for it in self.queue.listed()}), ([], {1}))


if __name__ == "__main__":
    unittest.main()

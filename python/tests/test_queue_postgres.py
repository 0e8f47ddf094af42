"""The queue's promises in PostgreSQL: the tests of the file's queue, and what is PostgreSQL's own."""
import importlib.util
import os
import threading
import time
import unittest
from contextlib import ExitStack

from arena.queue import KeyTaken, NewJob, State
from arena.queue.model import Ending, GiveBack, LeaseLost, Wants
from arena.queue.turns import Turns
from tests import postgres_server, test_dispatcher, test_queue, test_queue_ends, with_queue
from tests.with_queue import ANY, ONE, SOON, TWO

SERVER: postgres_server.Server
NUMBERS = iter(range(1, 10_000))
OPENED = ExitStack()


def setUpModule() -> None:
    """Starts a server for all tests."""
    global SERVER
    if importlib.util.find_spec("psycopg2") is None or postgres_server.programs() is None:
        raise unittest.SkipTest("psycopg2 or PostgreSQL is not installed")
    SERVER = OPENED.enter_context(postgres_server.served())


def tearDownModule() -> None:
    """Ends it."""
    OPENED.close()


def url() -> str:
    """A place without a queue."""
    import psycopg2
    name = f"test{next(NUMBERS)}"
    base = psycopg2.connect(SERVER.url)
    base.autocommit = True
    base.cursor().execute(f"CREATE SCHEMA {name}")
    base.close()
    return f"{SERVER.url}&options=-csearch_path%3D{name}"


class OnPostgres(with_queue.WithQueue):
    """Each test has a queue in a schema of its own."""

    def where(self) -> str:
        return url()


class Submitting(OnPostgres, test_queue.Submitting):
    """What is submitted."""

    test_files_that_are_no_queue = test_tables_of_an_earlier_step = None  # type: ignore[assignment]

    def test_a_database_without_a_queue(self) -> None:
        from arena.queue import QueueError
        with self.assertRaises(QueueError):
            Turns(url())
        self.queue.base.change("INSERT INTO migration (step) VALUES (99)")
        with self.assertRaises(QueueError) as fault:
            Turns(self.path)
        self.assertIn("older", str(fault.exception))


class Claiming(OnPostgres, test_queue.Claiming):
    """What is run when."""

    def test_no_job_is_claimed_twice(self) -> None:
        jobs = self.submit(*(NewJob("acme", ONE, (n, 0)) for n in range(600)))
        claimed: list[int] = []

        def claim(name: str) -> None:
            """Claims jobs by a connection of its own until there are none."""
            with Turns(self.path) as queue:
                me = queue.register(name, SOON)
                while claims := queue.turn(me, wants=Wants({}, 7, 1)).claims.get("acme"):
                    claimed.extend(it.job for it in claims)
        threads = [threading.Thread(target=claim, args=(name,)) for name in "abcd"]
        for it in threads:
            it.start()
        for it in threads:
            it.join()
        self.assertEqual(sorted(claimed), jobs)


class Ends(OnPostgres, test_queue_ends.Ends):
    """Outcomes, and attempts without one."""

    test_a_lease_of_another_start_of_the_machine = test_what_is_not_committed_is_undone = None  # type: ignore[assignment]

    def test_a_lease_is_not_taken_from_one_that_is_heard_of(self) -> None:
        job, = self.submit(NewJob("acme", ONE))
        slow, other = self.queue.register("slow", 0.3), self.queue.register("other", SOON)
        self.claim(slow)
        with Turns(self.path) as looks:
            for _ in range(8):
                time.sleep(0.1)
                self.queue.turn(slow, lease=0.3)
                self.queue.base.change("UPDATE dispatcher SET beaten_at = 0")  # whatever the server's clock says
                looks.turn(other, lease=SOON)
            self.assertEqual(self.state(job), State.RUNNING)
            for _ in range(2):
                looks.turn(other, lease=SOON)
                time.sleep(0.4)
            looks.turn(other, lease=SOON)
        self.assertEqual(self.state(job), State.SCHEDULED)
        with self.assertRaises(LeaseLost):
            self.end(slow, Ending(job, 1, State.COMPLETE, 1))

    def test_a_cancel_waits_for_who_changes_the_job(self) -> None:
        job, = self.submit(NewJob("acme", ONE))
        me = self.queue.register("me", SOON)
        self.claim(me)
        with Turns(self.path) as other:
            with other.base.transaction():
                other.base.hold_job(job)
                canceled = threading.Thread(target=lambda: self.queue.cancel(job))
                canceled.start()
                time.sleep(0.1)
                other.base.change("UPDATE job SET state = 'scheduled', dispatcher = NULL WHERE id = ?", job)
            canceled.join()
            self.assertEqual(other.job(job).state, State.CANCELED)


class Keeps(OnPostgres, test_queue_ends.Keeps):
    """What is kept, reused and counted."""

    test_queries_use_their_indexes = None  # type: ignore[assignment]


class Waking(OnPostgres):
    """Those who wait learn at once what was committed."""

    def test_wakers(self) -> None:
        with self.queue.base.waker("ready") as ready, self.queue.base.waker("ended") as ended, Turns(self.path) as other:
            with other.base.transaction():
                other.base.wake("ready")
            began = time.monotonic()
            ready.wait(SOON)
            self.assertLess(time.monotonic() - began, SOON / 2)
            began = time.monotonic()
            ended.wait(0.05)
            self.assertGreater(time.monotonic() - began, 0.04, "another topic")


class InSql(OnPostgres):
    """`arena_submit`, in a transaction of whoever calls it."""

    def test_a_job_is_made_with_what_it_is_for(self) -> None:
        import psycopg2
        self.submit(NewJob("acme", TWO))
        base = psycopg2.connect(self.path)
        at = base.cursor()
        at.execute("CREATE TABLE orders (id integer, job bigint)")
        base.commit()
        for ends in (base.rollback, base.commit):
            at.execute("INSERT INTO orders SELECT 17, arena_submit('acme', %s, 3, 4, 100, its_key => 'order-17')", (TWO.hash,))
            ends()
        at.execute("SELECT id, job FROM orders")
        (order, job), = at.fetchall()
        found = self.queue.job(job)
        self.assertEqual((order, found.key, found.args, found.fuel, found.state), (17, "order-17", (3, 4), 100, State.READY))
        self.assertEqual(self.queue.submit([NewJob("acme", TWO, (3, 4), 100, "order-17")]), [(job, False)])
        at.execute("SELECT arena_submit('acme', %s, 3, 4, 100, its_key => 'order-17')", (TWO.hash,))
        self.assertEqual(at.fetchall(), [(job,)], "the same job again")
        base.commit()
        for call in ("'acme', %s, 3, 5, 100, 'order-17'", "'acme', %s || 'x'", "'', %s", "'acme', %s, its_fuel => 0",
                     "'acme', %s, its_key => ''", "'acme', %s, its_priority => 1001"):
            with self.assertRaises(psycopg2.IntegrityError):
                at.execute(f"SELECT arena_submit({call})", (TWO.hash,))
            base.rollback()
        at.execute("SELECT arena_submit('acme', %s, not_before => now() + interval '1 hour')", (TWO.hash,))
        base.commit()
        self.assertEqual(self.queue.counts(State.SCHEDULED), 1)
        base.close()

    def test_who_may_only_submit(self) -> None:
        import psycopg2
        self.submit(NewJob("acme", ONE))
        schema = self.path.rpartition("%3D")[2]
        for sql in ("DROP ROLE IF EXISTS shop", "CREATE ROLE shop LOGIN"):
            self.queue.base.change(sql)
        base = psycopg2.connect(self.path.replace("arena@", "shop@"))
        at = base.cursor()

        def submit() -> None:
            """Submits as that role."""
            at.execute("SELECT arena_submit('acme', %s)", (ONE.hash,))
        self.queue.base.change(f"GRANT USAGE ON SCHEMA {schema} TO shop")
        for what in (submit, lambda: at.execute("SELECT * FROM job")):
            with self.assertRaises(psycopg2.errors.InsufficientPrivilege):
                what()
            base.rollback()
        self.queue.base.change("GRANT EXECUTE ON FUNCTION arena_submit TO shop")
        submit()
        base.commit()
        base.close()
        self.assertEqual(self.queue.counts(State.READY), 2)
        self.queue.base.change("DROP OWNED BY shop")
        self.queue.base.change("DROP ROLE shop")

    def test_a_key_at_the_same_time(self) -> None:
        found: list[object] = []

        def submit(x: int) -> None:
            """Submits a job of one key by a connection of its own."""
            with Turns(self.path) as queue:
                try:
                    found.extend(queue.submit([NewJob("acme", ONE, (n, 0), key=f"k{n}") for n in range(20)][::x or -1]
                                              + [NewJob("acme", ONE, (x, 0), key="one")]))
                except KeyTaken:
                    found.append(None)
        threads = [threading.Thread(target=submit, args=(n % 2,)) for n in range(8)]
        for it in threads:
            it.start()
        for it in threads:
            it.join()
        self.assertEqual((len(self.queue.listed(limit=100)), found.count(None)), (21, 4))


class Dispatchers(test_dispatcher.WithDispatcher):
    """A dispatcher on a queue in PostgreSQL, whose server is killed."""

    def where(self) -> str:
        return url()

    def test_jobs_of_two_tenants(self) -> None:
        mine, theirs = self.submit(*range(100)), self.submit(*range(50), tenant="beta")
        self.run_dispatcher()
        self.assertEqual(self.values(mine), [n * n for n in range(100)])
        self.assertEqual(self.values(theirs), [n * n for n in range(50)])

    def test_a_server_that_is_killed(self) -> None:
        self.run_dispatcher()
        with Turns(self.path) as queue:  # which flushes what it acknowledges
            jobs = [it.job for it in queue.submit([NewJob("acme", test_dispatcher.SQUARE, (n, 0), 100) for n in range(50)])]
        SERVER.kill()
        SERVER.start()
        with Turns(self.path) as queue:
            found = queue.wait(jobs, SOON)
            self.assertEqual([it.value for it in found], [n * n for n in range(50)])

    def test_a_claim_that_was_not_heard_of(self) -> None:
        dispatcher = self.run_dispatcher()
        self.assertEqual(self.values(self.submit(2)), [4])
        job, = self.submit(3, run_at=1)
        with Turns(self.path) as other:
            lost = other.turn(dispatcher._number, wants=ANY)
            for claims in lost.claims.values():
                other.turn(dispatcher._number, backs=[GiveBack(it.job, it.attempt, "again", False) for it in claims])
        self.assertEqual(self.values([job]), [9])


if __name__ == "__main__":
    os.environ.setdefault("LC_ALL", "C.UTF-8")
    unittest.main()

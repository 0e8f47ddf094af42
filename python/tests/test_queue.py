"""The queue's promises, by its file alone: keys, order, what is submitted and claimed, and how processes are woken."""
import os
import sqlite3
import time
import unittest

from arena.queue import KeyTaken, NewJob, NoProgram, Parts, QueueError, State, UnknownQueueJob
from arena.queue.base import shown
from arena.queue.figures import What
from arena.queue.model import SECOND, Ending, Wants, now
from arena.queue.sqlite.database import Sqlite
from arena.queue.sqlite.schema import STEPS
from arena.queue.turns import Turns
from tests.with_queue import ANY, ONE, SOON, TWO, WithQueue


class Submitting(WithQueue):
    """What is submitted."""

    def test_keys(self) -> None:
        first, = self.submit(NewJob("acme", ONE, (1, 0), key="k"))
        self.assertEqual(self.queue.submit([NewJob("acme", ONE, (1, 0), key="k")]), [(first, False)])
        again, other, same = self.queue.submit([NewJob("acme", ONE, (1, 0), key="k"), NewJob("beta", TWO, key="k"),
                                                NewJob("beta", TWO, key="k")])
        self.assertEqual((again, other.made, same), ((first, False), True, (other.job, False)))
        self.assertEqual(self.queue.of_key("beta", "k").job, other.job)
        with self.assertRaises(UnknownQueueJob):
            self.queue.of_key("gamma", "k")

    def test_a_refused_batch_leaves_nothing(self) -> None:
        self.submit(NewJob("acme", ONE, (1, 0), key="k"))
        for other in (NewJob("acme", ONE, (2, 0), key="k"), NewJob("acme", TWO, (1, 0), key="k"),
                      NewJob("acme", ONE, (1, 0), fuel=7, key="k")):
            with self.assertRaises(KeyTaken):
                self.submit(NewJob("acme", ONE), other)
        self.assertEqual(len(self.queue.listed()), 1)

    def test_what_is_out_of_range(self) -> None:
        for more in ({"tenant": ""}, {"key": ""}, {"key": "k" * 201}, {"priority": 1001}, {"most_failures": 0}):
            with self.assertRaises(QueueError):
                NewJob(**{"tenant": "acme", "program": ONE, **more})  # type: ignore[arg-type]
        for job in ({"args": [0, 0], "fuel": 0, "procs": [[["ret", 0]]]}, {"args": [0], "fuel": 1, "procs": [[["ret", 0]]]},
                    {"args": [0, 2**63], "fuel": 1, "procs": [[["ret", 0]]]}, {"args": [0, 0], "fuel": 1, "procs": []},
                    {"args": [0, 0], "fuel": 1, "procs": [[["spawn", 3, 15, 7, 7]] * 255 + [["ret", 0]]] * 16}):
            with self.assertRaises(NoProgram):
                Parts.of(job)

    def test_programs_are_kept_once(self) -> None:
        self.submit(*(NewJob("acme", ONE, (n, 0)) for n in range(10)), NewJob("acme", TWO))
        self.assertEqual(self.queue.base.rows("SELECT count(*) FROM program"), [(2,)])
        self.assertEqual(self.queue.purge_programs(), 0)
        self.queue.base.change("DELETE FROM job WHERE program = (SELECT max(id) FROM program)")
        self.assertEqual(self.queue.purge_programs(), 1)

    def test_tables_of_an_earlier_step(self) -> None:
        path = os.path.join(self.folder, "old.sqlite")
        base = sqlite3.connect(path)
        for statement in (it for step in STEPS[:2] for it in step):
            base.execute(statement)
        base.executescript("""PRAGMA user_version = 2;
            INSERT INTO program VALUES (1, 'h', '[[["ret",0]]]', 1, 0);
            INSERT INTO job (tenant, program, x, y, fuel, priority, state, run_at, most_failures, made_at)
                VALUES ('acme', 1, 7, 0, 9, 0, 'ready', 0, 20, 0);
            INSERT INTO token VALUES ('h', 'acme', '', 0)""")
        base.close()
        with self.assertRaises(QueueError):
            Turns(path)
        with Turns(path, make=True) as queue:
            me = queue.register("me", SOON)
            claim, = queue.turn(me, wants=ANY).claims["acme"]
            queue.turn(me, [Ending(claim.job, claim.attempt, State.COMPLETE, 7)])
            self.assertEqual((queue.counts(State.COMPLETE), queue.entered("acme")[State.READY]), (1, 1))

    def test_no_password_is_shown(self) -> None:
        for where, wanted in (("/a/b:c@d.sqlite", "/a/b:c@d.sqlite"), ("postgresql://a@h/q", "postgresql://a@h/q"),
                              ("postgresql://a:b%40@h:5/q", "postgresql://a:..@h:5/q"), ("postgres://:b@h/q", "postgres://:..@h/q"),
                              ("postgres://h/q?user=a&password=b&x=y", "postgres://h/q?user=a&password=..&x=y"),
                              ("postgresql://a:b@c@h/q", "postgresql://a:..@h/q")):
            self.assertEqual(shown(where), wanted)

    def test_files_that_are_no_queue(self) -> None:
        with self.assertRaises(QueueError):
            Turns(os.path.join(self.folder, "none"))
        with open(os.path.join(self.folder, "text"), "w") as it:
            it.write("this is a text, and no file of SQLite. " * 100)
        with self.assertRaises(QueueError):
            Turns(it.name)
        self.queue.base.change("PRAGMA user_version = 99")
        with self.assertRaises(QueueError) as fault:
            Turns(self.path)
        self.assertIn("older", str(fault.exception))


class Claiming(WithQueue):
    """What is run when."""

    def test_order(self) -> None:
        me, delay = self.queue.register("me", SOON), SECOND // 3
        while not self.is_in_order(me, delay):
            delay *= 4
            self.assertLess(delay, 100 * SECOND)

    def is_in_order(self, me: int, delay: int) -> bool:
        """Jobs are claimed by their priority, and one that is to be run later is, once that is so. Returns whether it
        still was to be when the others had been claimed: on a busy machine the delay may be over by then."""
        run_at = now() + delay
        low, high, later = self.submit(NewJob("acme", ONE), NewJob("acme", ONE, priority=5),
                                       NewJob("acme", ONE, run_at=run_at))
        first, turn = [it.job for it in self.claim(me)], self.queue.turn(me, wants=ANY)
        if now() >= run_at:
            self.claim(me)
            return False
        self.assertEqual((first, turn.claims), ([high, low], {}))
        assert turn.next_in is not None
        time.sleep(max(0, turn.next_in) / SECOND)
        self.assertEqual([it.job for it in self.claim(me)], [later])
        return True

    def test_each_tenant_has_its_share(self) -> None:
        self.submit(*(NewJob(name, ONE) for name in ("acme", "beta", "gamma") for _ in range(20)))
        turn = self.queue.turn(self.queue.register("me", SOON), wants=Wants({"beta": 3, "gamma": 0}, 7, 1))
        self.assertEqual({name: len(it) for name, it in turn.claims.items()}, {"acme": 7, "beta": 3})
        self.assertTrue(turn.has_more)

    def test_one_dispatcher_for_a_host(self) -> None:
        one, two = self.queue.register("one", SOON), self.queue.register("two", SOON)
        self.assertEqual(self.queue.take_hosts(one, ["a", "b"]), {"a", "b"})
        self.assertEqual(self.queue.take_hosts(two, ["b", "c"]), {"c"})
        self.queue.leave(one)
        self.assertEqual(self.queue.take_hosts(two, ["b", "c"]), {"b", "c"})


class Waking(WithQueue):
    """Those who wait learn at once what was committed."""

    def test_wakers(self) -> None:
        with self.queue.base.waker("ready") as ready, self.queue.base.waker("ended") as ended, Sqlite(self.path) as other:
            with other.transaction():
                other.wake("ready")
                ready.wait(0)
            ready.wait(SOON)
            began = time.monotonic()
            ended.wait(0.05)
            self.assertGreater(time.monotonic() - began, 0.04, "another topic")

    def test_sockets_of_the_dead_are_removed(self) -> None:
        dead = self.queue.base.waker("ready")
        dead._socket.close()
        with self.queue.base.transaction():
            self.queue.base.wake("ready")
        self.assertFalse(os.path.exists(dead.path))


if __name__ == "__main__":
    unittest.main()

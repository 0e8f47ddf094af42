"""What becomes of the queue's jobs, by its file alone: the fence of attempts, losses, cancels, what is kept and counted."""
import math
import sqlite3
import threading
import time
import unittest

from arena.queue import Keeping, NewJob, QueueError, State, UnknownQueueJob
from arena.queue.figures import Histogram, What
from arena.queue.model import SECOND, Ending, GiveBack, LeaseLost, Wants, now
from arena.queue.sqlite import statements
from arena.queue.turns import Turns
from tests.with_queue import ANY, CELL, ONE, SOON, TWO, WithQueue

MINUTE = 60 * SECOND


class Ends(WithQueue):
    """Outcomes, and attempts without one."""

    def test_the_first_outcome_stands(self) -> None:
        job, = self.submit(NewJob("acme", ONE))
        late = self.queue.register("late", 0.01)
        old, = self.claim(late)
        quick = self.queue.register("quick", SOON)
        for _ in range(2):  # takes leases away that have run out, or of which nothing was heard since the first time
            time.sleep(0.02)
            self.queue.turn(quick, lease=SOON)
        self.assertEqual((self.state(job), self.queue.job(job).failures), (State.SCHEDULED, 0), "no failure of the job")
        with self.assertRaises(LeaseLost):
            self.end(late, Ending(job, old.attempt, State.COMPLETE, 1))
        while not (new := self.claim(quick)):
            time.sleep(0.01)
        self.assertEqual((new[0].job, new[0].attempt), (job, 2))
        self.assertEqual(self.end(quick, Ending(job, 1, State.COMPLETE, 1)).refused, [job], "an attempt that is over")
        self.assertEqual(self.end(quick, Ending(job, 2, State.COMPLETE, 2)).refused, [])
        self.assertEqual(self.end(quick, Ending(job, 2, State.COMPLETE, 3)).refused, [job])
        self.assertEqual(self.queue.job(job).value, 2)

    def test_refused_outcomes_spoil_no_others(self) -> None:
        one, two = self.submit(NewJob("acme", ONE), NewJob("acme", ONE))
        me = self.queue.register("me", SOON)
        self.claim(me)
        turn = self.end(me, Ending(one, 9, State.COMPLETE, 1), Ending(two, 1, State.FAULT, fault=2))
        self.assertEqual((turn.refused, self.state(one), self.queue.job(two).fault), ([one], State.RUNNING, 2))

    def test_a_lease_of_another_start_of_the_machine(self) -> None:
        job, = self.submit(NewJob("acme", ONE))
        self.claim(self.queue.register("before", 1000.0))
        self.queue.base.change("UPDATE dispatcher SET boot = 'another'")
        self.queue.turn(self.queue.register("me", SOON), lease=SOON)
        self.assertEqual(self.state(job), State.SCHEDULED)

    def test_jobs_of_lost_dispatchers(self) -> None:
        kept, cancelled = self.submit(NewJob("acme", ONE, most_failures=1), NewJob("acme", ONE))
        delays = []
        for _ in range(5):
            with self.queue.base.transaction():
                self.queue.base.change("UPDATE job SET state = 'ready' WHERE state = 'scheduled'")
            me = self.queue.register("me", SOON)
            self.claim(me)
            self.queue.cancel(cancelled)
            before = now()
            self.queue.leave(me)
            run_at, after = self.queue.job(kept).run_at, now()
            delays.append((run_at - after, run_at - before))  # the delay is between these, however long that took
        self.assertEqual((self.state(kept), self.state(cancelled)), (State.SCHEDULED, State.CANCELED))
        self.assertLessEqual(delays[0][0], SECOND // 10)
        self.assertGreater(delays[4][1], SECOND // 2)

    def test_dead(self) -> None:
        job, = self.submit(NewJob("acme", ONE, most_failures=2))
        me = self.queue.register("me", SOON)
        for attempt, (counts, wanted) in enumerate(((False, State.SCHEDULED), (True, State.SCHEDULED), (True, State.DEAD)), 1):
            it, = self.claim(me)
            self.assertEqual(it.attempt, attempt)
            self.queue.turn(me, backs=[GiveBack(job, attempt, "lost", counts)])
            self.assertEqual(self.state(job), wanted)
        self.assertEqual([it.job for it in self.queue.listed(state=State.DEAD)], [job])
        self.assertEqual(self.queue.retry(job), State.READY)
        it, = self.claim(me)
        self.assertEqual(it.failures, 0)
        self.end(me, Ending(job, it.attempt, State.COMPLETE, 7))
        with self.assertRaises(QueueError):
            self.queue.retry(job)
        self.assertEqual([it.what for it in self.queue.events(job)], ["given back", "dead", "to be run again"])

    def test_a_give_back_says_how_to_go_on(self) -> None:
        job, = self.submit(NewJob("acme", ONE))
        me = self.queue.register("me", SOON)
        self.claim(me)
        self.queue.turn(me, backs=[GiveBack(job, 1, "fault 4", False, alone=True)])
        it, = self.claim(me)
        self.assertEqual((it.alone, it.failures), (1, 0))
        self.queue.turn(me, backs=[GiveBack(job, 2, "lost", True, 1000 * SECOND)])
        self.assertEqual(self.claim(me), [])

    def test_cancel(self) -> None:
        one, two = self.submit(NewJob("acme", ONE), NewJob("acme", ONE))
        me = self.queue.register("me", SOON)
        it, = self.claim(me, Wants({"acme": 1}, 0, 0))
        self.assertEqual((self.queue.cancel(one), self.queue.cancel(two)), (State.RUNNING, State.CANCELED))
        self.assertEqual(self.queue.turn(me, lease=SOON).cancels, [one])
        self.queue.turn(me, backs=[GiveBack(one, it.attempt, "no room", False)])
        self.assertEqual(self.state(one), State.CANCELED, "given back, and not run again")
        with self.assertRaises(UnknownQueueJob):
            self.queue.cancel(one, tenant="beta")

    def test_wait(self) -> None:
        job, = self.submit(NewJob("acme", ONE))
        self.assertEqual(self.queue.wait([job], 0)[0].state, State.READY)

        def end() -> None:
            """Ends the job by another connection."""
            with Turns(self.path, "off") as other:
                me = other.register("me", SOON)
                other.turn(me, wants=ANY)
                other.turn(me, [Ending(job, 1, State.FAULT, fault=2)])
        thread = threading.Thread(target=end)
        thread.start()
        self.assertEqual(self.queue.wait([job], SOON)[0].fault, 2)
        thread.join()

    def test_what_is_not_committed_is_undone(self) -> None:
        with self.assertRaises(sqlite3.IntegrityError), self.queue.base.transaction():
            self.queue.base.change("INSERT INTO setting VALUES ('a', 1)")
            self.queue.base.change("INSERT INTO setting VALUES ('a', 1)")
        self.assertEqual(len(self.submit(NewJob("acme", ONE))), 1)
        self.assertEqual(self.queue.base.rows("SELECT 1 FROM setting WHERE name = 'a'"), [])


class Keeps(WithQueue):
    """What is kept, reused and counted."""

    def ended(self, count: int) -> list[int]:
        """Jobs that have ended, in their order."""
        jobs = self.submit(*(NewJob("acme", ONE) for _ in range(count)))
        me = self.queue.register("me", SOON)
        for it in self.claim(me, Wants({}, count, 1)):
            self.end(me, Ending(it.job, it.attempt, State.COMPLETE, 1))
        return jobs

    def test_purge(self) -> None:
        one, two = self.ended(2)
        self.queue.note(one, "a note")
        self.assertEqual((self.queue.purge(100), self.queue.purge(0, [State.DEAD]), self.queue.purge(0, limit=1)), (0, 0, 1))
        with self.assertRaises(UnknownQueueJob):
            self.queue.job(one)
        self.assertEqual((self.queue.events(one), self.state(two)), ([], State.COMPLETE))

    def test_settings(self) -> None:
        self.assertEqual(self.queue.keeping(), Keeping(7 * 24 * 3600, 1_000_000))
        jobs = [*self.ended(5), *self.submit(NewJob("acme", ONE))]
        self.queue.set_keeping(Keeping(None, 3))
        self.assertEqual((self.queue.purge_by_settings(), self.queue.purge_by_settings()), (2, 0))
        self.assertEqual([it.job for it in self.queue.listed()], jobs[:1:-1], "the newest stay, and what has not ended")
        self.queue.set_keeping(Keeping(0, None))
        self.assertEqual((self.queue.purge_by_settings(), len(self.queue.listed())), (3, 1))

    def test_counts_without_counting(self) -> None:
        self.ended(3)
        job, _, other = self.submit(NewJob("acme", ONE), NewJob("acme", ONE), NewJob("beta", ONE, run_at=now() + SOON * SECOND))
        self.queue.submit([NewJob("acme", ONE, key="k"), NewJob("acme", ONE, key="k")])
        self.queue.cancel(job)
        self.queue.purge(0, [State.CANCELED])
        counted = {(tenant, state): count for tenant, state, count in self.queue.base.rows(
            "SELECT tenant, state, count(*) FROM job GROUP BY tenant, state")}
        stats = self.queue.stats()
        self.assertEqual({(tenant, state): count for tenant, counts in stats["tenants"].items()
                          for state, count in counts.items()}, counted)
        self.assertEqual(counted, {("acme", "complete"): 3, ("acme", "ready"): 2, ("beta", "scheduled"): 1})
        self.assertEqual((stats["ended_last_minute"], [it["name"] for it in stats["dispatchers"]]), (3, ["me"]))
        self.assertEqual(self.queue.stats("beta")["tenants"], {"beta": {"scheduled": 1}})

    def test_figures(self) -> None:
        began = now() // MINUTE
        *_, over = self.ended(4)
        waits, job = self.submit(NewJob("acme", ONE), NewJob("beta", ONE))
        me = self.queue.register("me", SOON)
        claim, = self.claim(me, Wants({"acme": 1}, 0, 0))
        self.assertGreater(self.queue.age("acme", State.RUNNING), 0)
        self.end(me, Ending(over, 1, State.COMPLETE, 1, tenant="acme", ran=5 * SECOND),
                 Ending(waits, claim.attempt, State.COMPLETE, 1, tenant="acme", ran=2 * SECOND))
        since = now() // MINUTE - began + 1  # one minute, unless the next one has begun meanwhile
        for minutes in (None, since, since + 4):
            found = self.queue.figures("acme", minutes)
            self.assertEqual([found[it].jobs for it in What], [5, 5, 1], "an outcome that is refused is not counted")
            self.assertEqual((found[What.RAN].within(.5), found[What.RAN].micros), (3.0, 2 * SECOND))
        self.queue.base.change("UPDATE figure SET minute = minute - 100")
        self.queue.fold_figures()
        self.assertEqual(self.queue.base.rows("SELECT DISTINCT minute FROM figure"), [(0,)])
        self.assertEqual([self.queue.figures("acme", it)[What.MADE].jobs for it in (None, 5)], [5, 0])
        self.assertEqual((self.queue.age("acme"), self.queue.age("acme", State.RUNNING)), (None, None))
        self.assertLess(self.queue.age("beta") or SOON, SOON)
        self.queue.cancel(job)
        self.queue.purge(0)
        entered = self.queue.entered("acme")
        self.assertEqual([entered[it] for it in (State.READY, State.RUNNING, State.COMPLETE)], [5, 5, 5], "though they are removed")

    def test_histograms(self) -> None:
        it = Histogram.of([(0, 50, 50), (5, 45, 45), (13, 5, 5)])
        self.assertEqual([it.within(share) for share in (.5, .51, .95, .96)], [.001, .3, .3, math.inf])
        self.assertEqual((it.jobs, it.micros, Histogram.of([]).within(.5)), (100, 100, None))

    def test_values_are_reused_if_that_is_wanted(self) -> None:
        def run(job: NewJob, value: int) -> tuple[State, int | None]:
            """Submits a job, and runs it if it is not complete at once; what it has at the submission."""
            it = self.queue.job(self.submit(job)[0])
            for claim in self.claim(me):
                self.end(me, Ending(claim.job, claim.attempt, State.COMPLETE, value))
            return it.state, it.value
        me, new = self.queue.register("me", SOON), (State.READY, None)
        self.assertEqual([run(NewJob("acme", TWO, (1, 2)), 3) for _ in range(2)], [new, new])
        self.queue.set_reuse("acme", True)
        self.assertEqual(run(NewJob("acme", TWO, (1, 2), 100), 3), new, "what was submitted before is not reused")
        self.assertEqual(run(NewJob("acme", TWO, (1, 2), 100), 4), (State.COMPLETE, 3))
        self.assertEqual(run(NewJob("acme", TWO, (1, 2), 200), 4), (State.COMPLETE, 3), "more fuel")
        self.assertEqual(run(NewJob("acme", TWO, (1, 2), 99), 3), new, "less fuel")
        self.assertEqual(run(NewJob("acme", TWO, (2, 1), 100), 3), new, "other arguments")
        self.assertEqual(run(NewJob("beta", TWO, (1, 2), 100), 3), new, "another tenant")
        self.assertEqual([run(NewJob("acme", CELL, (1, 2)), 5) for _ in range(2)], [new, new], "not serial")
        self.queue.set_reuse("acme", False)
        self.assertEqual(run(NewJob("acme", TWO, (1, 2), 100), 3), new)

    def test_lists_have_pages(self) -> None:
        jobs = self.submit(*(NewJob("acme", ONE) for _ in range(5)), NewJob("beta", ONE))
        self.assertEqual([it.job for it in self.queue.listed("acme", limit=2)], jobs[4:2:-1])
        self.assertEqual([it.job for it in self.queue.listed("acme", before=jobs[3], limit=9)], jobs[2::-1])
        self.assertEqual(self.queue.listed(limit=-5), [])

    def test_queries_use_their_indexes(self) -> None:
        for sql, index in (("SELECT min(run_at) FROM job WHERE state = 'scheduled'", "job_scheduled"),
                           (statements.HURRY, "job_given_back"), (statements.PROMOTE, "job_scheduled"),
                           ("SELECT arena_now() - min(run_at) FROM job WHERE tenant = 'a' AND state = 'ready'", "job_oldest"),
                           ("SELECT id FROM job WHERE state = 'ready' AND tenant = 'a' ORDER BY priority DESC, id LIMIT 9",
                            "job_ready"),
                           ("SELECT id FROM job WHERE ended_at IS NOT NULL ORDER BY ended_at LIMIT 9", "job_ended"),
                           ("SELECT id FROM job j WHERE j.state = 'dead' ORDER BY j.id DESC LIMIT 9", "job_dead"),
                           ("SELECT id FROM job WHERE tenant = 'a' AND program = 1 AND x = 1 AND y = 1 AND state = 'complete' "
                            "AND reuse = 1 AND fuel <= 9 LIMIT 1", "job_value")):
            plan = " ".join(it[3] for it in self.queue.base.rows(f"EXPLAIN QUERY PLAN {sql}", *[1] * sql.count("?")))
            self.assertIn(f"INDEX {index}", plan)
            self.assertNotIn("TEMP B-TREE", plan)


if __name__ == "__main__":
    unittest.main()

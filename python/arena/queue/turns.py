"""The queue as dispatchers see it: leases, and the transactions in which jobs are claimed and ended."""
from collections.abc import Sequence

from arena.queue.figures import Figures, What
from arena.queue.model import ENDED, Claim, Ending, GiveBack, LeaseLost, Turn, Wants
from arena.queue.policy import LONGEST_DELAY, delay
from arena.queue.store import Store

READY = """WITH RECURSIVE it AS (SELECT min(tenant) AS tenant FROM job WHERE state = 'ready' UNION ALL
    SELECT (SELECT min(tenant) FROM job WHERE state = 'ready' AND tenant > it.tenant) FROM it WHERE it.tenant IS NOT NULL)
    SELECT tenant FROM it WHERE tenant IS NOT NULL"""
"""The tenants that have ready jobs, by a step over the index for each, however many jobs they have."""

GIVE_BACK = """UPDATE job SET dispatcher = NULL, error = ?, failures = failures + ?, run_at = arena_now() + ?, alone = alone + ?,
    state = CASE WHEN failures + ? >= most_failures THEN 'dead' WHEN cancel = 1 THEN 'canceled' ELSE 'scheduled' END,
    ended_at = CASE WHEN failures + ? >= most_failures OR cancel = 1 THEN arena_now() END
    WHERE id = ? AND state = 'running' AND dispatcher = ? AND attempt = ? RETURNING state"""

ORPHAN = """UPDATE job SET dispatcher = NULL, error = 'its dispatcher was lost', orphaned = orphaned + 1, run_at = arena_now() + ?,
    state = CASE WHEN cancel = 1 THEN 'canceled' ELSE 'scheduled' END, ended_at = CASE WHEN cancel = 1 THEN arena_now() END
    WHERE id = ?"""
"""Gives a job back whose dispatcher was lost. That is no failure of the job; should it be one all the same, it waits for longer
each time, so that it does not end one dispatcher after another."""


class Turns(Store):
    """The queue, for a dispatcher."""

    def register(self, name: str, seconds: float) -> int:
        """A lease for a new dispatcher; its number."""
        with self.base.transaction(durable=False):
            return self.base.register(name, seconds)

    def take_hosts(self, dispatcher: int, names: Sequence[str]) -> set[str]:
        """Takes hosts that no living dispatcher has; those that the dispatcher has then."""
        with self.base.transaction(durable=False):
            self.base.hold_hosts()
            for name in sorted(names):
                self.base.change("INSERT INTO host (name, dispatcher) VALUES (?, ?) ON CONFLICT (name) DO UPDATE SET dispatcher = "
                                 "excluded.dispatcher WHERE host.dispatcher NOT IN (SELECT id FROM dispatcher)", name, dispatcher)
            return {it for it, in self.base.rows("SELECT name FROM host WHERE dispatcher = ?", dispatcher)}

    def leave(self, dispatcher: int) -> None:
        """Gives up a lease. What is still running is given back."""
        with self.base.transaction(durable=False):
            self._take_away(dispatcher)

    def running(self, dispatcher: int) -> dict[int, int]:
        """The jobs that a dispatcher runs, by the queue's word, with their attempts."""
        rows = self.base.rows("SELECT id, attempt FROM job WHERE state = 'running' AND dispatcher = ?", dispatcher)
        return {job: attempt for job, attempt in rows}

    def program(self, number: int) -> tuple[str, bool]:
        """The text of a program, and whether it is serial."""
        procs, serial = self.base.rows("SELECT procs, serial FROM program WHERE id = ?", number)[0]
        return procs, bool(serial)

    def turn(self, dispatcher: int, endings: Sequence[Ending] = (), backs: Sequence[GiveBack] = (), wants: Wants = Wants(),
             lease: float | None = None) -> Turn:
        """A dispatcher's transaction: records outcomes, gives back, and claims what is wanted. With `lease`, in seconds, it
        renews its own, and takes away those that have run out. Raises LeaseLost."""
        turn, figures = Turn(), Figures()
        with self.base.transaction(durable=bool(endings)):
            self._hold(dispatcher, lease)
            if lease is not None:
                turn.cancels = [it for it, in self.base.rows(
                    "SELECT id FROM job WHERE state = 'running' AND dispatcher = ? AND cancel = 1", dispatcher)]
            if endings:
                turn.refused = self.base.settle(dispatcher, endings)
                self._count(endings, turn.refused, figures)
                self.base.wake("ended")
            for back in backs:
                self._give_back(dispatcher, back)
            if wants:
                self._claim_all(dispatcher, wants, turn)
                for tenant, claims in turn.claims.items():
                    figures.add(tenant, What.WAITED, [max(0, it.waited) for it in claims])  # the clock may have been set back
            self.keep(figures)
        return turn

    def _count(self, endings: Sequence[Ending], refused: Sequence[int], figures: Figures) -> None:
        """Counts how long attempts ran whose outcomes are recorded."""
        times: dict[str, list[int]] = {}
        for it in endings:
            if it.ran is not None and it.job not in refused:
                times.setdefault(it.tenant, []).append(it.ran)
        for tenant, ran in times.items():
            figures.add(tenant, What.RAN, ran)

    def _hold(self, dispatcher: int, lease: float | None) -> None:
        """Looks whether the dispatcher has its lease, which nobody takes away before the transaction ends. Raises LeaseLost."""
        has_it = self.base.hold_lease(dispatcher, lease)
        if lease is not None:
            for other in self.base.overdue():
                self._take_away(other)
            self.base.hurry(LONGEST_DELAY)
        if not has_it:
            raise LeaseLost("its lease had run out, and another dispatcher has taken it away")

    def _give_back(self, dispatcher: int, back: GiveBack) -> None:
        counts = int(back.counts)
        row = self.base.first(GIVE_BACK, back.error, counts, back.delay, int(back.alone), counts, counts, back.job, dispatcher,
                              back.attempt)
        if row is not None:
            has_ended = row[0] in ENDED
            if back.counts or back.alone or has_ended:  # that there was no room is no news, and may come again and again
                self.note(back.job, row[0] if has_ended else "given back", back.attempt, back.error)
            if has_ended:
                self.base.wake("ended")

    def _claim_all(self, dispatcher: int, wants: Wants, turn: Turn) -> None:
        if (next_in := self._next_in()) is not None and next_in <= 0:
            self.base.promote()
            next_in = self._next_in()
        turn.next_in, others = next_in, wants.tenants
        for tenant, in self.base.rows(READY):
            limit = wants.each.get(tenant, wants.others if others > 0 else 0)
            others -= tenant not in wants.each
            if limit > 0:
                turn.claims[tenant] = self._claim(dispatcher, tenant, limit)
                turn.has_more |= len(turn.claims[tenant]) == limit

    def _next_in(self) -> int | None:
        """In how many microseconds the next scheduled job is due; None if there is none."""
        next_in: int | None = self.base.rows("SELECT min(run_at) - arena_now() FROM job WHERE state = 'scheduled'")[0][0]
        return next_in

    def _claim(self, dispatcher: int, tenant: str, limit: int) -> list[Claim]:
        """Takes ready jobs of a tenant, the first ones."""
        rows = self.base.claim(dispatcher, tenant, limit)
        return [Claim._make(it[:-1]) for it in sorted(rows, key=lambda it: (-it[-1], it[0]))]

    def _take_away(self, dispatcher: int) -> None:
        """Takes a lease away, and gives its jobs back."""
        for it in self.base.orphans(dispatcher):
            self.base.change(ORPHAN, delay(it.orphaned), it.job)
            self.note(it.job, "given back", it.attempt, "its dispatcher was lost")
        self.base.change("DELETE FROM dispatcher WHERE id = ?", dispatcher)
        self.base.wake("ready")
        self.base.wake("ended")

"""Runs the jobs of a queue on hosts. It keeps nothing: what it had begun when it died is run again by another one.

One thread does everything. While a transaction is written, hosts go on with the jobs that they have, and all outcomes
that have come by its end go into the next one, which also claims the next jobs. """
import contextlib
import logging
import os
import selectors
import socket
import time
from collections import Counter
from collections.abc import Sequence
from dataclasses import dataclass, field

from arena.pool.task import Ended, Lost, Never, NotRun, Result, Task
from arena.pool.task import Settings as HostSettings
from arena.prepared import Prepared
from arena.queue import policy
from arena.queue.base import faults_of
from arena.queue.model import SECOND, Claim, Ending, GiveBack, LeaseLost, Turn, Wants
from arena.queue.post import Held, Post
from arena.queue.turns import Turns
from arena.queue.wake import Waker
from arena.replies import UnknownTenant

LOG = logging.getLogger("arena.queue")

FIRST_PAUSE, LONGEST_PAUSE = 0.05, 2.0
"""How many seconds pass before the queue's database is opened again that could not be used."""

PROGRAMS = 10_000
"""How many programs are kept in mind."""

FOLDS = 60.0
"""How often, in seconds, the figures of past minutes are summed up."""

CLOCK_STEP = 60.0
"""How many seconds the clock may be set ahead between two looks, so that nobody thinks of it."""

UNKNOWN_DELAY = 1.0
"""How many seconds a job waits whose host does not know its tenant."""


@dataclass(frozen=True, slots=True)
class Settings:
    """How a dispatcher works. Times are in seconds."""

    hosts: HostSettings = field(default_factory=lambda: HostSettings(retire=True))
    lease: float = 10.0
    """How long its jobs are left to it if it is silent."""
    look: float = 1.0
    """How often the queue is looked at if nothing wakes the dispatcher."""
    purge: float = 10.0
    """How often jobs are removed that are kept no longer."""
    patience: float = 30.0
    """How long jobs that are under way have to end, once the dispatcher is to stop."""


@dataclass(frozen=True, slots=True)
class Kept:
    """A program that is kept in mind."""

    prepared: Prepared
    is_serial: bool


class Dispatcher:
    """Runs jobs of the queue at a path or URL on the hosts at some paths, until `stop` is called."""

    def __init__(self, where: str, hosts: Sequence[str], settings: Settings = Settings(), *, synchronous: str = "full") -> None:
        self.where, self.settings = where, settings
        self._faults = faults_of(where)
        self.name = f"{socket.gethostname()}:{os.getpid()}"
        self.counts: Counter[str] = Counter()
        self._synchronous = synchronous
        self._selector = selectors.DefaultSelector()
        self._posts = [Post(it, settings.hosts, self._selector) for it in dict.fromkeys(hosts)]
        self._queue: Turns | None = None
        self._waker: Waker | None = None
        self._number = 0
        self._programs: dict[int, Kept] = {}
        self._under_way: dict[int, int] = {}
        self._notes: list[Ending | GiveBack] = []
        self._looks = True
        self._looked = self._beaten = self._purged = self._folded = 0.0
        self._next_at: float | None = None
        self._stops_at: float | None = None
        self._ahead: float | None = None
        self._is_clock_set = False

    def stop(self) -> None:
        """Takes no more jobs, and ends when those that it has have ended. A signal's handler may call it."""
        if self._stops_at is None:
            self._stops_at = time.monotonic() + self.settings.patience

    def run(self) -> None:
        """Runs jobs until it is stopped. While the queue's database can't be used, it tries again."""
        pause = FIRST_PAUSE
        while True:
            try:
                queue = self._open()
                while not self._is_done():
                    self._step(queue)
                    pause = FIRST_PAUSE
                queue.leave(self._number)
                self._drop()
                self._close_queue()
                return
            except LeaseLost as fault:
                LOG.warning("%s", fault)
                self._drop()
            except self._faults as fault:
                LOG.warning("the queue's database: %s; it is tried again", str(fault).strip())
                self._close_queue()
                time.sleep(pause)
                pause = min(LONGEST_PAUSE, 2 * pause)
                if self._stops_at is not None and time.monotonic() > self._stops_at:
                    return

    def _is_done(self) -> bool:
        if self._stops_at is None or self._notes:
            return False
        return not self._under_way or time.monotonic() > self._stops_at

    # The queue.

    def _open(self) -> Turns:
        if self._queue is None:
            self._queue = Turns(self.where, self._synchronous)
            self._waker = self._queue.base.waker("ready")
            self._selector.register(self._waker, selectors.EVENT_READ, self._woken)
            self._looks = True
            if self._number:
                self._reconcile(self._queue)
        if not self._number:
            self._number = self._queue.register(self.name, self.settings.lease)
            self._beaten = time.monotonic()
            self._take_hosts(self._queue)
        return self._queue

    def _woken(self, _: int) -> None:
        if self._waker is not None:
            self._waker.drain()
        self._looks = True

    def _take_hosts(self, queue: Turns) -> None:
        mine = queue.take_hosts(self._number, [it.name for it in self._posts])
        for post in self._posts:
            if post.is_mine != (post.name in mine):
                post.is_mine = post.name in mine
                LOG.info("%s is %s", post.name, "taken" if post.is_mine else "another dispatcher's")

    def _reconcile(self, queue: Turns) -> None:
        """Gives back what was claimed by a transaction whose end was not heard of."""
        settled = {it.job for it in self._notes}
        self._notes += [GiveBack(job, attempt, "the queue's database was lost as it was claimed", False)
                        for job, attempt in queue.running(self._number).items()
                        if self._under_way.get(job) != attempt and job not in settled]

    def _close_queue(self) -> None:
        if self._waker is not None:
            self._selector.unregister(self._waker)
            self._waker.close()
        if self._queue is not None:
            with contextlib.suppress(*self._faults):
                self._queue.close()
        self._queue = self._waker = None

    def _drop(self) -> None:
        """Forgets everything: others have the jobs."""
        for post in self._posts:
            post.drop()
        self._under_way.clear()
        self._notes.clear()
        self._number, self._looks = 0, True

    # The loop.

    def _step(self, queue: Turns) -> None:
        for key, mask in self._selector.select(self._timeout(time.monotonic())):
            key.data(mask)
        clock = time.monotonic()
        for post in self._posts:
            post.attend(clock)
            for result in post.results():
                self._take(result, clock)
        must = bool(self._notes) or clock >= self._beaten + self.settings.lease / 3
        if must or self._looks_at() <= clock:
            wants = self._wants(clock)
            if must or wants:
                self._turn(queue, clock, wants)
        if clock >= self._purged + self.settings.purge:
            self._purge(queue, clock)

    def _timeout(self, clock: float) -> float:
        looks_at = self._looks_at()
        if self._notes or looks_at <= clock and self._wants(clock):
            return 0.0
        times = [self._beaten + self.settings.lease / 3]
        if looks_at > clock:
            times.append(looks_at)
        times += [it for it in (post.next_at(clock) for post in self._posts) if it is not None]
        if self._stops_at is not None:
            times.append(self._stops_at)
        return max(0.0, min(times) - clock)

    def _looks_at(self) -> float:
        """When to look for jobs at the latest, if there is room for some."""
        if self._looks:
            return 0.0
        later = self._looked + self.settings.look
        return later if self._next_at is None else min(later, self._next_at)

    def _turn(self, queue: Turns, clock: float, wants: Wants) -> None:
        """A transaction with what has come, and what comes of it."""
        beats = clock >= self._beaten + self.settings.lease / 3
        notes = self._notes[:]
        endings = [it for it in notes if isinstance(it, Ending)]
        backs = [it for it in notes if isinstance(it, GiveBack)]
        turn = queue.turn(self._number, endings, backs, wants, self.settings.lease if beats else None)
        del self._notes[:len(notes)]
        for it in notes:
            self._under_way.pop(it.job, None)
        if beats:
            self._beaten = clock
            if not all(it.is_mine for it in self._posts):
                self._take_hosts(queue)
        if wants:
            self._looks, self._looked = turn.has_more, clock
            self._next_at = None if turn.next_in is None else clock + turn.next_in / SECOND
        self.counts.update(turns=1, ended=len(endings), given_back=len(backs), refused=len(turn.refused),
                           claimed=sum(map(len, turn.claims.values())))
        self._follow(queue, turn, clock)

    def _follow(self, queue: Turns, turn: Turn, clock: float) -> None:
        """Runs what a turn has claimed, and cancels."""
        for tenant, claims in turn.claims.items():
            tasks = [self._task(queue, it, clock) for it in claims]  # if a program can't be read, none of them is under way
            self._under_way |= {it.job: it.attempt for it in claims}
            self._spread(tenant, tasks, clock)
        if turn.cancels:
            self._cancel(set(turn.cancels))

    def _purge(self, queue: Turns, clock: float) -> None:
        if clock >= self._folded + FOLDS:
            queue.fold_figures()
            self._folded = clock
        gone = queue.purge_by_settings(by_age=self._clock_goes_on(queue))
        self.counts.update(purged=gone)
        if gone < 1000:  # else there is more, which waits for the next step
            self._purged = clock

    def _clock_goes_on(self, queue: Turns) -> bool:
        """Whether the clock by which jobs have their ages was not set ahead while this runs: ages since are none."""
        ahead = queue.base.rows("SELECT arena_now()")[0][0] / SECOND - time.clock_gettime(time.CLOCK_BOOTTIME)
        step = 0.0 if self._ahead is None else ahead - self._ahead
        if step > CLOCK_STEP and not self._is_clock_set:
            LOG.warning("the clock was set ahead by %.0f s: no job is removed for its age until this is started anew", step)
            self._is_clock_set = True
        self._ahead = ahead
        return not self._is_clock_set

    # Jobs.

    def _wants(self, clock: float) -> Wants:
        """How many jobs of each tenant there is room for, and of how many others."""
        if self._stops_at is not None:
            return Wants()
        each: dict[str, int] = {}
        others = 0
        for post in self._posts:
            for tenant in post.desks:
                each[tenant] = each.get(tenant, 0) + post.room(tenant, clock)
            others += post.new_desks if post.host.is_ready(clock) else 0
        return Wants(each, self.settings.hosts.window if others else 0, others)

    def _task(self, queue: Turns, claim: Claim, clock: float) -> Task[Held]:
        kept = self._kept(queue, claim.program)
        return Task(Held(claim, kept.is_serial, clock), kept.prepared.line("submit", (claim.x, claim.y), claim.fuel),
                    policy.runs_alone(claim))

    def _kept(self, queue: Turns, number: int) -> Kept:
        if number not in self._programs:
            if len(self._programs) >= PROGRAMS:
                self._programs.clear()
            procs, is_serial = queue.program(number)
            self._programs[number] = Kept(Prepared.of_text(procs), is_serial)
        return self._programs[number]

    def _spread(self, tenant: str, tasks: list[Task[Held]], clock: float) -> None:
        """Gives claimed jobs to the hosts that have least to do."""
        def load(post: Post) -> int:
            """How much a host has to do for the tenant."""
            return post.desks[tenant].load if tenant in post.desks else 0

        for post in sorted(self._posts, key=load):
            room = post.room(tenant, clock)
            if tasks and room:
                post.desk(tenant).feed(tasks[:room], clock)
                tasks = tasks[room:]
        self._notes += [policy.not_run(it.tag.claim, "no host has room", 0.01) for it in tasks]

    def _cancel(self, jobs: set[int]) -> None:
        for post in self._posts:
            for desk in post.desks.values():
                for task in desk.tasks():
                    if task.tag.claim.job in jobs:
                        desk.cancel(task)

    def _take(self, result: Result[Held], clock: float) -> None:
        """Notes what became of a job, for the next turn."""
        held = result.task.tag
        claim = held.claim
        match result:
            case Ended(_, outcome):
                self._notes.append(policy.ended(claim, held.is_serial, outcome, clock - held.began))
            case NotRun(_, why, fault):
                self.counts[f"not run: {why}"] += 1
                is_unknown = isinstance(fault, UnknownTenant)
                self._notes.append(policy.not_run(claim, "its host does not know the tenant" if is_unknown else why,
                                                  UNKNOWN_DELAY if is_unknown else 0.0))
            case Lost(_, why):
                self.counts["lost"] += 1
                self._notes.append(policy.lost(claim, why))
            case Never(_, refused):
                self._notes.append(policy.never(claim, str(refused)))

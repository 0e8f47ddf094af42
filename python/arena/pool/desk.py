"""A tenant at a host: its connections, and how many jobs are under way on them."""
import collections
import selectors
import time
from collections.abc import Callable, Sequence
from functools import partial
from typing import Generic

from arena.pool.host import Host
from arena.pool.lane import Answer, Lane, Op
from arena.pool.task import Ended, Lost, Never, NotRun, Result, Tag, Task
from arena.replies import (ArenaError, BadJson, BadProgram, BadRequest, Busy, HistoryFull, JobLimit, LineTooLong, NoTenant,
                           Outcome, Refused, UnknownTenant)
from arena.texts import counted

FOREVER = (BadProgram, BadJson, BadRequest, LineTooLong)
"""What no host will take."""

FIRST_REST, LONGEST_REST = 0.02, 2.0
"""How many seconds a tenant's desk rests when the host had no room, the first time and at most."""

GROWTH = 0.005
"""How much of the window each outcome gives back."""

UNKNOWN_REST = 30.0
"""How many seconds a host that does not know the tenant is not asked again."""

Serve = Callable[[int], None]
"""What the selector's loop calls with the events of a lane."""


class Desk(Generic[Tag]):
    """A tenant at a host.

    The owner's loop waits by `selector`, calls the `Serve` of each event, and then `attend`; it feeds as many tasks as there
    is `room` for, and takes what became of them from `results`. Nothing here waits, but for a connection that is made. """

    def __init__(self, host: Host, tenant: str, selector: selectors.BaseSelector) -> None:
        self.host, self.tenant, self.settings = host, tenant, host.settings
        self.results: list[Result[Tag]] = []
        self.lanes: list[Lane[Tag]] = []
        self.rests_until = self.used = 0.0
        self.share = 1.0
        """How much of the window is used: half as much each time that the host has no room, and more with each outcome."""
        self._selector = selector
        self._rest = FIRST_REST
        self._dirty: set[Lane[Tag]] = set()
        self._alone: collections.deque[Task[Tag]] = collections.deque()
        self._runs_alone: Task[Tag] | None = None
        self._is_full = self._is_retiring = self._is_clear = False
        self._unbound: Refused | None = None

    @property
    def load(self) -> int:
        """How many requests and jobs are under way, and tasks that wait to be alone."""
        return sum(it.load for it in self.lanes) + len(self._alone)

    def room(self, clock: float) -> int:
        """How many tasks it takes now."""
        is_taken = self._alone or self._runs_alone is not None or self._is_full or self._is_retiring
        if is_taken or clock < self.rests_until or not self.host.is_ready(clock):
            return 0
        others = self.host.connections - len(self.lanes)
        lanes = min(self.settings.lanes, self.settings.connections - others)
        return max(0, max(1, int(self.share * lanes * self.settings.window)) - self.load) if lanes > 0 else 0

    def feed(self, tasks: Sequence[Task[Tag]], clock: float) -> None:
        """Takes tasks; those that are to run alone wait until no other is under way."""
        self.used = clock
        self._alone += [it for it in tasks if it.alone]
        self._feed([it for it in tasks if not it.alone], clock)
        self.attend(clock)

    def tasks(self) -> list[Task[Tag]]:
        """The tasks that are under way, and those that wait to run alone."""
        return [task for lane in self.lanes for task in lane.under_way] + list(self._alone)

    def cancel(self, task: Task[Tag]) -> None:
        """Cancels a task, as far as its host can still be told."""
        if task in self._alone:
            self._alone.remove(task)
            self.results.append(NotRun(task, "cancelled before it was run"))
        for lane in self.lanes:
            if task in lane.under_way:
                lane.cancel(task)

    def attend(self, clock: float) -> None:
        """Does what is due: tasks that run alone, room at the host, connections that are old, idle or silent."""
        for lane in list(self.lanes):
            if lane.load and clock - lane.heard > self.settings.reply:
                self._lose(lane, f"{self.host.place.name}: no reply for {self.settings.reply:g} s", clock)
            elif clock - lane.began > self.settings.renew or lane.fed > self.settings.renew_jobs:
                lane.is_leaving = True
            if lane in self.lanes and not lane.load and (lane.is_leaving or clock - self.used > self.settings.idle):
                self._close(lane)
        if self.host.is_down:
            self._give_up_alone("the host can't be reached")
        is_free = not any(it.load for it in self.lanes)
        if is_free and clock >= self.rests_until and self.host.is_ready(clock):
            self._use_quiet(clock)
        self._flush(clock)

    def next_at(self, clock: float) -> float | None:
        """When to call `attend` at the latest, if nothing comes; None if there is nothing to do."""
        if not self.lanes and not self._alone and not self._is_full:
            return self.rests_until if clock < self.rests_until else None
        if clock < max(self.rests_until, self.host.rests_until):
            return max(self.rests_until, self.host.rests_until)
        return clock + min(self.settings.renew, self.settings.idle, self.settings.reply)

    def close(self) -> list[Task[Tag]]:
        """Ends all connections; the tasks that were under way, and those that waited."""
        left = self.tasks()
        for lane in list(self.lanes):
            self._close(lane)
        self._alone.clear()
        self._runs_alone = None
        return left

    # Lanes.

    def _feed(self, tasks: Sequence[Task[Tag]], clock: float) -> None:
        if not tasks:
            return
        self._is_clear = False
        lanes = self._open(len(tasks), clock)
        if not lanes:
            self._free(tasks)
            self.results += [NotRun(it, "the host can't be reached") for it in tasks]
            return
        parts = [tasks] if len(lanes) == 1 else [[it] for it in tasks]
        for some in parts:
            lane = min(lanes, key=lambda it: it.load)
            lane.feed(some)
            self._dirty.add(lane)

    def _open(self, more: int, clock: float) -> list[Lane[Tag]]:
        """Lanes for so many more tasks; none if the host can't be reached."""
        lanes = [it for it in self.lanes if not it.is_leaving]
        load = sum(it.load for it in lanes) + more
        need = max(1, min(self.settings.lanes, -(-load // self.settings.window)))
        while len(lanes) < need and (not lanes or self.host.connections < self.settings.connections):
            try:
                lane: Lane[Tag] = Lane(self.host.place, self.tenant, self.settings.connecting)
            except ArenaError as fault:
                self.host.was_lost(str(fault), clock)
                return lanes
            serve: Serve = partial(self._serve, lane)
            self._selector.register(lane, selectors.EVENT_READ, serve)
            self.host.connections += 1
            self.lanes.append(lane)
            lanes.append(lane)
        return lanes

    def _close(self, lane: Lane[Tag]) -> None:
        self._selector.unregister(lane)
        lane.close()
        self.lanes.remove(lane)
        self._dirty.discard(lane)
        self.host.connections -= 1

    def _serve(self, lane: Lane[Tag], mask: int) -> None:
        """Takes what has come on a lane."""
        if lane not in self.lanes:
            return  # it was lost by an event of the same round
        clock = time.monotonic()
        self._dirty.add(lane)
        if mask & selectors.EVENT_READ:
            try:
                answers = lane.read()
            except ArenaError as fault:
                self._lose(lane, f"{self.host.place.name}: {fault}", clock)
                return
            for answer in answers:
                self._take(lane, answer, clock)

    def _flush(self, clock: float) -> None:
        dirty, self._dirty = self._dirty, set()
        for lane in dirty:
            try:
                lane.flush()
            except ArenaError as fault:
                self._lose(lane, f"{self.host.place.name}: {fault}", clock)
                continue
            events = selectors.EVENT_READ | (selectors.EVENT_WRITE if lane.wants_to_write else 0)
            key = self._selector.get_key(lane)
            if key.events != events:
                self._selector.modify(lane, events, key.data)

    def _lose(self, lane: Lane[Tag], why: str, clock: float) -> None:
        """Ends a lane that failed: what was under way on it is lost."""
        left = lane.under_way
        self._close(lane)
        self._free(left)
        self._is_retiring = False
        self.results += [Lost(it, "the connection to its host was lost") for it in left]
        if left or not lane.is_leaving:
            self.host.was_lost(f"{why}; {counted(len(left), 'job')} of {self.tenant} lost", clock)

    def _free(self, tasks: Sequence[Task[Tag]]) -> None:
        """Notes that tasks are not under way any more."""
        if self._runs_alone in tasks:
            self._runs_alone = None

    # Answers.

    def _take(self, lane: Lane[Tag], answer: Answer[Tag], clock: float) -> None:
        if answer.task is not None and answer.said is not None:
            if answer.task is self._runs_alone:
                self._runs_alone = None
            self.results.append(self._result(lane, answer.op, answer.task, answer.said, clock))
        elif answer.op is Op.HELLO:
            self._bound(lane, answer.said, clock)
        else:
            self._retired(lane, answer.said, clock)

    def _result(self, lane: Lane[Tag], op: Op, task: Task[Tag], said: Outcome | Refused, clock: float) -> Result[Tag]:
        """What the answer to a job's submit or collect means."""
        if not isinstance(said, Refused):
            self._rest, self.share = FIRST_REST, min(1.0, self.share + GROWTH)
            return Ended(task, said)
        if isinstance(said, FOREVER):
            return Never(task, said)
        if isinstance(said, NoTenant):
            lane.is_leaving = True
            return NotRun(task, said.name, self._unbound)
        if isinstance(said, HistoryFull):
            lane.is_leaving = True
        if isinstance(said, JobLimit) and not any(it.under_way for it in self.lanes):
            self._is_full = True
        self._let_rest(clock)
        return NotRun(task, said.name, said) if op is Op.SUBMIT else Lost(task, said.name)

    def _let_rest(self, clock: float, share: float = 0.5) -> None:
        """Lets the host be for a while, each time for longer, until it has ended a job, and uses a part of the window."""
        if clock >= self.rests_until:
            self.rests_until = clock + self._rest
            self._rest = min(LONGEST_REST, 2 * self._rest)
            self.share *= share

    def _bound(self, lane: Lane[Tag], said: object, clock: float) -> None:
        if not isinstance(said, Refused):
            self.host.went_well()
            return
        lane.is_leaving, self._unbound = True, said
        self._give_up_alone(said.name, said)
        if isinstance(said, UnknownTenant):
            self.rests_until = clock + UNKNOWN_REST
        else:
            self._let_rest(clock)

    def _use_quiet(self, clock: float) -> None:
        """While nothing is under way: makes room at a host that is full, and runs a task that is to be alone. What lost
        connections left may run there still; a host that retires has no open row."""
        if not self._is_full and not self._alone:
            return
        if self.settings.retire and not self._is_clear:
            self._clear(clock)
            return
        self._is_full = False  # others may have made room, if nobody here may
        if self._alone:
            self._runs_alone = self._alone.popleft()
            self._feed([self._runs_alone], clock)

    def _give_up_alone(self, why: str, fault: Refused | None = None) -> None:
        """Gives back the tasks that wait to run alone: here they can't soon."""
        self.results += [NotRun(it, why, fault) for it in self._alone]
        self._alone.clear()

    def _clear(self, clock: float) -> None:
        """Asks the host to forget all jobs of the tenant."""
        if not self._is_retiring and (lanes := self._open(1, clock)):
            self._is_retiring = True
            lanes[0].retire()
            self._dirty.add(lanes[0])

    def _retired(self, lane: Lane[Tag], said: object, clock: float) -> None:
        self._is_retiring = False
        if not isinstance(said, Refused):
            self._is_full, self._is_clear = False, True
            return
        lane.is_leaving |= not isinstance(said, Busy)
        self._let_rest(clock, 1.0)

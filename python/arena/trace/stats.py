"""Statistics of a history: jobs, slots, requests, and how full it is."""
from collections import Counter
from collections.abc import Iterable
from dataclasses import dataclass, field

from arena.trace.axis import Axis, Meter
from arena.trace.dump import Tenant
from arena.trace.model import Happening, Job, Move, Row, there
from arena.trace.source import SourceMap


@dataclass(slots=True)
class JobStat:
    """A job. Entries are counted from 1, lengths in entries or instructions as their names say.

    It waited from its request to the start of its root, and took from then to its end, or to the end of the dump.
    `waited_without_worker` are the entries of its wait after which some slot for workers was empty.
    """

    job: Job
    asked_at: int
    idle_before: int
    started_at: int | None = None
    waited_instructions: int = 0
    waited_without_worker: int = 0
    took_entries: int = 0
    took_instructions: int = 0

    @property
    def number(self) -> int:
        """The job's number."""
        return self.job.number

    def waited_entries(self, last: int) -> int:
        """How many entries it waited, in a history whose last entry is this."""
        return (self.job.started or last) - self.job.asked

    @property
    def parallelism(self) -> float:
        """How many slots could have run it at once, on average: its work by its span."""
        return self.job.work / self.job.span if self.job.span else 1.0

    @property
    def fuel_used(self) -> float:
        """The share of its fuel that is used, from 0 to 1."""
        return 1 - self.job.left / self.job.given


@dataclass(slots=True)
class SlotStat:
    """A slot: what was started and executed on it. `taken` rows were made on another slot; `occupied` counts the
    entries with something live on it."""

    number: int
    reserved: bool
    rows: int = 0
    taken: int = 0
    runs: int = 0
    instructions: int = 0
    occupied: int = 0
    since: int | None = None


@dataclass(slots=True)
class Statistics:
    """What a history says. `length` is how long it is on the clock axis, in instructions."""

    tenant: Tenant
    jobs: list[JobStat] = field(default_factory=list)
    slots: list[SlotStat] = field(default_factory=list)
    asks: Counter[str] = field(default_factory=Counter)
    errors: Counter[str] = field(default_factory=Counter)
    entries: int = 0
    starts: int = 0
    runs: int = 0
    work: int = 0
    length: int = 0
    rows: int = 0
    most_open: int = 0

    @property
    def fill(self) -> float:
        """The share of the history that is used, from 0 to 1."""
        return self.entries / self.tenant.steps

    @property
    def at_once(self) -> float:
        """How many slots executed at the same time, on average, as if only instructions took time."""
        return self.work / self.length if self.length else 0.0

    def busy(self, slot: SlotStat) -> float:
        """The share of the clock axis in which a slot executed."""
        return slot.instructions / self.length if self.length else 0.0


class Collector:
    """Gathers the statistics of a history from what happened in its entries."""

    def __init__(self, tenant: Tenant) -> None:
        slots = [SlotStat(number, number < tenant.reserved) for number in range(tenant.slots)]
        self.statistics = Statistics(tenant, slots=slots)
        self._meter = Meter(Axis.CLOCK, tenant.slots)
        self._current: dict[Job, JobStat] = {}
        self._open = self._idle = 0
        self._free = tenant.slots - tenant.reserved  # slots for workers on which nothing is live

    def take(self, happening: Happening) -> None:
        """Goes on by an entry."""
        it = self.statistics
        it.entries = happening.number
        self._meter.take(happening)
        if happening.move is Move.ASKED:
            self._ask(happening)
        elif happening.move is Move.RAN:
            self._run(happening)
        if happening.made is not None:
            self._open += 1
            it.rows += 1
            if self._open > it.most_open:
                it.most_open = self._open
            if happening.made.started is not None:
                self._started(happening.made)
        if happening.move is Move.ARRIVED or happening.move is Move.NESTED:
            it.starts += 1
            self._started(there(happening.row))
        for row in happening.ended:
            self._ended(row)
        if self._free:
            self._idle += 1

    def _ask(self, happening: Happening) -> None:
        it = self.statistics
        it.asks[there(happening.op)] += 1
        reply = there(happening.reply)
        if "error" in reply:
            it.errors[reply["error"]] += 1
        elif happening.op in ("submit", "execute"):
            stat = JobStat(there(happening.job), it.work, self._idle)
            it.jobs.append(stat)
            self._current[stat.job] = stat

    def _run(self, happening: Happening) -> None:
        it, slot = self.statistics, self.statistics.slots[there(happening.slot)]
        it.runs += 1
        it.work += happening.cost
        slot.runs += 1
        slot.instructions += happening.cost

    def _started(self, row: Row) -> None:
        slot = self.statistics.slots[there(row.slot)]
        slot.rows += 1
        slot.taken += row.is_taken
        if row.height == 1:
            slot.since = row.started
            self._free -= not slot.reserved
        if row.maker is None:
            stat = self._current[row.job]
            if stat.started_at is None:
                stat.started_at = self.statistics.work
                stat.waited_instructions = stat.started_at - stat.asked_at
                stat.waited_without_worker = self._idle - stat.idle_before

    def _ended(self, row: Row) -> None:
        self._open -= 1
        if row.height == 1:
            slot = self.statistics.slots[there(row.slot)]
            slot.occupied += there(row.ended) - there(slot.since)
            slot.since = None
            self._free += not slot.reserved
        if row.job.open == 0:
            self._finish(self._current.pop(row.job, None))

    def _finish(self, stat: JobStat | None) -> None:
        if stat is None:
            return
        work, last = self.statistics.work, self.statistics.entries
        if stat.started_at is None:
            stat.waited_instructions = work - stat.asked_at
            stat.waited_without_worker = self._idle - stat.idle_before
        else:
            stat.took_instructions = work - stat.started_at
            stat.took_entries = (stat.job.ended or last) - there(stat.job.started)

    def end(self) -> Statistics:
        """The statistics, with what is still open as it is at the end."""
        it = self.statistics
        it.length = self._meter.end
        for stat in list(self._current.values()):
            self._finish(stat)
        for slot in it.slots:
            if slot.since is not None:
                slot.occupied += it.entries - slot.since
        return it


def statistics_of(happenings: Iterable[Happening], tenant: Tenant) -> Statistics:
    """The statistics of a history."""
    collector = Collector(tenant)
    for happening in happenings:
        collector.take(happening)
    return collector.end()


def place_of_fault(job: Job, source: SourceMap | None) -> str | None:
    """Where a job had its fault: row, procedure, instruction, and the line of the source if the map is of this job."""
    fault = job.fault
    if fault is None:
        return None
    line = source.line_of(job.procs, fault.proc, fault.instr) if source else None
    at = f"{line}: " if line else ""
    instr = job.procs[fault.proc][fault.instr]
    text = " ".join(map(str, instr))
    return f"{at}row {fault.row}, procs[{fault.proc}][{fault.instr}] {text}, in entry {fault.entry}"

"""What the statistics of a history tell one to change."""
import enum
from collections.abc import Callable, Iterator
from dataclasses import dataclass

from arena.jobs import GREATEST_FUEL
from arena.replies import FaultCode
from arena.trace.model import Job, there
from arena.trace.source import SourceMap
from arena.trace.stats import JobStat, Statistics, place_of_fault

# How much of a thing makes it worth a word.
NEAR_FUEL = 0.9           # of a job's fuel
LONG_WAIT = 20            # entries, if the job took no more than it waited
SLOW = 10                 # times the work of the job in the middle
SLOW_WORK = 10_000        # instructions, below which no job is slow
SERIAL = 1.5              # the parallelism below which more slots do not help
FILLING = 0.5             # of a history
POLLED = 0.25             # of the entries
SHOWN = 3                 # jobs of a kind


class About(enum.Enum):
    """What a piece of advice is about."""

    WORKERS = "workers"
    FUEL = "fuel"
    SLOW = "slow"
    HISTORY = "history"
    POLLS = "polls"
    FAULT = "fault"
    DEPTH = "depth"


@dataclass(frozen=True, slots=True)
class Advice:
    """One thing to change. `jobs` are the numbers of the jobs that it is about, none if it is about the tenant."""

    about: About
    text: str
    jobs: list[int]


def advice_of(statistics: Statistics, source: SourceMap | None = None) -> list[Advice]:
    """What to change, the weightiest first."""
    found: list[Advice] = []
    for look in (_history, _workers, _fuel, _slow, _polls):
        found += look(statistics)
    return [*found, *_faults(statistics, source)]


def _each(jobs: list[JobStat], about: About, say: Callable[[JobStat], str]) -> Iterator[Advice]:
    """Advice about the first of some jobs, and one line for the others."""
    for stat in jobs[:SHOWN]:
        yield Advice(about, say(stat), [stat.number])
    rest = [stat.number for stat in jobs[SHOWN:]]
    if rest:
        numbers = ", ".join(map(str, rest[:8])) + (", .." if len(rest) > 8 else "")
        yield Advice(about, f"so did {len(rest)} more: {numbers}" if len(rest) > 1 else f"so did job {numbers}", rest)


def _history(it: Statistics) -> Iterator[Advice]:
    if it.entries >= it.tenant.steps:
        text = (f"the history is full: all {it.tenant.steps:,} entries are used, and every request is answered "
                "history_full; arena-host opens another term before that; start arena-server anew, "
                "with more `steps` if there are fewer than 1,048,576")
        yield Advice(About.HISTORY, text, [])
    elif it.fill >= FILLING:
        each = it.entries / max(len(it.jobs), 1)
        left = int((it.tenant.steps - it.entries) / each)
        more = "1 more job" if left == 1 else f"{left:,} more jobs"
        text = (f"the history is {100 * it.fill:.0f} % full: at this rate, {each:,.0f} entries a job, it will be full "
                f"after {more}; arena-host opens another term before that; for arena-server raise `steps`, or start "
                "it anew in time")
        yield Advice(About.HISTORY, text, [])


def _workers(it: Statistics) -> Iterator[Advice]:
    waited = sorted((stat for stat in it.jobs if stat.waited_entries(it.entries) >= max(LONG_WAIT, stat.took_entries)),
                    key=lambda stat: -stat.waited_entries(it.entries))
    if it.tenant.slots == it.tenant.reserved:
        never = [stat for stat in it.jobs if stat.job.started is None]
        if never:
            wait = "1 job waits" if len(never) == 1 else f"{len(never):,} jobs wait"
            text = f"{wait} for ever: all slots are reserved, so no worker can come; lower `reserved`"
            yield Advice(About.WORKERS, text, [stat.number for stat in never])
            return

    def say(stat: JobStat) -> str:
        """The advice about one job."""
        entries = stat.waited_entries(it.entries)
        begun = f"job {stat.number} waited {entries:,} entries for a worker"
        if 2 * stat.waited_without_worker >= entries:
            return begun + ("; a slot was empty, so the workers were busy with other tenants: raise `workers`, at best "
                            "to as many as all tenants have slots for them")
        return begun + (f", and {stat.waited_instructions:,} instructions of other jobs; this tenant's slots were "
                        "busy: raise `slots`, and `workers` with them, or send fewer jobs at a time")
    yield from _each(waited, About.WORKERS, say)


def _fuel(it: Statistics) -> Iterator[Advice]:
    near = sorted((stat for stat in it.jobs if stat.fuel_used >= NEAR_FUEL and stat.job.given > 100
                   and (stat.job.fault is None or stat.job.fault.code is not FaultCode.FUEL)),
                  key=lambda stat: -stat.fuel_used)

    def say(stat: JobStat) -> str:
        """The advice about one job."""
        job = stat.job
        how = "raise its fuel" if job.given < GREATEST_FUEL else "its fuel can't be raised, so split it into two jobs"
        used = f"{job.given - job.left:,} of {job.given:,}"
        return f"job {job.number} used {100 * stat.fuel_used:.1f} % of its fuel, {used}: {how}"
    yield from _each(near, About.FUEL, say)


def _slow(it: Statistics) -> Iterator[Advice]:
    if len(it.jobs) < 3:
        return
    middle = max(sorted(stat.job.work for stat in it.jobs)[len(it.jobs) // 2], 1)
    slow = sorted((stat for stat in it.jobs if stat.job.work >= max(SLOW * middle, SLOW_WORK)),
                  key=lambda stat: -stat.job.work)

    def say(stat: JobStat) -> str:
        """The advice about one job."""
        job = stat.job
        begun = (f"job {job.number} is slow: it executed {job.work:,} instructions, "
                 f"{100 * job.work / max(it.work, 1):.0f} % of all and {job.work / middle:,.0f} times the job in the "
                 f"middle")
        if stat.parallelism < SERIAL:
            return begun + f"; its longest chain has {job.span:,} of them, so more slots won't help: let it spawn tasks"
        return begun + f"; its parallelism is {stat.parallelism:.1f}, so more slots and workers would help"
    yield from _each(slow, About.SLOW, say)


def _polls(it: Statistics) -> Iterator[Advice]:
    polls = it.asks["poll"]
    if polls >= POLLED * it.entries and polls >= 20:
        text = f"{polls:,} of {it.entries:,} entries went to polls: collect a job, rather than poll it"
        yield Advice(About.POLLS, text, [])


_FAULTS = {
    FaultCode.DIVISION: "test the divisor first",
    FaultCode.TOO_DEEP: "rows nest on a slot while they wait, 128 at most: spawn fewer levels, or larger leaves",
    FaultCode.TASK_LIMIT: "raise the tenant's `rows`, or wait for some rows before others are made",
    FaultCode.MISSING_WAIT: "wait for every group that was used before the row returns",
}


def _cure(job: Job) -> str:
    """What is usually done about the fault of a job."""
    code = there(job.fault).code
    if code is not FaultCode.FUEL:
        return _FAULTS[code]
    if job.given < GREATEST_FUEL:
        return f"it had {job.given:,}: raise its fuel, or look for an endless loop"
    return f"it had {job.given:,}, which is the most: split it into several jobs, or look for an endless loop"


def _faults(it: Statistics, source: SourceMap | None) -> Iterator[Advice]:
    def say(stat: JobStat) -> str:
        """The advice about one job."""
        fault = there(stat.job.fault)
        return (f"job {stat.number} had fault {fault.code.value}, {fault.code.text}, at "
                f"{place_of_fault(stat.job, source)}: {_cure(stat.job)}")
    yield from _each([stat for stat in it.jobs if stat.job.fault is not None], About.FAULT, say)

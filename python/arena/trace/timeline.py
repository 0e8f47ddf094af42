"""What a picture of a history shows, before it is drawn: the lives of rows as bars, what they executed, and requests.

Places are on one of the axes of `arena.trace.axis`. Slots and heights are those of the tenant: a bar lies on its slot
at its row's height, so that bars of a slot and a height never overlap. """
import sys
from collections.abc import Iterable
from dataclasses import dataclass, field

from arena.trace.axis import Axis, Meter
from arena.trace.dump import Tenant
from arena.trace.model import Happening, Job, Kind, Move, Row, State, there
from arena.trace.source import SourceMap


@dataclass(frozen=True, slots=True)
class Choice:
    """What is to be shown: an axis, the entries from `first` to `last` (both count; none is the end), one job or all.
    If neither end is given, one job is shown from its request to its end."""

    axis: Axis = Axis.ENTRIES
    first: int | None = None
    last: int | None = None
    job: int | None = None

    @property
    def is_near(self) -> bool:
        """Whether only the entries of the job's life are shown."""
        return self.job is not None and self.first is None and self.last is None

    def has_row(self, row: Row) -> bool:
        """Whether a row's job is shown."""
        return self.job is None or row.job.number == self.job


@dataclass(slots=True, eq=False)
class Run:
    """What a row executed in one entry."""

    entry: int
    begin: int
    end: int
    cost: int
    shared: str | None


@dataclass(slots=True, eq=False)
class Bar:
    """A row's life from its start to its end, or to the end of what is shown. `maker` is the bar of the row that made
    it, which is not there for roots and posts; `made_at` is where it was made."""

    row: Row
    name: str
    begin: int
    made_at: int
    maker: "Bar | None"
    end: int | None = None
    runs: list[Run] = field(default_factory=list)

    @property
    def until(self) -> int:
        """Its end, once the timeline is whole."""
        return there(self.end)

    @property
    def slot(self) -> int:
        """Its slot, from 0."""
        return there(self.row.slot)

    @property
    def height(self) -> int:
        """Its height on the slot's stack, from 1."""
        return there(self.row.height)

    @property
    def is_region(self) -> bool:
        """Whether it is a region."""
        return self.row.kind is Kind.REGION

    @property
    def is_faulted(self) -> bool:
        """Whether it ended with a fault, its own or one above it."""
        return self.row.state is State.FAULTED

    def words(self) -> str:
        """What the row is and did, in one line."""
        row = self.row
        made = f"made in entry {row.made}" + (f" on slot {row.made_on}" if row.is_taken else "")
        until = f"to {row.ended}" if row.ended else "on"
        state = row.state.value + (f" {row.value}" if row.state is State.RETURNED else "")
        return (f"row {row.number}: {row.kind.value} {self.name} of job {row.job.number}, {made}; entries "
                f"{row.started} {until}; {row.cost:,} instructions; {state}")


@dataclass(slots=True, eq=False)
class Mark:
    """A request, or a cancellation by a request or by a row (`is_cancel`)."""

    entry: int
    at: float
    text: str
    is_cancel: bool


@dataclass(frozen=True, slots=True)
class Wait:
    """A row that waited and was not started: where it was made, and where it was dropped or the timeline ends."""

    row: Row
    begin: int
    end: int


@dataclass(slots=True)
class Timeline:
    """All that is shown. `begin` and `end` are the ends of the axis; `heights` has for each slot its greatest
    height."""

    tenant: Tenant
    choice: Choice
    first: int = 0
    last: int = 0
    begin: int = 0
    end: int = 0
    heights: list[int] = field(default_factory=list)
    bars: list[Bar] = field(default_factory=list)
    marks: list[Mark] = field(default_factory=list)
    waits: list[Wait] = field(default_factory=list)
    jobs: dict[int, Job] = field(default_factory=dict)
    runs: int = 0

    @property
    def title(self) -> str:
        """The tenant and the entries that are shown."""
        return f"{self.tenant.name}: entries {self.first:,} to {self.last:,}"

    @property
    def subtitle(self) -> str:
        """What they hold."""
        def count(number: int, what: str) -> str:
            """A number of things."""
            return f"{number:,} {what}{'' if number == 1 else 's'}"
        it = self.tenant
        rows = len(self.bars) + len(self.waits)
        return (f"{count(rows, 'row')} of {count(len(self.jobs), 'job')}, {count(self.runs, 'run')}; "
                f"{count(it.slots, 'slot')}, {it.reserved} reserved; isolation {it.isolation}")


class Builder:
    """Gathers a timeline from what happened. It keeps what is shown, and what is live."""

    def __init__(self, tenant: Tenant, choice: Choice, source: SourceMap | None = None) -> None:
        self.timeline = Timeline(tenant, choice, heights=[1] * tenant.slots)
        self._source = source or SourceMap()
        self._names: dict[tuple[int, int], str] = {}
        self._meter = Meter(choice.axis, tenant.slots)
        self._live: dict[Row, Bar] = {}
        self._made_at: dict[Row, int] = {}  # rows that wait
        self._is_shown = False
        self._job: Job | None = None  # the one that is shown alone, since its request

    def take(self, happening: Happening) -> None:
        """Goes on by an entry."""
        it, meter = self.timeline, self._meter
        meter.take(happening)
        if self._job is None and happening.job is not None and happening.job.number == it.choice.job:
            self._job = happening.job
        self._is_shown = happening.number >= (it.choice.first or 1) and not (it.choice.is_near and self._job is None)
        if self._is_shown and not it.last:
            it.first, it.begin = happening.number, meter.begin
        if self._is_shown:
            it.last = happening.number
        if happening.move is Move.RAN:
            self._run(happening)
        elif happening.move is Move.ASKED:
            self._mark(happening, None)
        else:
            self._start(there(happening.row), meter.begin if it.choice.axis is Axis.ENTRIES else meter.end)
        made = happening.made
        if made is not None:
            self._made_at[made] = meter.end
            if made.started is not None:
                self._start(made, meter.end)
        for row in happening.ended:
            self._end(row)

    def is_over(self, happening: Happening) -> bool:
        """Whether nothing after an entry is to be shown."""
        choice = self.timeline.choice
        if choice.is_near:
            return self._job is not None and not self._job.open
        return choice.last is not None and happening.number >= choice.last

    def _start(self, row: Row, begin: int) -> None:
        made_at = self._made_at.pop(row)
        if self.timeline.choice.has_row(row):
            maker = None if row.maker is None else self._live.get(row.maker)
            self._live[row] = Bar(row, self._name(row), begin, made_at, maker)

    def _name(self, row: Row) -> str:
        key = row.job.number, row.proc
        if key not in self._names:
            self._names[key] = sys.intern(self._source.name_of(row.job.procs, row.proc))
        return self._names[key]

    def _run(self, happening: Happening) -> None:
        bar = None if happening.row is None else self._live.get(happening.row)
        if bar is not None and self._is_shown:
            bar.runs.append(Run(happening.number, self._meter.begin, self._meter.end, happening.cost, happening.shared))
        if happening.shared == "cancel" and self.timeline.choice.has_row(there(happening.row)):
            self._mark(happening, f"row {there(happening.row).number} cancels")

    def _mark(self, happening: Happening, text: str | None) -> None:
        choice = self.timeline.choice
        if not self._is_shown or choice.job is not None and (happening.job is None
                                                             or happening.job.number != choice.job):
            return
        reply = happening.reply or {}
        if text is None:
            text = " ".join(str(it) for it in (happening.op, reply.get("job", reply.get("epoch")), reply.get("error"))
                            if it is not None)
        is_cancel = happening.shared == "cancel" or happening.op == "cancel" and bool(reply.get("first"))
        self.timeline.marks.append(Mark(happening.number, (self._meter.begin + self._meter.end) / 2, text, is_cancel))

    def _end(self, row: Row) -> None:
        made_at = self._made_at.pop(row, None)
        if made_at is not None and self._is_shown and self.timeline.choice.has_row(row):
            self.timeline.waits.append(Wait(row, made_at, self._meter.end))
        bar = self._live.pop(row, None)
        if bar is not None and self._is_shown:
            bar.end = self._meter.end
            self._keep(bar)

    def _keep(self, bar: Bar) -> None:
        it = self.timeline
        it.bars.append(bar)
        it.runs += len(bar.runs)
        it.jobs[bar.row.job.number] = bar.row.job
        if bar.height > it.heights[bar.slot]:
            it.heights[bar.slot] = bar.height

    def end(self) -> Timeline:
        """The timeline. Rows that are still live end where it does."""
        it = self.timeline
        it.end = max(self._meter.end, it.begin + 1)
        for bar in self._live.values():
            bar.end = it.end
            self._keep(bar)
        it.waits += [Wait(row, made_at, it.end) for row, made_at in self._made_at.items() if it.choice.has_row(row)]
        for wait in it.waits:
            it.jobs.setdefault(wait.row.job.number, wait.row.job)
        it.bars.sort(key=lambda bar: (bar.begin, bar.height, bar.row.number))
        return it


def timeline_of(happenings: Iterable[Happening], tenant: Tenant, choice: Choice,
                source: SourceMap | None = None) -> Timeline:
    """What there is to draw of the entries of the choice. It reads no further than these."""
    builder = Builder(tenant, choice, source)
    for happening in happenings:
        builder.take(happening)
        if builder.is_over(happening):
            break
    return builder.end()

"""Merges bars and runs that are too short to be seen."""
from collections.abc import Iterable
from dataclasses import dataclass, field

from arena.trace.timeline import Bar


@dataclass(slots=True)
class Block:
    """Neighbouring bars of one slot and height, each shorter than can be seen. `executed` is how much of it is runs,
    in units of the axis; the rows have numbers from `first` to `last`, though not all of these; `job` is none if they
    are of several."""

    slot: int
    height: int
    begin: float
    end: float
    rows: int
    instructions: int
    executed: float
    first: int
    last: int
    job: int | None

    def add(self, bar: Bar) -> None:
        """Takes in a bar that begins at its end or later."""
        self.end = max(self.end, bar.until)
        self.rows += 1
        self.instructions += bar.row.cost
        self.executed += sum(run.end - run.begin for run in bar.runs)
        self.first, self.last = min(self.first, bar.row.number), max(self.last, bar.row.number)
        if self.job != bar.row.job.number:
            self.job = None

    def words(self) -> str:
        """What it stands for."""
        whose = f"of job {self.job}" if self.job is not None else "of several jobs"
        return (f"{self.rows:,} rows, {self.first} to {self.last}, {whose}, too short to be shown one by one; "
                f"{self.instructions:,} instructions")


@dataclass(frozen=True, slots=True)
class Stretch:
    """Runs of one bar that follow each other within what can be seen. `entry` is that of the first."""

    begin: float
    end: float
    runs: int
    cost: int
    entry: int
    shared: str | None


@dataclass(slots=True)
class Merged:
    """Bars that are long enough to be seen, and blocks of the others."""

    bars: list[Bar] = field(default_factory=list)
    blocks: list[Block] = field(default_factory=list)

    @property
    def hidden(self) -> int:
        """How many rows are in blocks."""
        return sum(block.rows for block in self.blocks)


def _block_of(bar: Bar) -> Block:
    row = bar.row
    executed = sum(run.end - run.begin for run in bar.runs)
    return Block(bar.slot, bar.height, bar.begin, bar.until, 1, row.cost, executed, row.number, row.number,
                 row.job.number)


def merge(bars: Iterable[Bar], least: float) -> Merged:
    """Keeps the bars that are at least so long, and puts the others into blocks: those of a slot and height that lie
    within this distance of each other. Bars come by their begin. A block of one bar becomes that bar again."""
    merged = Merged()
    last: dict[tuple[int, int], Block] = {}
    for bar in bars:
        lane = bar.slot, bar.height
        block = last.get(lane)
        if bar.until - bar.begin >= least:
            merged.bars.append(bar)
            last.pop(lane, None)
        elif block is not None and bar.begin - block.end < least:
            block.add(bar)
        else:
            last[lane] = block = _block_of(bar)
            merged.blocks.append(block)
    return merged


def stretches(bar: Bar, least: float) -> list[Stretch]:
    """A bar's runs, those that lie within this distance of each other as one."""
    found: list[Stretch] = []
    for run in bar.runs:
        if found and run.begin - found[-1].end < least:
            it = found[-1]
            found[-1] = Stretch(it.begin, max(run.end, it.end), it.runs + 1, it.cost + run.cost, it.entry, None)
        else:
            found.append(Stretch(run.begin, run.end, 1, run.cost, run.entry, run.shared))
    return found


def least_for(bars: list[Bar], length: float, most: int) -> float:
    """The least length of a bar so that about this many, with their runs, are longer; 0 if all are that few."""
    if sum(1 + len(bar.runs) for bar in bars) <= most:
        return 0.0
    lengths = sorted(((bar.until - bar.begin, 1 + len(bar.runs)) for bar in bars), reverse=True)
    kept = 0.0
    for at, weight in lengths:
        kept += min(weight, 1 + at * most / max(length, 1))
        if kept > most:
            return float(at) + length / most
    return length / most

"""Rows that wait to be started: one by one if they are few, else how many there are."""
import heapq
from collections import Counter
from dataclasses import dataclass

from arena.trace.timeline import Timeline


@dataclass(frozen=True, slots=True)
class Waiting:
    """A row's wait on the axis, in a lane in which no other wait overlaps it. `job` and `row` are numbers."""

    begin: int
    end: int
    job: int
    row: int
    lane: int


@dataclass(frozen=True, slots=True)
class Level:
    """How many rows wait from a place of the axis on."""

    at: float
    rows: int


def waits_of(timeline: Timeline) -> list[Waiting]:
    """All waits that are shown, by their begin, each in the first lane that is free. Those without length are left
    out."""
    spans = [(max(bar.made_at, timeline.begin), bar.begin, bar.row) for bar in timeline.bars]
    spans += [(max(wait.begin, timeline.begin), wait.end, wait.row) for wait in timeline.waits]
    free: list[int] = []
    busy: list[tuple[int, int]] = []
    found: list[Waiting] = []
    for begin, end, row in sorted((span for span in spans if span[1] > span[0]),
                                  key=lambda span: (span[0], span[2].number)):
        while busy and busy[0][0] <= begin:
            heapq.heappush(free, heapq.heappop(busy)[1])
        lane = heapq.heappop(free) if free else len(busy)
        heapq.heappush(busy, (end, lane))
        found.append(Waiting(begin, end, row.job.number, row.number, lane))
    return found


def levels_of(waits: list[Waiting], least: float) -> list[Level]:
    """How many rows wait, where that changes; of changes within this distance the greatest number is kept."""
    changes: Counter[int] = Counter()
    for wait in waits:
        changes[wait.begin] += 1
        changes[wait.end] -= 1
    levels: list[Level] = []
    rows = 0
    for at in sorted(changes):
        before, rows = rows, rows + changes[at]
        last = levels[-1] if levels else Level(at - least, 0)
        if levels and at - last.at < least:
            levels[-1] = Level(last.at, max(last.rows, rows))
            continue
        if last.rows != before and last.at + least < at:
            levels.append(Level(round(last.at + least, 2), before))
        levels.append(Level(at, rows))
    if levels and levels[-1].rows != rows:
        levels.append(Level(round(levels[-1].at + least, 2), rows))
    return levels

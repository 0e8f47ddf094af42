"""A timeline as one page that needs nothing else: it zooms, finds rows and jobs, and shows what a row did."""
import json
import os
from collections.abc import Iterable
from html import escape
from typing import Any

from arena.trace.model import Job, there
from arena.trace.merge import Merged, Stretch, least_for, merge, stretches
from arena.trace.svg import PALETTE
from arena.trace.timeline import Bar, Mark, Timeline
from arena.trace.waiting import levels_of, waits_of

# The greatest size of a page, in bytes, and how many bars and runs fit it for sure.
MOST_BYTES = 5_000_000
MOST_SHAPES = 200_000
# How many changes of the number of rows that wait are kept at most.
MOST_LEVELS = 8_000
# Beyond this a number is no longer exact in JavaScript.
EXACT = 2**53


def page(timeline: Timeline) -> str:
    """The page, of at most 5,000,000 bytes. What is too short to fit is merged, and the page says from which length
    on."""
    least = least_for(timeline.bars, timeline.end - timeline.begin, MOST_SHAPES)
    while True:
        text = _page(timeline, least)
        if len(text.encode()) <= MOST_BYTES:
            return text
        least = max(1.0, 1.5 * least)


def _page(timeline: Timeline, least: float) -> str:
    merged = merge(timeline.bars, least)
    data = json.dumps(_data(timeline, merged, least), separators=(",", ":")).replace("<", "\\u003c")
    parts = {"TITLE": escape(timeline.title), "SUBTITLE": escape(timeline.subtitle),
             "NOTE": escape(_note(timeline, merged, least)),
             "STYLE": _file("page.css"), "SCRIPT": _file("page.js"), "DATA": data}
    text = _file("page.html")
    for name, part in parts.items():
        text = text.replace(f"@{name}@", part)
    return text


def _file(name: str) -> str:
    with open(os.path.join(os.path.dirname(__file__), name), encoding="utf-8") as it:
        return it.read()


def _note(timeline: Timeline, merged: Merged, least: float) -> str:
    if not least:
        return "Every row and run is here."
    unit = "entries" if timeline.choice.axis.value == "entries" else "instructions"
    return (f"To keep the page small, {merged.hidden:,} of {len(timeline.bars):,} rows, each shorter than {least:,.0f} "
            f"{unit}, are merged into {len(merged.blocks):,} blocks; arena timeline --from, --to or --job shows them.")


class Column(list[Any]):
    """Numbers that mostly rise, as their differences."""

    def __init__(self, numbers: Iterable[float]) -> None:
        super().__init__()
        last: float = 0
        for number in numbers:
            self.append(number - last)
            last = number


def _data(timeline: Timeline, merged: Merged, least: float) -> dict[str, Any]:
    names: dict[str, int] = {}
    for bar in merged.bars:
        names.setdefault(bar.name, len(names))
    jobs = sorted(timeline.jobs)
    places = {bar: at for at, bar in enumerate(merged.bars)}
    return {"axis": timeline.choice.axis.title, "begin": timeline.begin, "end": timeline.end, "palette": PALETTE,
            "reserved": timeline.tenant.reserved, "heights": timeline.heights,
            "byProc": timeline.choice.job is not None,
            "names": list(names), "jobs": [[number, _result(timeline.jobs[number]), timeline.jobs[number].work]
                                           for number in jobs],
            "kinds": ["root", "task", "post", "region"], "states": ["waiting", "live", "returned", "dropped",
                                                                    "faulted"],
            "bars": _bars(merged.bars, names, places), "runs": _runs(merged.bars, least), "blocks": _blocks(merged),
            "marks": _marks(timeline.marks, least),
            "waiting": [[level.at, level.rows] for level in
                        levels_of(waits_of(timeline), max(least, (timeline.end - timeline.begin) / MOST_LEVELS))]}


def _result(job: Job) -> str:
    return f"{job.result}, {there(job.fault).code.text}" if job.outcome == "fault" else job.result


def _value(bar: Bar) -> int | str | None:
    value = bar.row.value
    return value if value is None or abs(value) < EXACT else str(value)


def _bars(bars: list[Bar], names: dict[str, int], places: dict[Bar, int]) -> dict[str, Any]:
    kinds, states = ["root", "task", "post", "region"], ["waiting", "live", "returned", "dropped", "faulted"]
    rows = [bar.row for bar in bars]
    return {"row": Column(row.number for row in rows), "job": Column(row.job.number for row in rows),
            "kind": [kinds.index(row.kind.value) for row in rows], "name": [names[bar.name] for bar in bars],
            "proc": [row.proc for row in rows], "slot": [row.slot for row in rows],
            "height": [row.height for row in rows],
            "begin": Column(bar.begin for bar in bars), "length": [bar.until - bar.begin for bar in bars],
            "cost": [row.cost for row in rows], "state": [states.index(row.state.value) for row in rows],
            "value": [_value(bar) for bar in bars], "made": Column(row.made for row in rows),
            "madeOn": [-1 if row.made_on is None else row.made_on for row in rows],
            "waited": [bar.begin - bar.made_at for bar in bars],
            "maker": [-1 if bar.maker is None else places.get(bar.maker, -1) for bar in bars],
            "started": Column(there(row.started) for row in rows),
            "ended": [row.ended - there(row.started) if row.ended else -1 for row in rows]}


def _runs(bars: list[Bar], least: float) -> dict[str, Any]:
    found: list[tuple[int, Bar, Stretch]] = [(at, bar, it) for at, bar in enumerate(bars)
                                             for it in stretches(bar, least)]
    return {"bar": Column(at for at, _, _ in found), "begin": [it.begin - bar.begin for _, bar, it in found],
            "length": [it.end - it.begin for _, _, it in found], "entry": [it.entry - there(bar.row.started) for _, bar,
                                                                           it in found],
            "cost": [it.cost if it.cost != it.end - it.begin else 0 for _, _, it in found],
            "count": [it.runs for _, _, it in found], "then": [it.shared or 0 for _, _, it in found]}


def _blocks(merged: Merged) -> dict[str, Any]:
    it = merged.blocks
    return {"slot": [b.slot for b in it], "height": [b.height for b in it], "begin": Column(b.begin for b in it),
            "length": [b.end - b.begin for b in it], "rows": [b.rows for b in it], "cost": [b.instructions for b in it],
            "first": Column(b.first for b in it), "last": [b.last - b.first for b in it],
            "job": [b.job or 0 for b in it]}


def _marks(marks: list[Mark], least: float) -> list[list[Any]]:
    """Marks as place, entry, text, whether it is a cancellation, how many; those that are too near are one."""
    found: list[list[Any]] = []
    for mark in marks:
        last = found[-1] if found else None
        if last and last[3] == mark.is_cancel and mark.at - last[0] < least:
            last[4] += 1
        else:
            found.append([mark.at, mark.entry, mark.text, mark.is_cancel, 1])
    return found

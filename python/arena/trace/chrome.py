"""A timeline as trace events, which Perfetto and chrome://tracing read.

The tenant is a process, each slot a thread. A row is a slice; what it executes are slices within it. A flow leads
from where a row was made to the other slot that took it. The counter `rows` has how many wait and how many are live.
A unit of the axis is a microsecond. """
import json
from collections import Counter
from collections.abc import Iterator
from typing import Any

from arena.trace.model import there
from arena.trace.timeline import Bar, Timeline

REQUESTS = 0  # the thread of requests; that of a slot is 1 and its number


def chrome(timeline: Timeline) -> str:
    """The trace, as JSON with an event a line."""
    events = ",\n".join(map(json.JSONEncoder(separators=(",", ":")).encode, _events(timeline)))
    about = {"axis": timeline.choice.axis.title, "tenant": timeline.tenant.to_value()}
    return f'{{"displayTimeUnit":"ms","otherData":{json.dumps(about)},"traceEvents":[\n{events}\n]}}\n'


def _events(timeline: Timeline) -> Iterator[dict[str, Any]]:
    yield from _names(timeline)
    for bar in timeline.bars:
        yield _slice(bar)
        yield from _runs(bar)
        if bar.row.is_taken:
            flow = {"pid": 1, "id": bar.row.number, "name": "taken", "cat": "taken"}
            yield {"ph": "s", "tid": there(bar.row.made_on) + 1, "ts": bar.made_at, **flow}
            yield {"ph": "f", "bp": "e", "tid": bar.slot + 1, "ts": bar.begin, **flow}
    for mark in timeline.marks:
        yield {"ph": "i", "s": "t", "pid": 1, "tid": REQUESTS, "ts": mark.at, "name": mark.text,
               "args": {"entry": mark.entry}}
    yield from _counters(timeline)


def _names(timeline: Timeline) -> Iterator[dict[str, Any]]:
    tenant = timeline.tenant
    yield {"ph": "M", "pid": 1, "name": "process_name", "args": {"name": f"tenant {tenant.name}"}}
    names = ["requests", *(f"slot {it}{' (reserved)' if it < tenant.reserved else ''}" for it in range(tenant.slots))]
    for tid, name in enumerate(names):
        yield {"ph": "M", "pid": 1, "tid": tid, "name": "thread_name", "args": {"name": name}}
        yield {"ph": "M", "pid": 1, "tid": tid, "name": "thread_sort_index", "args": {"sort_index": tid}}


def _slice(bar: Bar) -> dict[str, Any]:
    row = bar.row
    value = {} if row.value is None else {"value": str(row.value)}
    return {"ph": "X", "pid": 1, "tid": bar.slot + 1, "ts": bar.begin, "dur": bar.until - bar.begin,
            "cat": row.kind.value,
            "name": f"region {bar.name}" if bar.is_region else bar.name,
            "args": {"row": row.number, "job": row.job.number, "state": row.state.value, "instructions": row.cost,
                     "made_in_entry": row.made, "made_on_slot": row.made_on, **value}}


def _runs(bar: Bar) -> Iterator[dict[str, Any]]:
    for run in bar.runs:
        if run.end > run.begin:
            yield {"ph": "X", "pid": 1, "tid": bar.slot + 1, "ts": run.begin, "dur": run.end - run.begin, "name": "run",
                   "cat": "run",
                   "args": {"entry": run.entry, "instructions": run.cost, "then": run.shared}}


def _counters(timeline: Timeline) -> Iterator[dict[str, Any]]:
    """How many rows wait and are live. Rows that wait or live at the end are counted until then, so both end at
    zero."""
    waiting: Counter[int] = Counter()
    live: Counter[int] = Counter()
    for bar in timeline.bars:
        waiting[max(bar.made_at, timeline.begin)] += 1
        waiting[max(bar.begin, timeline.begin)] -= 1
        live[max(bar.begin, timeline.begin)] += 1
        live[bar.until] -= 1
    for wait in timeline.waits:
        waiting[max(wait.begin, timeline.begin)] += 1
        waiting[wait.end] -= 1
    now = {"live": 0, "waiting": 0}
    for at in sorted(waiting.keys() | live.keys()):
        now = {"live": now["live"] + live[at], "waiting": now["waiting"] + waiting[at]}
        yield {"ph": "C", "pid": 1, "ts": at, "name": "rows", "args": now}

"""Statistics as a page of text, as JSON and as CSV."""
import csv
import io
from collections.abc import Sequence
from typing import Any

from arena.trace.advice import advice_of
from arena.trace.source import SourceMap
from arena.trace.stats import JobStat, SlotStat, Statistics, place_of_fault

JOB_COLUMNS = ("job", "made_by", "outcome", "asked", "started", "ended", "waited_entries", "waited_instructions",
               "took_entries",
               "took_instructions", "work", "span", "parallelism", "fuel_given", "fuel_used", "rows", "taken", "height",
               "fault",
               "fault_place")


def job_value(stat: JobStat, last: int, source: SourceMap | None) -> dict[str, Any]:
    """A job as JSON. Entries are numbered from 1; those that did not come are null."""
    job = stat.job
    return {"job": job.number, "made_by": "execute" if job.is_executed else "submit", "outcome": job.result,
            "asked": job.asked, "started": job.started, "ended": job.ended, "waited_entries": stat.waited_entries(last),
            "waited_instructions": stat.waited_instructions, "took_entries": stat.took_entries,
            "took_instructions": stat.took_instructions, "work": job.work, "span": job.span,
            "parallelism": round(stat.parallelism, 2), "fuel_given": job.given, "fuel_used": job.given - job.left,
            "rows": job.rows, "taken": job.taken, "height": job.highest,
            "fault": job.fault and job.fault.code.value, "fault_place": place_of_fault(job, source)}


def slot_value(it: Statistics, slot: SlotStat) -> dict[str, Any]:
    """A slot as JSON; `busy` and `occupied` are shares from 0 to 1."""
    return {"slot": slot.number, "reserved": slot.reserved, "busy": round(it.busy(slot), 4),
            "occupied": round(slot.occupied / max(it.entries, 1), 4), "runs": slot.runs,
            "instructions": slot.instructions, "rows": slot.rows, "taken": slot.taken}


def to_value(it: Statistics, source: SourceMap | None = None) -> dict[str, Any]:
    """All statistics as JSON."""
    return {"tenant": it.tenant.to_value(), "entries": it.entries, "fill": round(it.fill, 4),
            "asks": dict(sorted(it.asks.items())), "errors": dict(sorted(it.errors.items())), "starts": it.starts, "runs": it.runs, "rows": it.rows,
            "most_open_rows": it.most_open, "work": it.work, "length": it.length, "at_once": round(it.at_once, 2),
            "slots": [slot_value(it, slot) for slot in it.slots],
            "jobs": [job_value(stat, it.entries, source) for stat in it.jobs],
            "advice": [{"about": one.about.value, "jobs": one.jobs, "text": one.text} for one in advice_of(it, source)]}


def to_csv(it: Statistics, source: SourceMap | None = None) -> str:
    """The jobs, a line each, under a line of names."""
    text = io.StringIO()
    writer = csv.DictWriter(text, JOB_COLUMNS, lineterminator="\n")
    writer.writeheader()
    for stat in it.jobs:
        writer.writerow(job_value(stat, it.entries, source))
    return text.getvalue()


def table(head: tuple[str, ...], rows: Sequence[Sequence[object]], left: tuple[int, ...] = ()) -> str:
    """Columns as wide as their widest text, flush right but those in `left`."""
    texts = [list(head), *[["" if it is None else str(it) for it in row] for row in rows]]
    widths = [max(len(row[at]) for row in texts) for at in range(len(head))]
    return "\n".join("  ".join(text.ljust(width) if at in left else text.rjust(width)
                               for at, (text, width) in enumerate(zip(row, widths))).rstrip() for row in texts)


def _head(it: Statistics) -> str:
    asks = ", ".join(f"{op} {count:,}" for op, count in it.asks.most_common())
    polls = it.asks["poll"]
    lines = [f"tenant {it.tenant.name}: {it.entries:,} of {it.tenant.steps:,} entries ({100 * it.fill:.1f} % of the "
             f"history)",
             f"  {sum(it.asks.values()):,} requests{f' ({asks})' if asks else ''}, {it.starts:,} starts of rows, "
             f"{it.runs:,} runs; polls took {100 * polls / max(it.entries, 1):.1f} % of the entries",
             f"  {it.work:,} instructions in {it.rows:,} rows, at most {it.most_open:,} of {it.tenant.rows:,} open at "
             f"once; {it.at_once:.2f} slots busy on average"]
    if it.errors:
        lines.append("  error replies: " + ", ".join(f"{name} {count:,}" for name, count in it.errors.most_common()))
    return "\n".join(lines)


def _job_row(stat: JobStat, last: int) -> list[object]:
    job = stat.job
    outcome = job.result if len(job.result) <= 20 else job.result[:17] + "..."
    return [job.number, outcome, f"{stat.waited_entries(last):,}", f"{stat.took_entries:,}",
            f"{stat.took_instructions:,}",
            f"{job.work:,}", f"{job.span:,}", f"{stat.parallelism:.1f}", f"{100 * stat.fuel_used:.1f} %",
            f"{job.rows:,}",
            f"{job.taken:,}", job.highest]


def to_text(it: Statistics, source: SourceMap | None = None, top: int | None = 20) -> str:
    """A page: the tenant, its slots, its jobs by their work (the first `top` of them, or all if that is none), and
    what to change."""
    slots = [[f"{slot.number}{' reserved' if slot.reserved else ''}", f"{100 * it.busy(slot):.0f} %",
              f"{100 * slot.occupied / max(it.entries, 1):.0f} %", f"{slot.runs:,}", f"{slot.instructions:,}",
              f"{slot.rows:,}",
              f"{slot.taken:,}"] for slot in it.slots]
    jobs = sorted(it.jobs, key=lambda stat: -stat.job.work)
    shown = jobs if top is None else jobs[:top]
    parts = [_head(it), table(("slot", "busy", "occupied", "runs", "instructions", "rows", "from other slots"), slots,
                              (0,)),
             table(("job", "outcome", "waited", "took", "took instr.", "work", "span", "parallel", "fuel used", "rows",
                    "moved",
                    "height"), [_job_row(stat, it.entries) for stat in shown], (1,))]
    if len(jobs) > len(shown):
        parts[-1] += f"\n.. and {len(jobs) - len(shown):,} jobs of less work; --all shows them"
    advice = advice_of(it, source)
    if advice:
        parts.append("what to change\n" + "\n".join(f"  - {one.text}" for one in advice))
    return "\n\n".join(parts)

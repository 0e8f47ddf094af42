"""The page of a tenant: its counts, rates, times, latest faults and jobs. It runs no script, and needs nothing from elsewhere."""
import base64
import hashlib
import math
import time
from collections.abc import Iterable, Mapping, Sequence
from html import escape

from arena.queue.figures import Histogram, What
from arena.queue.http.lines import Place
from arena.queue.http.view import MINUTES, View
from arena.queue.model import SECOND, Job, State, now
from arena.replies import FaultCode

REFRESH = 5
"""After how many seconds the page is asked for again."""

STYLE = """
:root { color-scheme: light dark; --line: #8884; --soft: #767676; --good: #1a7f37; --bad: #cf222e; --work: #0969da; }
body { font: 15px/1.45 system-ui, sans-serif; margin: 2rem auto; max-width: 76rem; padding: 0 1rem; }
h1 { font-size: 1.3rem; } h2 { font-size: 1rem; margin-top: 2rem; }
ul { display: flex; flex-wrap: wrap; gap: .75rem; list-style: none; padding: 0; }
li { border: 1px solid var(--line); border-radius: .5rem; color: var(--soft); min-width: 6.5rem; padding: .5rem .9rem; }
li b { color: CanvasText; display: block; font-size: 1.5rem; font-variant-numeric: tabular-nums; font-weight: 600; }
table { border-collapse: collapse; width: 100%; }
th, td { border-bottom: 1px solid var(--line); padding: .3rem .6rem; text-align: left; }
th, p { color: var(--soft); font-weight: 500; }
td.n, th.n { font-variant-numeric: tabular-nums; text-align: right; white-space: nowrap; }
b.complete, td.complete { color: var(--good); } b.running, td.running { color: var(--work); }
b.fault, td.fault, b.dead, td.dead { color: var(--bad); }
code { font-size: .9em; overflow-wrap: anywhere; }
"""
_HASH = base64.b64encode(hashlib.sha256(STYLE.encode()).digest()).decode()
HEADERS = {
    "Content-Security-Policy": f"default-src 'none'; style-src 'sha256-{_HASH}'; base-uri 'none'; form-action 'none'; "
                               "frame-ancestors 'none'",
    "Cache-Control": "no-store", "Referrer-Policy": "no-referrer", "X-Content-Type-Options": "nosniff"}


def page(view: View, places: Mapping[int, Place | None]) -> str:
    """The page; `places` are those of the faults, by the numbers of their jobs."""
    tenant, numbers = escape(view.numbers.tenant), view.numbers
    boxes = "".join(f'<li><b class="{state.value}">{count:,}</b>{state.value}</li>' for state, count in numbers.jobs.items())
    alive = f"{numbers.dispatchers} dispatcher{'' if numbers.dispatchers == 1 else 's'}"
    return (f'<!doctype html><html lang="en"><head><meta charset="utf-8"><meta http-equiv="refresh" content="{REFRESH}">'
            f'<meta name="viewport" content="width=device-width"><title>{tenant}: jobs</title><style>{STYLE}</style></head>'
            f'<body><h1>Jobs of {tenant}</h1><ul id="states">{boxes}</ul>'
            f"<h2>The last {MINUTES} minutes</h2>{_times(view)}<p>{alive}; this page asks again every {REFRESH} seconds.</p>"
            f"<h2>The latest faults</h2>{_faults(view, places)}<h2>The latest jobs</h2>{_jobs(view.jobs)}</body></html>")


def _table(name: str, heads: Iterable[str], rows: Iterable[str]) -> str:
    """A table; a head that begins with a dash is that of numbers."""
    cells = "".join(f'<th class="n">{it[1:]}</th>' if it.startswith("-") else f"<th>{it}</th>" for it in heads)
    return f'<table id="{name}"><thead><tr>{cells}</tr></thead><tbody>{"".join(rows)}</tbody></table>'


def _times(view: View) -> str:
    seconds = 60 * (MINUTES - 1) + now() // SECOND % 60

    def row(name: str, of: Histogram, age: float | None) -> str:
        """How many there were, and how long they took."""
        rate = f"{of.jobs / seconds:,.2f}"
        within = (_within(of.within(share)) for share in (.5, .95, .99))
        oldest = "" if age is None else f"{age:,.1f} s"
        cells = "".join(f'<td class="n">{it}</td>' for it in (f"{of.jobs:,}", rate, *within, oldest))
        return f"<tr><td>{name}</td>{cells}</tr>"

    latest, made = view.latest, view.latest[What.MADE]
    plain = "".join(f'<td class="n">{it}</td>' for it in (f"{made.jobs:,}", f"{made.jobs / seconds:,.2f}", "", "", "", ""))
    return _table("times", ("", "-jobs", "-a second", "-half within", "-95 % within", "-99 % within", "-the oldest now"),
                  (f"<tr><td>submitted</td>{plain}</tr>",
                   row("waited, until they were claimed", latest[What.WAITED], view.numbers.ready_age),
                   row("ran, from the claim to the outcome", latest[What.RAN], view.numbers.running_age)))


def _within(seconds: float | None) -> str:
    if seconds is None:
        return ""
    if math.isinf(seconds):
        return "longer"
    return f"{seconds * 1000:g} ms" if seconds < 1 else f"{seconds:g} s"


def _faults(view: View, places: Mapping[int, Place | None]) -> str:
    if not view.faults:
        return "<p>None is kept.</p>"

    def row(job: Job) -> str:
        """A fault, and where it was."""
        place = places.get(job.job)
        where, line = ("", "") if place is None else (escape(place.name), f"<code>{escape(place.text)}</code>")
        return (f'<tr><td class="n">{job.job}</td><td class="fault">{escape(FaultCode(job.fault or 0).text)}</td><td>{where}</td>'
                f'<td>{line}</td><td class="n">{job.args[0]}, {job.args[1]}</td><td>{escape(job.key or "")}</td>'
                f'<td class="n">{_ago(job.ended_at or 0)}</td></tr>')
    return _table("faults", ("-job", "fault", "place", "line", "-arguments", "key", "-ended"),
                  (row(job) for job, _, _ in view.faults))


def _jobs(jobs: Sequence[Job]) -> str:
    return _table("jobs", ("-job", "state", "-outcome", "-arguments", "program", "key", "-attempts", "-made", "-took"), map(_row, jobs))


def _row(job: Job) -> str:
    match job.state:
        case State.COMPLETE:
            outcome = f"{job.value}"
        case State.FAULT:
            outcome = f"fault {job.fault}"
        case _:
            outcome = job.error or ""
    took = "" if job.ended_at is None else f"{(job.ended_at - job.made_at) / 1000:,.1f} ms"
    return (f'<tr><td class="n">{job.job}</td><td class="{job.state.value}">{job.state.value}</td><td class="n">{escape(outcome)}</td>'
            f'<td class="n">{job.args[0]}, {job.args[1]}</td><td><code>{job.program[:10]}</code>'
            f'{"" if job.is_serial else " not serial"}</td><td>{escape(job.key or "")}</td><td class="n">{job.attempts}</td>'
            f'<td class="n">{_ago(job.made_at)}</td><td class="n">{took}</td></tr>')


def _ago(at: int) -> str:
    seconds = (now() - at) / SECOND
    return f"{max(0.0, seconds):.0f} s ago" if seconds < 600 else time.strftime("%F %T", time.localtime(at / SECOND))

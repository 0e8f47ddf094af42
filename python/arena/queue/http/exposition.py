"""The numbers of a tenant as text for Prometheus, in its format 0.0.4."""
from collections.abc import Iterator, Mapping

from arena.queue.figures import BOUNDS, Histogram, What
from arena.queue.http.view import Numbers
from arena.queue.model import SECOND

TYPE = "text/plain; version=0.0.4; charset=utf-8"


def exposed(it: Numbers) -> str:
    """The whole text."""
    return "\n".join(_lines(it)) + "\n"


def _lines(it: Numbers) -> Iterator[str]:
    tenant = f'tenant="{_escaped(it.tenant)}"'
    yield from _metric("jobs", "gauge", "How many jobs there are, by their state.",
                       {f'{tenant},state="{state.value}"': count for state, count in it.jobs.items()})
    yield from _metric("entered_total", "counter", "How often a job has come into a state.",
                       {f'{tenant},state="{state.value}"': count for state, count in it.entered.items()})
    yield from _metric("submitted_total", "counter", "How many jobs were submitted.", {tenant: it.figures[What.MADE].jobs})
    yield from _metric("oldest_seconds", "gauge", "For how long the oldest job is ready, or running; 0 if none is.",
                       {f'{tenant},state="ready"': it.ready_age, f'{tenant},state="running"': it.running_age})
    yield from _histogram("wait_seconds", "How long jobs were ready before they were claimed.", tenant, it.figures[What.WAITED])
    yield from _histogram("run_seconds", "How long attempts took that gave the outcome, from the claim to the host's answer.",
                          tenant, it.figures[What.RAN])
    yield from _metric("dispatchers", "gauge", "How many dispatchers have a lease.", {"": it.dispatchers})


def _metric(name: str, kind: str, help: str, values: Mapping[str, float]) -> Iterator[str]:
    yield f"# HELP arena_queue_{name} {help}"
    yield f"# TYPE arena_queue_{name} {kind}"
    yield from (f"arena_queue_{name}{f'{{{labels}}}' if labels else ''} {value}" for labels, value in values.items())


def _histogram(name: str, help: str, tenant: str, of: Histogram) -> Iterator[str]:
    yield f"# HELP arena_queue_{name} {help}"
    yield f"# TYPE arena_queue_{name} histogram"
    jobs = 0
    for bound, more in zip([*(f"{it / SECOND:g}" for it in BOUNDS), "+Inf"], of.buckets, strict=True):
        jobs += more
        yield f'arena_queue_{name}_bucket{{{tenant},le="{bound}"}} {jobs}'
    yield f"arena_queue_{name}_sum{{{tenant}}} {of.micros / SECOND}"
    yield f"arena_queue_{name}_count{{{tenant}}} {jobs}"


def _escaped(text: str) -> str:
    return text.replace("\\", "\\\\").replace('"', '\\"').replace("\n", "\\n")

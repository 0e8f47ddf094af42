"""A host's status in Prometheus' text exposition format, version 0.0.4.

Each count of a tenant has the label `term`, since it begins anew with each term: it grows as long as its term is open, and
then its series ends. So no series goes backwards when a term closes; a sum over terms does, and one takes the rate first:
`sum by (tenant) (rate(arena_requests_total[5m]))`. The number of a term never comes again in a run folder.
"""
import enum
from collections.abc import Callable, Iterable, Iterator, Mapping
from dataclasses import dataclass, field

from arena.host.status import ClosedTerm, HostStatus, State, Term

JOB_STATUSES = ("running", "complete", "canceled", "fault")

CONTENT_TYPE = "text/plain; version=0.0.4; charset=utf-8"


class Kind(enum.Enum):
    """What may become of a value: a counter only grows, a gauge goes both ways."""

    COUNTER = "counter"
    GAUGE = "gauge"


@dataclass(frozen=True, slots=True)
class Sample:
    """A value with its labels."""

    value: int | float
    labels: Mapping[str, str] = field(default_factory=dict)


@dataclass(frozen=True, slots=True)
class Family:
    """A metric: its name, what it is, and its samples, no two of which have the same labels."""

    name: str
    kind: Kind
    help: str
    samples: list[Sample]

    def lines(self) -> Iterator[str]:
        """Its lines: HELP, TYPE, and one for each sample. None, if it has no samples."""
        if self.samples:
            yield f"# HELP {self.name} {escaped_help(self.help)}"
            yield f"# TYPE {self.name} {self.kind.value}"
            yield from (f"{self.name}{labelled(it.labels)} {it.value}" for it in self.samples)


def exposition(families: Iterable[Family]) -> str:
    """The text that Prometheus reads."""
    return "".join(f"{line}\n" for family in families for line in family.lines())


def escaped_help(text: str) -> str:
    """A text as it stands after HELP."""
    return text.replace("\\", "\\\\").replace("\n", "\\n")


def labelled(labels: Mapping[str, str]) -> str:
    """Labels in braces; nothing, if there are none."""
    pairs = ",".join(f'{name}="{_escaped(value)}"' for name, value in labels.items())
    return f"{{{pairs}}}" if pairs else ""


def _escaped(value: str) -> str:
    """The value of a label as it stands between quotes."""
    return value.replace("\\", "\\\\").replace('"', '\\"').replace("\n", "\\n")


def families_of(status: HostStatus | None) -> list[Family]:
    """The metrics of a host. None is for a host that gives no status of now, of which only that is said."""
    up = Family("arena_up", Kind.GAUGE, "Whether the host's status is there and at most 5 seconds old.",
                [Sample(int(status is not None))])
    if status is None:
        return [up]
    return [up, *_host(status), *_tenants(status), *_workers(status), *_terms(status), *_closed(status)]


def _host(it: HostStatus) -> Iterator[Family]:
    def gauge(name: str, help: str, value: int | float) -> Family:
        """A metric with one sample."""
        return Family(name, Kind.GAUGE, help, [Sample(value)])

    yield gauge("arena_status_timestamp_seconds", "When the status was written, in seconds since 1970.", it.time)
    yield gauge("arena_start_time_seconds", "When the host began, in seconds since 1970.", it.began)
    if it.memory is not None:
        yield gauge("arena_resident_memory_bytes", "Resident memory of the host.", it.memory)
    yield gauge("arena_connections_limit", "How many connections are served at a time.", it.connections)
    yield gauge("arena_connections", "Sessions that serve a client now.", it.connected)
    yield Family("arena_connections_served_total", Kind.COUNTER, "Connections so far.", [Sample(it.served)])
    yield Family("arena_connections_cut_total", Kind.COUNTER, "Connections that the host ended since they did nothing.",
                 [Sample(it.cut.hello, {"why": "hello"}), Sample(it.cut.idle, {"why": "idle"})])
    yield gauge("arena_tenant_connections_limit", "How many connections may be bound to one tenant.", it.tenant_connections)
    yield gauge("arena_hello_limit_seconds", "How long a connection has until its hello is answered; 0 for any time.",
                it.hello_seconds)
    yield gauge("arena_idle_limit_seconds", "How long a connection may ask nothing; 0 for any time.", it.idle_seconds)
    yield gauge("arena_rotate_at_ratio", "How full a history may be before the host rotates, from 0 to 1.",
                it.rotate_at / 100)
    yield gauge("arena_finish_seconds", "How long jobs have to end once the host is to stop.", it.finish)
    yield gauge("arena_dumps_limit", "How many dumps of each tenant are kept.", it.keep)


def _tenants(status: HostStatus) -> Iterator[Family]:
    bound = [Sample(it.connected, {"tenant": it.tenant}) for it in status.tenants]
    yield Family("arena_tenant_connections", Kind.GAUGE, "Connections that are bound to a tenant now.", bound)
    refused = [Sample(it.refused, {"tenant": it.tenant}) for it in status.tenants]
    yield Family("arena_hellos_refused_total", Kind.COUNTER,
                 "Hellos that were refused since their tenant had as many connections as it may.", refused)


def _workers(status: HostStatus) -> Iterator[Family]:
    waiting = sum(it.tenant is None for it in status.workers)
    yield Family("arena_workers", Kind.GAUGE, "Workers, with a tenant or waiting for a call.", [Sample(len(status.workers))])
    yield Family("arena_workers_waiting", Kind.GAUGE, "Workers that wait for a call.", [Sample(waiting)])
    at_tenants = [Sample(status.workers_at(name), {"tenant": name}) for name in dict.fromkeys(it.tenant for it in status.terms)]
    yield Family("arena_workers_at_tenant", Kind.GAUGE, "Workers that were last at a slot of a tenant.", at_tenants)


def _terms(status: HostStatus) -> Iterator[Family]:
    def each(name: str, kind: Kind, help: str, value: Callable[[Term], int]) -> Family:
        """A metric with a sample for each term."""
        return Family(name, kind, help, [Sample(value(it), _of(it)) for it in status.terms])

    states = [Sample(int(it.state is state), {**_of(it), "state": state.value}) for it in status.terms for state in State]
    yield Family("arena_term_state", Kind.GAUGE, "1 at the state that a term is in, and 0 at the others.", states)
    yield each("arena_term_start_time_seconds", Kind.GAUGE, "When a term began, in seconds since 1970.", lambda it: it.began)
    yield each("arena_history_steps", Kind.GAUGE, "How many entries a term's history has room for.", lambda it: it.steps)
    yield each("arena_history_entries", Kind.GAUGE, "How many entries a term's history holds.", lambda it: it.entries)
    yield each("arena_requests_total", Kind.COUNTER, "Requests that were asked of a term.", lambda it: it.asks)
    yield each("arena_jobs_total", Kind.COUNTER, "Jobs that were made.", lambda it: it.jobs)
    by_status = [Sample(getattr(it.jobs_now, name), {**_of(it), "status": name})
                 for it in status.terms for name in JOB_STATUSES]
    yield Family("arena_jobs", Kind.GAUGE, "Jobs that are neither retired nor released, by how far they are.", by_status)
    yield each("arena_rows_open", Kind.GAUGE, "Rows that wait to be started or are live on a slot.", lambda it: it.rows.open)
    yield each("arena_rows_waiting", Kind.GAUGE, "Rows that wait to be started.", lambda it: it.rows.waiting)


def _closed(status: HostStatus) -> Iterator[Family]:
    """What the last 64 terms left; their series end when they are no longer among these."""
    def each(name: str, help: str, value: Callable[[ClosedTerm], int | float]) -> Family:
        """A metric with a sample for each term that was closed."""
        return Family(name, Kind.GAUGE, help, [Sample(value(it), {**_of(it), "why": it.why.value}) for it in status.closed])

    yield each("arena_close_duration_seconds", "How long closing and writing a term took.", lambda it: it.ms / 1000)
    yield each("arena_close_lost_jobs", "How many jobs of a term had no outcome when it was closed.", lambda it: it.lost)
    yield each("arena_close_left_jobs", "How many jobs of a term get their outcome at the next start.", lambda it: it.left)
    yield each("arena_close_entries", "How many entries a term's history had at the close.", lambda it: it.entries)
    yield each("arena_close_fault", "The number of a term's close fault, 0 if it had none.", lambda it: it.fault or 0)
    yield each("arena_close_dumped", "Whether a term's dump was written.", lambda it: int(it.dumped))


def _of(term: Term | ClosedTerm) -> dict[str, str]:
    """The labels of a term."""
    return {"tenant": term.tenant, "term": str(term.number)}

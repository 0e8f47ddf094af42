"""A host's status as sections, which text and pages show alike."""
from collections.abc import Iterator
from dataclasses import dataclass, field

from arena.host.rates import Rates, Recent, Watch
from arena.host.status import ClosedTerm, HostStatus, State, Term
from arena.texts import counted
from arena.trace.report import table

UNITS = ("bytes", "KiB", "MiB", "GiB", "TiB")


@dataclass(frozen=True, slots=True)
class Section:
    """A heading, sentences below it, and a table, in which the columns of `left` are flush left."""

    title: str
    notes: list[str] = field(default_factory=list)
    head: tuple[str, ...] = ()
    rows: list[list[object]] = field(default_factory=list)
    left: tuple[int, ...] = (0,)

    def to_text(self) -> str:
        """The section in lines."""
        return "\n".join([self.title, *self.notes, *([table(self.head, self.rows, self.left)] if self.rows else [])])


def to_text(sections: list[Section]) -> str:
    """Sections in lines, with a blank line between two."""
    return "\n\n".join(section.to_text() for section in sections)


def sections_of(status: HostStatus, watch: Watch | None = None) -> list[Section]:
    """What a host does: a section for it, one for its terms, one for those that are closed. With a watch the table of terms
    has rates."""
    terms = [_terms(status, watch)] if status.terms else []
    closed = [_closed(status.closed)] if status.closed else []
    return [_host(status, watch), *terms, *closed]


def _host(status: HostStatus, watch: Watch | None) -> Section:
    serving = len(status.serving)
    where = f"{counted(serving, 'tenant')} served" if serving else "no tenant is served (it starts or stops)"
    memory = f", {size(status.memory)} of memory" if status.memory is not None else ""
    waiting = sum(it.tenant is None for it in status.workers)
    notes = [f"{counted(status.connected, 'connection')} now of {status.connections} at most, {status.served:,} so far, "
             f"{status.cut.hello:,} ended without a hello and {status.cut.idle:,} idle ones",
             f"rotates at {status.rotate_at} %, keeps {counted(status.keep, 'dump')} of a tenant, finishes within "
             f"{duration(status.finish)}, durable: {status.durable.value}"]
    if status.tenant_connections < status.connections or any(it.refused for it in status.tenants):
        notes.append(_limited(status))
    if status.workers:
        notes.append(f"workers: {len(status.workers) - waiting} with a tenant, {waiting} waiting for a call")
    total = watch.total() if watch else None
    if total:
        notes.append(f"{total.entries:,.1f} entries, {total.asks:,.1f} requests and {total.jobs:,.1f} jobs a second")
    recent = watch.recent() if watch else None
    if recent:
        notes.append(_recent(recent))
    return Section(f"host: {where}, up {duration(status.time - status.began)}{memory}", notes)


def _limited(status: HostStatus) -> str:
    """How many connections a tenant may have, and whose hellos were refused for that."""
    refused = [it for it in status.tenants if it.refused]
    those = ", ".join(f"{it.tenant} {it.refused:,}" for it in refused) or "none"
    return f"{counted(status.tenant_connections, 'connection')} of a tenant at most, hellos refused for that: {those}"


def _recent(it: Recent) -> str:
    """The rates of the last minutes."""
    mean = it.mean()
    return (f"over {duration(round(it.seconds))}: {mean.entries:,.1f} entries, {mean.asks:,.1f} requests and {mean.jobs:,.1f} "
            f"jobs a second; jobs in half of the time at most {it.jobs_within(50):,.1f}, in 90 % {it.jobs_within(90):,.1f}, "
            f"always {it.jobs_within(100):,.1f}")


def _terms(status: HostStatus, watch: Watch | None) -> Section:
    head: tuple[str, ...] = ("tenant", "term", "state", "age", "entries", "steps", "%", "asks", "jobs", "running", "rows",
                             "waiting", "workers", "connected")
    rows = [_term(status, it) for it in status.terms]
    if watch:
        head += ("entries/s", "asks/s", "jobs/s", "rotates in")
        rows = [[*row, *_rates(status, it, watch.of(it.tenant, it.number))] for row, it in zip(rows, status.terms)]
    return Section("terms, those of one tenant together", [], head, rows, (0, 2))


def _term(status: HostStatus, it: Term) -> list[object]:
    why = f" ({it.why.value})" if it.why else ""
    is_serving = it.state is State.SERVING
    workers = status.workers_at(it.tenant) if is_serving else "-"
    connected = status.connected_to(it.tenant) if is_serving else "-"
    return [it.tenant, it.number, f"{it.state.value}{why}", duration(status.time - it.began), f"{it.entries:,}",
            f"{it.steps:,}", f"{100 * it.share:.1f}", f"{it.asks:,}", f"{it.jobs:,}", f"{it.jobs_now.running:,}",
            f"{it.rows.open:,}", f"{it.rows.waiting:,}", workers, connected]


def _rates(status: HostStatus, term: Term, rates: Rates | None) -> list[object]:
    """The rates of a term, and how long its history lasts at this rate, if it is one that may rotate."""
    if rates is None:
        return ["-"] * 4
    left = term.steps * status.rotate_at / 100 - term.entries
    rotates = term.state is State.SERVING and rates.entries > 0 and left > 0
    return [f"{rates.entries:,.1f}", f"{rates.asks:,.1f}", f"{rates.jobs:,.1f}",
            duration(int(left / rates.entries)) if rotates else "-"]


def _closed(closed: tuple[ClosedTerm, ...]) -> Section:
    rows: list[list[object]] = [
        [it.tenant, it.number, it.why.value, duration(it.ended - it.began), f"{it.ms:,}", f"{it.entries:,}",
         "; ".join(_faults(it)) or "dumped"] for it in closed]
    head = ("tenant", "term", "why", "lasted", "ms", "entries", "dump")
    return Section("closed terms, the newest last", [], head, rows, (0, 2, 6))


def _faults(closed: ClosedTerm) -> Iterator[str]:
    """What went wrong when a term was closed."""
    if closed.lost:
        yield f"{closed.lost:,} {'job' if closed.lost == 1 else 'jobs'} lost"
    if closed.left:
        yield f"{closed.left:,} {'job' if closed.left == 1 else 'jobs'} left to the next start"
    if closed.fault is not None:
        yield f"close fault {closed.fault}"
    elif not closed.left and not closed.dumped:
        yield "no dump"


def duration(seconds: int) -> str:
    """A number of seconds in its two greatest units: `1 min 53 s`, `2 d 3 h`."""
    if seconds < 0:
        return f"-{duration(-seconds)}"
    parts = ((seconds // 86_400, "d"), (seconds // 3600 % 24, "h"), (seconds // 60 % 60, "min"), (seconds % 60, "s"))
    first = next((at for at, (count, _) in enumerate(parts) if count), 3)
    return " ".join(f"{count} {unit}" for count, unit in parts[first : first + 2] if count) or "0 s"


def size(count: int) -> str:
    """A number of bytes in its unit: `77.5 MiB`."""
    number, unit = float(count), 0
    while number >= 1024 and unit < len(UNITS) - 1:
        number, unit = number / 1024, unit + 1
    return f"{number:.1f} {UNITS[unit]}" if unit else f"{count} bytes"

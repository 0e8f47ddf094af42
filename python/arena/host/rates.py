"""How fast a host goes: what its counts grew by between two readings of its status."""
from collections.abc import Iterable
from dataclasses import dataclass, field

from arena.host.status import ClosedTerm, Reading, Term

WINDOW, FEWEST_SPANS = 300.0, 3
"""Over how many seconds rates are kept, and between how many readings something is said of them together."""

Key = tuple[str, int]
"""A tenant's name with the number of its term."""


@dataclass(frozen=True, slots=True)
class Rates:
    """What a tenant did in a term, each a second."""

    entries: float
    asks: float
    jobs: float


@dataclass(frozen=True, slots=True)
class Span:
    """The rates from one reading to the next, which were written at these times, in seconds."""

    begin: float
    end: float
    rates: Rates


@dataclass(frozen=True, slots=True)
class Recent:
    """The rates over the spans of the last minutes."""

    spans: tuple[Span, ...]

    @property
    def seconds(self) -> float:
        """How long they are together."""
        return sum(it.end - it.begin for it in self.spans)

    def mean(self) -> Rates:
        """The rates over all of the time."""
        def mean_of(rates: Iterable[float]) -> float:
            """The mean of one rate of each span."""
            return sum(it * (span.end - span.begin) for it, span in zip(rates, self.spans)) / self.seconds
        all_of = [it.rates for it in self.spans]
        return Rates(mean_of(it.entries for it in all_of), mean_of(it.asks for it in all_of), mean_of(it.jobs for it in all_of))

    def jobs_within(self, percent: int) -> float:
        """The rate of jobs that was not exceeded in that share of the time."""
        ordered, left = sorted(self.spans, key=lambda it: it.rates.jobs), self.seconds * percent / 100
        for it in ordered:
            left -= it.end - it.begin
            if left <= 1e-9:
                return it.rates.jobs
        return ordered[-1].rates.jobs


@dataclass
class Watch:
    """The two last readings of a host that differ, from which rates are taken, and the rates of the last minutes."""

    before: Reading | None = None
    now: Reading | None = None
    spans: list[Span] = field(default_factory=list)
    _known: dict[Key, Rates] = field(default_factory=dict)

    def take(self, reading: Reading) -> None:
        """Takes another reading. One that was written when the last one was says nothing new."""
        if self.now is not None and reading.written == self.now.written:
            return
        self.before, self.now = self.now, reading
        self._known = rates_between(self.before, self.now) if self.before is not None else {}
        total = self.total()
        if total is not None and self.before is not None:
            self.spans.append(Span(self.before.written, reading.written, total))
        self.spans = [it for it in self.spans if it.end > reading.written - WINDOW]

    def of(self, tenant: str, term: int) -> Rates | None:
        """The rates of a tenant in a term; None if two readings of it are not there yet."""
        return self._known.get((tenant, term))

    def recent(self) -> Recent | None:
        """The rates of all tenants over the last minutes; None before there are some spans between readings."""
        return Recent(tuple(self.spans)) if len(self.spans) >= FEWEST_SPANS else None

    def total(self) -> Rates | None:
        """The rates of all tenants together; None if there are none yet."""
        if not self._known:
            return None
        all_of = self._known.values()
        return Rates(sum(it.entries for it in all_of), sum(it.asks for it in all_of), sum(it.jobs for it in all_of))


def rates_between(before: Reading, after: Reading) -> dict[Key, Rates]:
    """The rates of each term that is open in the later reading. There are none if another host wrote it, or if no time went
    by."""
    seconds = after.written - before.written
    if before.status.began != after.status.began or seconds <= 0:
        return {}
    known, newest = _counts(before), _newest(before)
    found: dict[Key, Rates] = {}
    for key, last in _counts(after).items():
        first = known.get(key)
        if first is None and key[1] <= newest.get(key[0], -1):
            continue  # nothing is known of where it began
        rates = _rates(first, last, seconds)
        if min(rates.entries, rates.asks, rates.jobs) >= 0:
            found[key] = rates
    return found


def _counts(reading: Reading) -> dict[Key, Term]:
    return {(it.tenant, it.number): it for it in reading.status.terms}


def _newest(reading: Reading) -> dict[str, int]:
    """The number of the newest term of each tenant that a reading knows of."""
    newest: dict[str, int] = {}
    known: list[Term | ClosedTerm] = [*reading.status.terms, *reading.status.closed]
    for it in known:
        newest[it.tenant] = max(it.number, newest.get(it.tenant, -1))
    return newest


def _rates(first: Term | None, last: Term, seconds: float) -> Rates:
    """The rates from a first count, which is 0 of a term that was opened in between."""
    entries, asks, jobs = (first.entries, first.asks, first.jobs) if first else (0, 0, 0)
    return Rates((last.entries - entries) / seconds, (last.asks - asks) / seconds, (last.jobs - jobs) / seconds)

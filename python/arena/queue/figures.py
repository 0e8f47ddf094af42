"""How many jobs come, and how long they wait and run: counted by the minute in the transactions that there are anyway, so that
nobody has to look at jobs for it."""
import enum
import math
from bisect import bisect_left
from collections.abc import Iterable, Sequence
from dataclasses import dataclass, field

from arena.queue.model import SECOND

MINUTE = 60 * SECOND

KEPT_MINUTES = 10
"""For how many minutes figures are kept apart; those of before are one sum, as the minute 0."""

BOUNDS = tuple(int(SECOND * it) for it in (.001, .003, .01, .03, .1, .3, 1, 3, 10, 30, 100, 300, 1000))
"""The longest time of each bucket, in microseconds; one more has what took longer."""


class What(enum.StrEnum):
    """What is counted: submissions; how long jobs were ready before they were claimed; how long attempts took that gave the
    outcome, from the claim to the answer of the host."""

    MADE = "made"
    WAITED = "waited"
    RAN = "ran"


@dataclass(slots=True)
class Figures:
    """What a transaction has to count."""

    _sums: dict[tuple[str, What, int], tuple[int, int]] = field(default_factory=dict)

    def add(self, tenant: str, what: What, times: Iterable[int]) -> None:
        """Counts jobs of a tenant by their times, in microseconds."""
        buckets: dict[int, list[int]] = {}
        for micros in times:
            buckets.setdefault(bisect_left(BOUNDS, micros), []).append(micros)
        for bucket, some in buckets.items():
            self._add(tenant, what, bucket, len(some), sum(some))

    def add_many(self, tenant: str, what: What, jobs: int) -> None:
        """Counts so many jobs that have no times."""
        self._add(tenant, what, 0, jobs, 0)

    def _add(self, tenant: str, what: What, bucket: int, jobs: int, micros: int) -> None:
        before, sum_before = self._sums.get((tenant, what, bucket), (0, 0))
        self._sums[tenant, what, bucket] = before + jobs, sum_before + micros

    def rows(self) -> list[tuple[str, str, int, int, int]]:
        """What is to be kept: tenant, what, bucket, jobs, microseconds."""
        return [(tenant, what.value, bucket, *sums) for (tenant, what, bucket), sums in sorted(self._sums.items())]


@dataclass(frozen=True, slots=True)
class Histogram:
    """How many jobs took how long: one number for each of `BOUNDS`, and one for what took longer."""

    buckets: Sequence[int]
    micros: int = 0

    @classmethod
    def of(cls, rows: Iterable[tuple[int, int, int]]) -> "Histogram":
        """From buckets, jobs and microseconds."""
        buckets, sum = [0] * (len(BOUNDS) + 1), 0
        for bucket, jobs, micros in rows:
            buckets[bucket] += jobs
            sum += micros
        return cls(buckets, sum)

    @property
    def jobs(self) -> int:
        """How many there are."""
        return sum(self.buckets)

    def within(self, share: float) -> float | None:
        """The seconds within which such a share of them was, rounded up to a bound; None if there is none."""
        left = math.ceil(share * self.jobs)
        for bound, jobs in zip((*BOUNDS, math.inf), self.buckets, strict=True):
            left -= jobs
            if left <= 0 and self.jobs:
                return bound / SECOND
        return None

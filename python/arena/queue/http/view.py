"""What is known of a tenant at a moment, as the page and Prometheus show it."""
from collections.abc import Mapping, Sequence
from dataclasses import dataclass

from arena.queue.figures import Histogram, What
from arena.queue.model import Job, State
from arena.queue.store import Store

MINUTES = 5
"""Over how many minutes the page's rates and times are."""

LATEST, FAULTS = 20, 5
"""How many jobs and faults the page shows."""

Figures = Mapping[What, Histogram]


@dataclass(frozen=True, slots=True)
class Numbers:
    """Counts and times. Ages are in seconds."""

    tenant: str
    jobs: Mapping[State, int]
    entered: Mapping[State, int]
    figures: Figures
    """Since the queue was made."""
    ready_age: float
    running_age: float
    dispatchers: int

    @classmethod
    def of(cls, store: Store, tenant: str) -> "Numbers":
        """The numbers of a tenant."""
        counts = store.counts_of(tenant)
        return cls(tenant, counts, store.entered(tenant), store.figures(tenant), store.age(tenant) or 0.0,
                   store.age(tenant, State.RUNNING) or 0.0, store.dispatchers())


@dataclass(frozen=True, slots=True)
class View:
    """What the page shows: the numbers, those of the last minutes, the latest jobs, and the latest faults with their programs
    and what these were compiled from."""

    numbers: Numbers
    latest: Figures
    jobs: Sequence[Job]
    faults: Sequence[tuple[Job, str, str | None]]

    @classmethod
    def of(cls, store: Store, tenant: str) -> "View":
        """The view of a tenant."""
        return cls(Numbers.of(store, tenant), store.figures(tenant, MINUTES), store.listed(tenant, limit=LATEST),
                   store.faults(tenant, FAULTS))

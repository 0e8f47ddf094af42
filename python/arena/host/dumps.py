"""The dumps in a run folder: which are whole, which are parts of one, and which are missing, and why."""
import itertools
import os
import re
import time
from collections.abc import Iterator
from dataclasses import dataclass

from arena.host.folder import RunFolder
from arena.host.reading import StatusFault, host_runs, read_status
from arena.host.status import ClosedTerm

NAME = re.compile(r"([a-z0-9-]{1,32})\.([0-9]{6}|[1-9][0-9]{6,17})\.jsonl(\.part)?")
"""The name of a dump: the tenant, the term, and whether it is a part."""


def name_of(tenant: str, term: int) -> str:
    """How a dump is named: `acme.000123`."""
    return f"{tenant}.{term:06}"


@dataclass(frozen=True, slots=True)
class DumpFile:
    """A file of a dump. `is_open` says of a part that a host runs, which may write it now."""

    tenant: str
    term: int
    path: str
    is_whole: bool
    is_open: bool

    @property
    def amiss(self) -> bool:
        """Whether the file should not be there like this."""
        return not self.is_whole and not self.is_open


@dataclass(frozen=True, slots=True)
class Hole:
    """Terms, from the first to the last, of which a tenant has no dump; `amiss` if it should have one."""

    tenant: str
    term: int
    last: int
    why: str
    amiss: bool


@dataclass(frozen=True, slots=True)
class Known:
    """What the host's status says of terms: those that are open, of a host that runs, and those that it closed last."""

    open: frozenset[tuple[str, int]] = frozenset()
    closed: tuple[ClosedTerm, ...] = ()
    runs: bool = False

    @classmethod
    def of(cls, folder: RunFolder) -> "Known":
        """What is known of a folder. What a host that runs no more had open is not open. Raises OSError."""
        try:
            status, runs = read_status(folder).status, host_runs(folder, time.time())
        except StatusFault:
            return cls()
        return cls(frozenset((it.tenant, it.number) for it in status.terms if runs), status.closed, runs)

    def numbers(self, tenant: str) -> list[int]:
        """The terms of a tenant of which something is known."""
        return [*(number for name, number in self.open if name == tenant),
                *(it.number for it in self.closed if it.tenant == tenant)]

    def hole(self, tenant: str, term: int) -> Hole | None:
        """Why a tenant has no dump of a term; None if nothing is known of it."""
        if (tenant, term) in self.open:
            return Hole(tenant, term, term, "the term is still open", amiss=False)
        closed = next((it for it in self.closed if (it.tenant, it.number) == (tenant, term)), None)
        if closed is None:
            return None
        if closed.left:
            return Hole(tenant, term, term, "its journal is left to the next start", amiss=False)
        why = "it was written, and is gone" if closed.dumped else "it could not be written"
        if closed.fault is not None:
            why = f"close fault {closed.fault}"
        return Hole(tenant, term, term, why, amiss=True)


def dumps_in(folder: RunFolder) -> list[DumpFile | Hole]:
    """The dumps of a folder, by tenant in the order of terms, and what is missing between the first and the last of each
    tenant. What `--keep` removed is before the first. Raises OSError."""
    known = Known.of(folder)
    files = sorted(_files(folder, known), key=lambda it: (it.tenant, it.term, it.is_whole))
    tenants = {it.tenant for it in files} | {it.tenant for it in known.closed}
    found: list[DumpFile | Hole] = []
    for tenant in sorted(tenants):
        mine = [it for it in files if it.tenant == tenant]
        whole: list[DumpFile | Hole] = [*mine, *_holes(tenant, [it.term for it in mine], known)]
        found += sorted(whole, key=lambda it: it.term)
    return found


def _files(folder: RunFolder, known: Known) -> Iterator[DumpFile]:
    for name in os.listdir(folder.dumps):
        if parts := NAME.fullmatch(name):
            yield DumpFile(parts[1], int(parts[2]), os.path.join(folder.dumps, name), parts[3] is None, known.runs)


def _holes(tenant: str, numbers: list[int], known: Known) -> Iterator[Hole]:
    """What is missing: between two numbers of a tenant, and from the last one to that which the host closed last. A
    tenant of no dumps misses those that the host names."""
    closed = [it.number for it in known.closed if it.tenant == tenant]
    last = max([*numbers, *closed])
    ends = [*numbers, last + 1] if numbers else [min(closed) - 1, last + 1]
    for before, after in itertools.pairwise(ends):
        yield from _holes_between(tenant, range(before + 1, after), known)


def _holes_between(tenant: str, gap: range, known: Known) -> Iterator[Hole]:
    """What is missing in a gap: what is known by itself, and the rest in stretches."""
    start = gap.start
    told = sorted(it for it in known.numbers(tenant) if it in gap)
    for number in told:
        if start < number:
            yield _unknown(tenant, start, number - 1)
        if hole := known.hole(tenant, number):
            yield hole
        start = number + 1
    if start < gap.stop:
        yield _unknown(tenant, start, gap.stop - 1)


def _unknown(tenant: str, first: int, last: int) -> Hole:
    return Hole(tenant, first, last, "it was not written, or was removed", amiss=True)

"""What is unwise in a configuration that is valid: jobs that never run, tenants that wait for others, histories that
are too large for the machine or too small to be of use."""
import enum
import re
from collections.abc import Iterator, Mapping, Sequence
from dataclasses import dataclass
from typing import Any

from arena.lint import GREATEST_SLOTS, GREATEST_STEPS, WORKERS
from arena.texts import counted

ENTRY_BYTES, SLOT_BYTES, CONNECTION_BYTES = 104, 16, 96
"""What a server reserves for each of a tenant's `steps`, in bytes: for the entry, each slot and each connection."""

TERMS_AT_ONCE = 2
"""How many terms of a tenant a host has open while it rotates: the one that is left, and the next one."""

OTHER_DESCRIPTORS = 34
"""How many files a host may have open beside its connections, with some to spare."""

FEWEST_ENTRIES = 1_000
"""How many entries a history should have before it is full or its term is left. The sixth Fibonacci number, by
tasks, takes 88."""

MEMORY_FILE = "/proc/meminfo"


class About(enum.Enum):
    """What a piece of advice is about."""

    NO_WORKER_SLOT = "no worker slot"
    FEW_WORKERS = "few workers"
    MEMORY = "memory"
    SHORT_HISTORY = "short history"
    DESCRIPTORS = "descriptors"


@dataclass(frozen=True, slots=True)
class Advice:
    """Something unwise: the tenant that it is about, or None for all together; what is so, with its numbers, and what
    to do."""

    about: About
    tenant: str | None
    text: str
    todo: str

    def __str__(self) -> str:
        return f"{f'tenant {self.tenant}' if self.tenant else 'all tenants'}: {self.text}; {self.todo}"

    def to_value(self) -> dict[str, Any]:
        """As JSON."""
        return {"about": self.about.value, "tenant": self.tenant, "text": self.text, "todo": self.todo}


@dataclass(frozen=True, slots=True)
class Machine:
    """How a configuration is to be served: connections at a time, the memory in bytes or None if it is not known, for
    arena-host at how many per cent of its steps a history ends a term (None is for arena-server), and how many
    files it may have open, None if there is no limit."""

    connections: int = 64
    memory: int | None = None
    rotate_at: int | None = None
    descriptors: int | None = None


def memory_of_machine(path: str = MEMORY_FILE) -> int | None:
    """The memory of this machine in bytes; None if the system does not tell."""
    try:
        with open(path, encoding="ascii") as it:
            found = re.search(r"^MemTotal: *([0-9]+) kB$", it.read(), re.M)
    except (OSError, UnicodeDecodeError):
        return None
    return 1024 * int(found[1]) if found else None


def advice_of(config: Mapping[str, Any], machine: Machine) -> list[Advice]:
    """What is unwise in a valid configuration: first what is so of a tenant, in their order, then what of all."""
    tenants: Sequence[Mapping[str, Any]] = config["tenants"]
    return [*(it for tenant in tenants for it in (*_no_worker_slot(tenant), *_short_history(tenant, machine))),
            *_few_workers(tenants, config["workers"], machine), *_memory(tenants, machine), *_descriptors(machine)]


def _no_worker_slot(tenant: Mapping[str, Any]) -> Iterator[Advice]:
    slots = tenant["slots"]
    if tenant["reserved"] < slots:
        return
    text = (f"reserved {slots} of {counted(slots, 'slot')}, so no worker ever comes: a job that is submitted, or "
            "executed while all slots are taken, and a task that is posted run only if a row that waits takes them up")
    lower = f"lower reserved to {slots - 1}"
    todo = lower if slots == GREATEST_SLOTS else f"{lower}, or raise slots to {slots + 1}"
    yield Advice(About.NO_WORKER_SLOT, tenant["name"], text, todo)


def _short_history(tenant: Mapping[str, Any], machine: Machine) -> Iterator[Advice]:
    """A history that is used up, or left, after a few jobs."""
    steps, percent = tenant["steps"], 100 if machine.rotate_at is None else machine.rotate_at
    entries, fewest = -(-steps * percent // 100), -(-FEWEST_ENTRIES * 100 // percent)
    if entries >= FEWEST_ENTRIES:
        return
    does = ("the tenant answers `history_full` to all that follows" if machine.rotate_at is None else
            f"the host opens its next term, at {percent} %")
    text = f"steps {steps:,}: after {entries:,} {'entry' if entries == 1 else 'entries'} {does}"
    yield Advice(About.SHORT_HISTORY, tenant["name"], text, f"raise steps to {min(fewest, GREATEST_STEPS):,} or more")


def _few_workers(tenants: Sequence[Mapping[str, Any]], workers: int, machine: Machine) -> Iterator[Advice]:
    """Fewer workers than worker slots, if there is a second tenant that has to wait for them. A host's workers leave a tenant
    after a row, where another one's call waits."""
    if machine.rotate_at is not None:
        return
    slots = {it["name"]: it["slots"] - it["reserved"] for it in tenants if it["slots"] > it["reserved"]}
    total = sum(slots.values())
    if workers >= total or len(slots) < 2:
        return
    todo = (f"raise workers to {total}" if total <= WORKERS else
            f"raise workers to {WORKERS}, the most, and give tenants fewer slots that are not reserved")
    text = f"{counted(workers, 'worker')} for {total} worker slots"
    greedy = [name for name, count in slots.items() if count >= workers]
    for name in greedy:
        yield Advice(About.FEW_WORKERS, name, f"{text}, of which this tenant has {slots[name]}: while it has work it "
                     "can keep all workers, and no other tenant gets one", todo)
    if not greedy:
        yield Advice(About.FEW_WORKERS, None, f"{text}: while some tenants have work they can keep all workers, and "
                     "another one gets none", todo)


def bytes_of(tenant: Mapping[str, Any], connections: int) -> int:
    """What a server reserves for the history of a tenant, in bytes; what is not used of it takes no memory."""
    steps, slots = int(tenant["steps"]), int(tenant["slots"])
    return steps * (ENTRY_BYTES + SLOT_BYTES * slots + CONNECTION_BYTES * connections)


def _memory(tenants: Sequence[Mapping[str, Any]], machine: Machine) -> Iterator[Advice]:
    if machine.memory is None:
        return
    times = 1 if machine.rotate_at is None else TERMS_AT_ONCE
    total = times * sum(bytes_of(it, machine.connections) for it in tenants)
    if total <= machine.memory:
        return
    largest = max(tenants, key=lambda it: bytes_of(it, machine.connections))
    twice = "" if times == 1 else f", {times} times, since a tenant has two terms while the host rotates"
    text = (f"with {counted(machine.connections, 'connection')} histories have room for {_gib(total)}{twice}, and keep "
            f"programs besides; the machine has {_gib(machine.memory)}; {largest['name']}'s has the most, "
            f"{_gib(times * bytes_of(largest, machine.connections))} for {largest['steps']:,} steps")
    steps = machine.memory // (times * sum(bytes_of({**it, "steps": 1}, machine.connections) for it in tenants))
    yield Advice(About.MEMORY, None, text, f"lower steps, to {steps:,} at most for each tenant, or --connections"
                 if steps else "lower --connections, or have fewer tenants")


def _descriptors(machine: Machine) -> Iterator[Advice]:
    """Fewer descriptors than a host needs with as many connections as may be."""
    if machine.rotate_at is None or machine.descriptors is None:
        return
    need = machine.connections + OTHER_DESCRIPTORS
    if need > machine.descriptors:
        yield Advice(About.DESCRIPTORS, None, f"{counted(machine.connections, 'connection')} take up to {need:,} files, and a "
                     f"process may have {machine.descriptors:,} open here", f"start the host with `ulimit -n {need}` or more")


def _gib(count: int) -> str:
    return f"{count / 2**30:,.2f} GiB"

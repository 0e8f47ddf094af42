"""Reads the lines of a dump: the tenant, and then one entry of its history a line."""
import json
import os
from collections.abc import Iterable, Iterator
from dataclasses import asdict, dataclass, field
from typing import Any, BinaryIO

from arena.lint import NAME, PRIORITIES

OPS = frozenset({"submit", "execute", "poll", "collect", "cancel", "cells", "arena", "retire", "release"})
"""The requests that a history has."""

NUMBERS_OF_REPLIES = frozenset({"job", "slot", "value", "fault", "code", "count", "key", "sum", "epoch", "reserved",
                                "slots", "released"})
"""The members of replies that are whole numbers."""


class DumpFault(Exception):
    """The dump is not one that a server wrote. The text says the file, the line, what is wrong and what to do."""

    def __init__(self, file: str, line: int, message: str) -> None:
        super().__init__(f"{file}:{line}: {message}")
        self.file, self.line = file, line


@dataclass(frozen=True, slots=True)
class Tenant:
    """A tenant's settings. `rows` limits its open rows, `steps` the entries of its history."""

    name: str
    slots: int
    reserved: int
    rows: int
    steps: int
    priority: str = "normal"
    isolation: str = "exact"

    def to_value(self) -> dict[str, Any]:
        """The settings as JSON."""
        return asdict(self)


@dataclass(frozen=True, slots=True)
class Ask:
    """A request with its reply."""

    request: dict[str, Any]
    reply: dict[str, Any]


@dataclass(frozen=True, slots=True)
class Arrive:
    """A worker came to a slot and started a row."""

    slot: int
    row: int


@dataclass(frozen=True, slots=True)
class Advance:
    """A slot advanced. It started `row`, or if that is none, its top row executed; `freed` says that nothing is left
    on it."""

    slot: int
    row: int | None
    freed: bool


Entry = Ask | Arrive | Advance


@dataclass(slots=True)
class Dump:
    """A tenant with the entries of its history, which are read as they are asked for, once."""

    tenant: Tenant
    entries: Iterator[Entry]
    file: str = "<dump>"
    bytes_read: int = field(default=0)


def read_dump(path: str | os.PathLike[str]) -> Dump:
    """Opens a dump, and closes it once its entries are read, or given up. Raises OSError, and DumpFault for its first line;
    the iteration raises DumpFault for later ones."""
    return parse_dump(_lines_of(open(path, "rb")), os.fspath(path))


def _lines_of(file: BinaryIO) -> Iterator[bytes]:
    """The lines of a file, which is closed after the last of them, or when no more are wanted."""
    with file:
        yield from file


def parse_dump(lines: Iterable[bytes | str], file: str = "<dump>") -> Dump:
    """A dump from its lines."""
    rest = iter(lines)
    tenant = _tenant_of(next(rest, b""), file)
    dump = Dump(tenant, iter(()), file)
    dump.entries = _entries(rest, tenant, dump)
    return dump


def _tenant_of(line: bytes | str, file: str) -> Tenant:
    try:
        tenant = Tenant(**json.loads(line)["tenant"])
        numbers = (tenant.slots, tenant.reserved, tenant.rows, tenant.steps)
        fits = all(type(it) is int
                   for it in numbers) and 0 < tenant.slots <= 16 and 0 <= tenant.reserved <= tenant.slots
        if fits and isinstance(tenant.name, str) and NAME.fullmatch(tenant.name) and tenant.priority in PRIORITIES:
            return tenant
    except (ValueError, KeyError, TypeError, RecursionError):
        pass
    raise DumpFault(file, 1, "a dump begins with {\"tenant\":TENANT}; give the file that `arena-server --dump` wrote")


def _entries(lines: Iterator[bytes | str], tenant: Tenant, dump: Dump) -> Iterator[Entry]:
    # Most lines are an advance in which a row ran: there are two for each slot.
    known: dict[bytes | str, Entry] = {}
    for number, line in enumerate(lines, 2):
        dump.bytes_read += len(line)
        entry = known.get(line)
        if entry is None:
            try:
                entry = _entry_of(json.loads(line), tenant)
            except (ValueError, KeyError, TypeError, RecursionError):
                raise DumpFault(dump.file, number,
                                f"no entry of a history: {_start_of(line)}; `arena check` says more") from None
            if type(entry) is Advance and entry.row is None:
                known[line] = entry
        yield entry


def _start_of(line: bytes | str) -> str:
    text = line.decode(errors="replace") if isinstance(line, bytes) else line
    text = text.rstrip("\n")
    return text if len(text) <= 80 else text[:77] + "..."


def _entry_of(value: dict[str, Any], tenant: Tenant) -> Entry:
    step = value["step"]
    if step == "ask":
        request, reply = value["request"], value["reply"]
        if not isinstance(request["op"], str) or request["op"] not in OPS or not isinstance(reply, dict):
            raise ValueError
        for name in NUMBERS_OF_REPLIES & reply.keys():
            if type(reply[name]) is not int:
                raise ValueError
        return Ask(request, reply)
    slot, moved = value["slot"], value["moved"]
    if type(slot) is not int or not 0 <= slot < tenant.slots:
        raise ValueError
    if (step, moved) in (("arrive", "arrived"), ("advance", "nested")):
        row = value["row"]
        if type(row) is not int:
            raise ValueError
        return Arrive(slot, row) if step == "arrive" else Advance(slot, row, False)
    if step == "advance" and moved in ("ran", "freed"):
        return Advance(slot, None, moved == "freed")
    raise ValueError

"""Reads `status.json` of arena-host into values. Members that docs/HOST.md does not name are passed over."""
import enum
import json
import os
from collections.abc import Callable, Iterator
from typing import Any, NamedTuple, TypeVar

from arena.host.folder import RunFolder
from arena.host.status import (
    ClosedTerm, Cut, Durable, HostStatus, JobsNow, Reading, RowsNow, State, TenantStatus, Term, Why, WorkerStatus)
from arena.lint import read_value

MOST_BYTES = 16 * 1024 * 1024
"""How long a status may be, in bytes. One of 64 tenants has some 20,000."""

Value = TypeVar("Value")
Kind = TypeVar("Kind", bound=enum.Enum)


class StatusFault(Exception):
    """A status that is missing, or is not one that a host wrote. `message` says what is wrong and what to do; `str()`
    has the file before it."""

    def __init__(self, file: str, message: str) -> None:
        super().__init__(f"{file}: {message}")
        self.file, self.message = file, message


class _Part:
    """An object of a status, at its path; its members are read by their types."""

    def __init__(self, value: object, path: str, file: str) -> None:
        self.path, self.file = path, file
        if not isinstance(value, dict):
            raise self.fault("", "an object", value)
        self.value = value

    def fault(self, name: str, wanted: str, found: object) -> StatusFault:
        """The fault of a member that is not what is wanted."""
        place = ".".join(filter(None, (self.path, name))) or "the whole"
        return StatusFault(self.file, f"{place} is {wanted}, not {_shown(found)}; this is not a status of arena-host")

    def _of(self, name: str, wanted: str, is_right: Callable[[object], bool]) -> object:
        found = self.value.get(name, _MISSING)
        if not is_right(found):
            raise self.fault(name, wanted, found)
        return found

    def number(self, name: str, least: int = 0) -> int:
        """A whole number."""
        found = self._of(name, f"a whole number from {least} on",
                         lambda it: isinstance(it, int) and not isinstance(it, bool) and it >= least)
        assert isinstance(found, int)
        return found

    def text(self, name: str) -> str:
        """A text."""
        found = self._of(name, "a text", lambda it: isinstance(it, str))
        assert isinstance(found, str)
        return found

    def flag(self, name: str) -> bool:
        """True or false."""
        return bool(self._of(name, "true or false", lambda it: isinstance(it, bool)))

    def one_of(self, name: str, kind: type[Kind]) -> Kind:
        """One of some texts."""
        texts = [it.value for it in kind]
        return kind(self._of(name, f"one of {', '.join(texts)}", lambda it: isinstance(it, str) and it in texts))

    def or_none(self, name: str, read: Callable[[str], Value]) -> Value | None:
        """A member that may be null."""
        return None if self.value.get(name, _MISSING) is None else read(name)

    def part(self, name: str) -> "_Part":
        """A member that is an object."""
        found = self._of(name, "an object", lambda it: isinstance(it, dict))
        return _Part(found, f"{self.path}.{name}" if self.path else name, self.file)

    def parts(self, name: str) -> Iterator["_Part"]:
        """The objects of a list."""
        found = self._of(name, "a list", lambda it: isinstance(it, list))
        assert isinstance(found, list)
        path = f"{self.path}.{name}" if self.path else name
        return (_Part(it, f"{path}[{at}]", self.file) for at, it in enumerate(found))

    def distinct(self, name: str, key: str, known: list[Value]) -> None:
        """Raises StatusFault, if a key of the list stands there twice."""
        twice = next((it for at, it in enumerate(known) if it in known[:at]), None)
        if twice is not None:
            place = f"{self.path}.{name}" if self.path else name
            raise StatusFault(self.file, f"{place} has {key} {_shown(twice)} twice; this is not a status of arena-host")


_MISSING = object()


def _shown(value: object) -> str:
    """A value as messages show it, at most 60 characters long."""
    text = "missing" if value is _MISSING else json.dumps(value)
    return text if len(text) <= 60 else f"{text[:57]}..."


def read_status(folder: RunFolder) -> Reading:
    """The status in a run folder. Raises StatusFault if it is missing or is none, and OSError if it can't be read."""
    try:
        with open(folder.status, "rb") as it:
            data, modified = it.read(MOST_BYTES + 1), os.fstat(it.fileno()).st_mtime
    except FileNotFoundError:
        if os.path.isdir(folder.path):
            raise StatusFault(folder.status, "not there; no arena-host has written it, so start one with `--run "
                              f"{folder.path}`, or name the folder of one that runs") from None
        raise StatusFault(folder.path, "no such folder; name the one of `arena-host --run`") from None
    status, value = parse_status(data, folder.status)
    # Times in the file are whole seconds. The file's own time is finer, and is taken as long as it agrees with them.
    written = modified if status.time <= modified < status.time + 2 else float(status.time)
    return Reading(status, value, written)


def host_runs(folder: RunFolder, now: float) -> bool:
    """Whether a host runs in a folder: its lock says so or, to those who may not open that, whether its status is of now,
    which is in seconds since 1970. Raises StatusFault, OSError."""
    try:
        return folder.is_held()
    except PermissionError:
        return read_status(folder).stale(now) is None


class Parsed(NamedTuple):
    """A status, and the object that it was read from."""

    status: HostStatus
    value: dict[str, Any]


def parse_status(data: bytes, file: str = "status.json") -> Parsed:
    """The status in some bytes. Raises StatusFault."""
    if len(data) > MOST_BYTES:
        raise StatusFault(file, f"more than {MOST_BYTES:,} bytes; this is not a status of arena-host")
    if not data.strip():
        raise StatusFault(file, "empty; a host writes it whole, so this is not its status")
    try:
        value = read_value(data.decode())
    except ValueError as fault:
        raise StatusFault(file, f"no JSON: {fault}; it may be cut, and a host writes it whole") from None
    part = _Part(value, "", file)
    return Parsed(_host(part), part.value)


def _host(part: _Part) -> HostStatus:
    status = HostStatus(
        part.text("version"), part.number("time"), part.number("began"), part.number("connections"), part.number("connected"),
        part.number("served"), _cut(part.part("cut")), part.number("tenant_connections"), part.number("hello_seconds"),
        part.number("idle_seconds"), part.number("rotate_at"), part.number("keep"), part.number("finish"), part.one_of("durable", Durable),
        part.or_none("memory", part.number),
        tuple(map(_worker, part.parts("workers"))), tuple(map(_tenant, part.parts("tenants"))),
        tuple(map(_term, part.parts("terms"))), tuple(map(_closed, part.parts("closed"))))
    part.distinct("tenants", "tenant", [it.tenant for it in status.tenants])
    known: list[Term | ClosedTerm] = [*status.terms, *status.closed]
    part.distinct("terms", "term", [f"{it.tenant}.{it.number:06}" for it in known])
    return status


def _cut(part: _Part) -> Cut:
    return Cut(part.number("hello"), part.number("idle"))


def _tenant(part: _Part) -> TenantStatus:
    return TenantStatus(part.text("tenant"), part.number("connected"), part.number("refused"))


def _worker(part: _Part) -> WorkerStatus:
    return WorkerStatus(part.number("worker"), part.or_none("tenant", part.text), part.or_none("slot", part.number))


def _term(part: _Part) -> Term:
    return Term(part.text("tenant"), part.number("term"), part.one_of("state", State), part.number("began"),
                part.or_none("why", lambda name: part.one_of(name, Why)), part.number("base"), part.number("steps", 1),
                part.number("entries"), part.number("asks"), part.number("jobs"), _jobs_now(part.part("jobs_now")),
                _rows_now(part.part("rows")))


def _jobs_now(part: _Part) -> JobsNow:
    return JobsNow(part.number("running"), part.number("complete"), part.number("canceled"), part.number("fault"))


def _rows_now(part: _Part) -> RowsNow:
    return RowsNow(part.number("open"), part.number("waiting"))


def _closed(part: _Part) -> ClosedTerm:
    return ClosedTerm(part.text("tenant"), part.number("term"), part.number("began"), part.number("ended"),
                      part.one_of("why", Why), part.number("base"), part.number("entries"), part.number("lost"),
                      part.number("left"), part.or_none("fault", part.number), part.flag("dumped"), part.number("ms"))

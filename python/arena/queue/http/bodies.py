"""What requests say, read into what the queue takes."""
import json
from collections.abc import Callable, Mapping
from functools import lru_cache
from typing import Any

from arena.jobs import GREATEST_FUEL, GREATEST_NUMBER, LEAST_NUMBER
from arena.language import SourceFault, compile_source
from arena.queue.model import MOST_FAILURES, SECOND, NewJob, QueueError
from arena.queue.programs import NoProgram, Program

MOST_JOBS = 1000
"""How many jobs a request submits at most."""

LONGEST_SOURCE = 65_536
"""How many characters a source has at most."""

LONGEST_DELAY = 366 * 86_400
"""How many seconds a job may be delayed."""

MEMBERS = {"source", "procs", "program", "args", "fuel", "key", "priority", "delay", "failures"}


compact = json.JSONEncoder(separators=(",", ":")).encode
"""A value as compact JSON."""


class BadBody(ValueError):
    """What was sent is not what the request takes; the text says what is wrong."""


def value_of(body: bytes) -> Any:
    """The JSON value of a body. Raises BadBody."""
    try:
        return json.loads(body)
    except (ValueError, RecursionError):
        raise BadBody("the body is no JSON in UTF-8, or nested too deep") from None


@lru_cache(1000)
def compiled(source: str) -> Program:
    """The program of a source. Raises BadBody."""
    if len(source) > LONGEST_SOURCE:
        raise BadBody(f"source: {LONGEST_SOURCE:,} characters at most")
    try:
        return Program.of(compile_source(source).job.to_value()["procs"], source)
    except (SourceFault, NoProgram, RecursionError) as fault:
        raise BadBody(f"source: {fault}") from None


@lru_cache(1000)
def checked(procs: str) -> Program:
    """The program of procedures as JSON. Raises BadBody."""
    try:
        return Program.of(json.loads(procs))
    except (NoProgram, TypeError, RecursionError) as fault:
        raise BadBody(str(fault)) from None


def whole(value: object, name: str, least: int, greatest: int) -> int:
    """A whole number of a body. Raises BadBody."""
    if type(value) is not int or not least <= value <= greatest:
        raise BadBody(f"{name}: a whole number from {least} to {greatest}")
    return value


def new_jobs(value: object, tenant: str, kept: Callable[[str], Program | None]) -> list[NewJob]:
    """The jobs of a body, one or a list of them; `kept` is asked for the programs of hashes. Raises BadBody."""
    values = value if isinstance(value, list) else [value]
    if not 1 <= len(values) <= MOST_JOBS:
        raise BadBody(f"a request submits 1 to {MOST_JOBS} jobs")
    return [_new_job(it, tenant, kept, "" if value is it else f"[{at}]: ") for at, it in enumerate(values)]


def _new_job(value: object, tenant: str, kept: Callable[[str], Program | None], place: str) -> NewJob:
    try:
        if not isinstance(value, dict):
            raise BadBody("a job is an object")
        if others := value.keys() - MEMBERS:
            raise BadBody(f"{min(others)[:40]!r} is no member of a job; it has {', '.join(sorted(MEMBERS))}")
        return NewJob(tenant, _program(value, kept), _args(value.get("args", [0, 0])),
                      whole(value.get("fuel", GREATEST_FUEL), "fuel", 1, GREATEST_FUEL), _key(value.get("key")),
                      whole(value.get("priority", 0), "priority", -1000, 1000),
                      most_failures=whole(value.get("failures", MOST_FAILURES), "failures", 1, 1_000_000),
                      delay=_delay(value.get("delay", 0)))
    except (BadBody, QueueError) as fault:
        raise BadBody(f"{place}{fault}") from None


def _program(value: Mapping[str, Any], kept: Callable[[str], Program | None]) -> Program:
    given = [name for name in ("source", "procs", "program") if name in value]
    if len(given) != 1:
        raise BadBody("a job has one of source, procs and program")
    it = value[given[0]]
    if given[0] == "procs":
        return checked(compact(it))
    if not isinstance(it, str) or not is_text(it):
        raise BadBody(f"{given[0]}: a text")
    if given[0] == "source":
        return compiled(it)
    program = kept(it)
    if program is None:
        raise BadBody("program: none with that hash is kept for this tenant; send its source or procs")
    return program


def is_text(text: str) -> bool:
    """Whether a text can be kept: JSON may have halves of characters, which can't be written in UTF-8, and the character 0, which no
    database has to take."""
    try:
        text.encode()
    except UnicodeEncodeError:
        return False
    return "\0" not in text


def _args(value: object) -> tuple[int, int]:
    if not isinstance(value, list) or len(value) != 2:
        raise BadBody("args: a list of two numbers")
    first, second = (whole(it, "args", LEAST_NUMBER, GREATEST_NUMBER) for it in value)
    return first, second


def _key(value: object) -> str | None:
    if value is not None and not (isinstance(value, str) and is_text(value)):
        raise BadBody("key: a text")
    return value


def _delay(value: object) -> int:
    if isinstance(value, bool) or not isinstance(value, (int, float)) or not 0 <= value <= LONGEST_DELAY:
        raise BadBody(f"delay: seconds, from 0 to {LONGEST_DELAY}")
    return int(value * SECOND)

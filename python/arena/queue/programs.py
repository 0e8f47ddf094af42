"""Programs: the procedures of jobs, kept once each, by the hash of their text."""
import hashlib
import json
from collections.abc import Mapping, Sequence
from dataclasses import dataclass, field
from typing import Any

from arena import lint
from arena.jobs import NOT_SERIAL, REQUEST_BYTES
from arena.replies import ArenaError
from arena.requests import JobLike, value_of

LONGEST_FRAME = len('{"job":{"args":[,],"fuel":1000000,"procs":},"op":"submit"}') + 2 * 20
"""How many bytes of a request are not its procedures, at most."""


class NoProgram(ArenaError):
    """Procedures, arguments or fuel that no host would take; the text says the place."""

    done = False


@dataclass(frozen=True, slots=True)
class Program:
    """The procedures of a job as compact JSON. A serial one has one value for its arguments if it completes, whoever runs
    it and however often."""

    hash: str
    procs: str
    is_serial: bool
    source: str | None = field(default=None, compare=False)
    """What it was compiled from, if that is known."""

    @classmethod
    def of(cls, procs: Sequence[Any], source: str | None = None) -> "Program":
        """The program of procedures. Raises NoProgram."""
        _check({"args": [0, 0], "fuel": 1, "procs": procs})
        text = json.dumps(procs, separators=(",", ":"))
        if len(text) + LONGEST_FRAME > REQUEST_BYTES:
            raise NoProgram(f"the program takes {len(text):,} bytes; a request has {REQUEST_BYTES:,} at most")
        is_serial = not any(it[0] in NOT_SERIAL for proc in procs for it in proc)
        return cls(hashlib.sha256(text.encode()).hexdigest(), text, is_serial, source)


def _check(value: object) -> None:
    if (place := lint.first_fault_of_job(value)) is not None:
        raise NoProgram(str(place))


@dataclass(frozen=True, slots=True)
class Parts:
    """A job as the queue keeps it: its program, and what it is run with."""

    program: Program
    args: tuple[int, int]
    fuel: int

    @classmethod
    def of(cls, job: JobLike) -> "Parts":
        """The parts of a job. Raises NoProgram."""
        value: Mapping[str, Any] = value_of(job)
        _check(value)
        first, second = value["args"]
        return cls(Program.of(value["procs"]), (first, second), value["fuel"])

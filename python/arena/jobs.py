"""The data of a job: what the server reads as JOB, the table of its instructions, and its limits.

The compiler, the assembler and lint share the table `INSTRUCTIONS`: what each operand of each instruction is.
"""
import json
from collections.abc import Callable, Mapping, Sequence
from dataclasses import dataclass, field, replace
from enum import Enum
from types import MappingProxyType
from typing import Any

REGISTERS = 8
GROUPS = 4
KEYS = 8
PROCEDURES = 16
INSTRUCTIONS_OF_A_PROCEDURE = 256
ARGUMENTS = 2
GREATEST_FUEL = 1_000_000
LEAST_NUMBER, GREATEST_NUMBER = -(2**63), 2**63 - 1
REQUEST_BYTES = 65_536
"""The longest line of a request, in bytes, without its newline."""


class Operand(Enum):
    """What an operand is."""

    DESTINATION = "destination"
    SOURCE = "source"
    NUMBER = "number"
    TARGET = "target"
    GROUP = "group"
    PROCEDURE = "procedure"
    KEY = "key"

    @property
    def noun(self) -> str:
        """It in the words of messages."""
        if self in (Operand.DESTINATION, Operand.SOURCE):
            return "a register"
        return "an instruction of this procedure" if self is Operand.TARGET else f"a {self.value}"


_D, _A, _N, _T = Operand.DESTINATION, Operand.SOURCE, Operand.NUMBER, Operand.TARGET
_G, _P, _K = Operand.GROUP, Operand.PROCEDURE, Operand.KEY

INSTRUCTIONS: Mapping[str, tuple[Operand, ...]] = MappingProxyType({
    "set": (_D, _N),
    "add": (_D, _A, _A),
    "sub": (_D, _A, _A),
    "mul": (_D, _A, _A),
    "div": (_D, _A, _A),
    "lt": (_D, _A, _A),
    "rem": (_D, _A, _A),
    "and": (_D, _A, _A),
    "or": (_D, _A, _A),
    "xor": (_D, _A, _A),
    "shl": (_D, _A, _A),
    "shr": (_D, _A, _A),
    "eq": (_D, _A, _A),
    "le": (_D, _A, _A),
    "jz": (_A, _T),
    "jmp": (_T,),
    "slot": (_D,),
    "width": (_D,),
    "spawn": (_G, _P, _A, _A),
    "post": (_P, _A, _A),
    "wait": (_D, _D, _G),
    "cancel": (_G,),
    "ask": (_D,),
    "isolate": (_D, _P, _A, _A),
    "load": (_D, _K),
    "store": (_K, _A),
    "sum": (_D, _K),
    "count": (_D, _K),
    "ret": (_A,),
})
"""Each instruction's operands, in their order."""

LAST_INSTRUCTIONS = ("ret", "jmp")
"""What the last instruction of a procedure may be."""

NOT_SERIAL = frozenset({"slot", "width", "post", "cancel", "ask", "load", "store", "sum", "count"})
"""The instructions that a serial job has none of."""


@dataclass(frozen=True)
class Instruction:
    """An instruction: its name in `INSTRUCTIONS`, and its operands as numbers."""

    name: str
    operands: tuple[int, ...]

    def to_value(self) -> list[str | int]:
        """The list that stands for it in a JOB."""
        return [self.name, *self.operands]

    @classmethod
    def from_value(cls, value: list[str | int]) -> "Instruction":
        """The instruction of a valid JOB's list; see `arena.lint` for one that may not be valid."""
        name, *operands = value
        return cls(str(name), tuple(map(int, operands)))


Procedure = tuple[Instruction, ...]
"""The instructions of a procedure, numbered from 0."""


@dataclass(frozen=True)
class Job:
    """A job: its two arguments, its fuel in instructions, and its procedures, of which the root runs number 0. `packed`
    makes the two arguments of one number for each parameter of its source, if it has one."""

    args: tuple[int, int]
    fuel: int
    procedures: tuple[Procedure, ...]
    packed: Callable[[Sequence[int]], tuple[int, int]] | None = field(default=None, compare=False, repr=False)

    def __call__(self, *args: int) -> "Job":
        """The job with other arguments, 0 for those that are left out: two at most, or one for each parameter of the `main`
        that it was compiled of. Raises ValueError for one that does not fit."""
        if not all(LEAST_NUMBER <= it <= GREATEST_NUMBER for it in args):
            raise ValueError(f"the arguments {args} do not fit 64 bits")
        if self.packed is not None:
            return replace(self, args=self.packed(args))
        if len(args) > ARGUMENTS:
            raise ValueError(f"a job has two arguments, and here are {len(args)}")
        first, second = (*args, 0, 0)[:ARGUMENTS]
        return replace(self, args=(first, second))

    def to_value(self) -> dict[str, Any]:
        """The JSON value JOB."""
        procedures = [[it.to_value() for it in procedure] for procedure in self.procedures]
        return {"args": list(self.args), "fuel": self.fuel, "procs": procedures}

    @classmethod
    def from_value(cls, value: Mapping[str, Any]) -> "Job":
        """The job of a valid JOB; see `arena.lint` for one that may not be valid."""
        procedures = tuple(tuple(map(Instruction.from_value, it)) for it in value["procs"])
        first, second = value["args"]
        return cls((first, second), value["fuel"], procedures)

    def to_line(self) -> str:
        """The JOB as compact JSON, without a newline."""
        return json.dumps(self.to_value(), separators=(",", ":"))

    def request_bytes(self) -> int:
        """The length in bytes of a request to execute this job, without its newline."""
        return len('{"job":,"op":"execute"}') + len(self.to_line())

    def is_serial(self) -> bool:
        """Whether no schedule changes the value of the job, if it completes: it has no instruction of `NOT_SERIAL`."""
        return not any(it.name in NOT_SERIAL for procedure in self.procedures for it in procedure)

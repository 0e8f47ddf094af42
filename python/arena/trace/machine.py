"""Private runs of a row: its registers after up to 1,000 private instructions."""
from collections.abc import Callable
from dataclasses import dataclass
from functools import lru_cache
from operator import and_, or_, xor
from typing import Any, NamedTuple

# How many private instructions one advance executes at most.
RUN = 1000
# After how many instructions a procedure is compiled to Python.
WARM = 2000
LEAST, GREATEST, RANGE = -(2**63), 2**63 - 1, 2**64

# Private instructions come first; `SHARED` parts them from the others.
NAMES = ["set", "add", "sub", "lt", "jz", "jmp", "mul", "div", "slot", "width",
         "rem", "and", "or", "xor", "shl", "shr", "eq", "le",
         "spawn", "wait", "ret", "isolate", "post", "cancel", "ask", "load", "store", "sum", "count"]
NUMBERS = {name: number for number, name in enumerate(NAMES)}
SET, ADD, SUB, LT, JZ, JMP, MUL, DIV, SLOT, WIDTH, REM, AND, OR, XOR, SHL, SHR, EQ, LE, SHARED = range(19)
WAIT = NUMBERS["wait"]


class Instr(NamedTuple):
    """An instruction: its number in `NAMES`, and its operands, 0 if it has fewer than four."""

    op: int
    x: int = 0
    y: int = 0
    z: int = 0
    w: int = 0


@dataclass(slots=True)
class Run:
    """Where a private run ended: before the instruction `at`, after `count` ones, or at a division by zero, which
    `at` is."""

    at: int
    count: int
    divided_by_zero: bool


Fast = Callable[[list[int], int, int, int, int], Run]


@dataclass(slots=True, eq=False)
class Procedure:
    """A procedure. Once it is warm, `fast` runs it from any of its `leaders`: instructions that are jumped to, or
    that follow a jump or a shared instruction."""

    instrs: tuple[Instr, ...]
    executed: int = 0
    fast: Fast | None = None
    leaders: frozenset[int] = frozenset()


def decode(procs: list[list[list[Any]]]) -> list[Procedure]:
    """The procedures of a valid job. Jobs of the same code share them."""
    return [_procedure(tuple(Instr(NUMBERS[name], *operands) for name, *operands in proc)) for proc in procs]


@lru_cache(maxsize=1024)
def _procedure(instrs: tuple[Instr, ...]) -> Procedure:
    return Procedure(instrs)


def wrapped(number: int) -> int:
    """The number as a signed one of 64 bits."""
    return (number - LEAST) % RANGE + LEAST


def quotient(a: int, b: int) -> int:
    """Rounded toward zero."""
    return wrapped(abs(a) // abs(b) if (a < 0) == (b < 0) else -(abs(a) // abs(b)))


def remainder(a: int, b: int) -> int:
    """What `quotient` leaves: it has the sign of a."""
    return abs(a) % abs(b) if a >= 0 else -(abs(a) % abs(b))


def shifted_left(a: int, b: int) -> int:
    """Shifted by the low six bits of b; what leaves the 64 bits is dropped."""
    return wrapped(a << (b & 63))


def shifted_right(a: int, b: int) -> int:
    """Shifted by the low six bits of b; the sign stays."""
    return a >> (b & 63)


RESULTS: dict[int, Callable[[int, int], int]] = {
    REM: remainder, AND: and_, OR: or_, XOR: xor, SHL: shifted_left, SHR: shifted_right,
    EQ: lambda a, b: int(a == b), LE: lambda a, b: int(a <= b)}
"""What the operations give that need no look at how often they occur."""


def run_private(procedure: Procedure, registers: list[int], at: int, slot: int, width: int) -> Run:
    """Executes private instructions, which change the registers, until a shared one is next, 1,000 are executed, or one
    divides by zero."""
    instrs, leaders, count = procedure.instrs, procedure.leaders, 0
    while True:
        if at in leaders:
            assert procedure.fast is not None
            run = procedure.fast(registers, at, count, slot, width)
            if run.divided_by_zero:
                return run
            at, count = run.at, run.count
        instr = instrs[at]
        if instr[0] >= SHARED or count == RUN:
            break
        count += 1
        follows = _step(instr, registers, at, slot, width)
        if follows is None:
            return Run(at, count, True)
        at = follows
    if procedure.fast is None:
        procedure.executed += count
        if procedure.executed >= WARM:
            from arena.trace.fast import compile_procedure
            compile_procedure(procedure)
    return Run(at, count, False)


def _step(instr: Instr, registers: list[int], at: int, slot: int, width: int) -> int | None:
    """Executes one private instruction. Returns which one is next, or none if it divides by zero."""
    op, x, y, z, _ = instr
    if op == JZ:
        return y if registers[x] == 0 else at + 1
    if op == JMP:
        return x
    if op == SET:
        registers[x] = y
    elif op == ADD:
        registers[x] = wrapped(registers[y] + registers[z])
    elif op == SUB:
        registers[x] = wrapped(registers[y] - registers[z])
    elif op == LT:
        registers[x] = 1 if registers[y] < registers[z] else 0
    elif op == MUL:
        registers[x] = wrapped(registers[y] * registers[z])
    elif op in (DIV, REM) and registers[z] == 0:
        return None
    elif op == DIV:
        registers[x] = quotient(registers[y], registers[z])
    elif op in RESULTS:
        registers[x] = RESULTS[op](registers[y], registers[z])
    elif op in (SLOT, WIDTH):
        registers[x] = slot if op == SLOT else width
    else:
        raise ValueError(f"no private instruction has the number {op}")
    return at + 1

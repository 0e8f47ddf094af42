"""Private runs of procedures that execute much: each procedure as a Python function, several times faster than
instruction by instruction. The text of the function has no part of a job but its numbers, which were read as numbers.
"""
from collections.abc import Iterator
from typing import Any

from arena.trace.machine import (
    ADD, AND, DIV, EQ, JMP, JZ, LE, LT, MUL, OR, REM, RUN, SET, SHARED, SHL, SHR, SLOT, SUB, WIDTH, XOR, Fast, Instr,
    Procedure, Run, quotient, remainder, wrapped)

REGISTERS = "r0, r1, r2, r3, r4, r5, r6, r7"
OPERATORS = {ADD: "+", SUB: "-", MUL: "*"}
COMPARISONS = {LT: "<", LE: "<=", EQ: "=="}
BITS = {AND: "&", OR: "|", XOR: "^"}
DIVISIONS = {DIV: "quotient", REM: "remainder"}


def compile_procedure(procedure: Procedure) -> None:
    """Gives a procedure its `fast` and its `leaders`."""
    leaders = _leaders(procedure.instrs)
    lines = ["def run(registers, at, count, slot, width):", f" {REGISTERS} = registers", " while True:",
             *_choice(procedure.instrs, leaders, 2), f" registers[:] = {REGISTERS}", " return Run(at, count, False)"]
    names: dict[str, Any] = {"Run": Run, "wrapped": wrapped, "quotient": quotient, "remainder": remainder}
    exec(compile("\n".join(lines), "<procedure>", "exec"), names)
    fast: Fast = names["run"]
    procedure.fast, procedure.leaders = fast, frozenset(leaders)


def _leaders(instrs: tuple[Instr, ...]) -> list[int]:
    """Where a run may begin: at the start, where a jump leads, and after a jump or a shared instruction."""
    found = {0}
    for at, instr in enumerate(instrs):
        if instr.op == JZ:
            found.add(instr.y)
        elif instr.op == JMP:
            found.add(instr.x)
        if instr.op in (JZ, JMP) or instr.op >= SHARED:
            found.update((at, at + 1) if instr.op >= SHARED else (at + 1,))
    return sorted(it for it in found if it < len(instrs))


def _choice(instrs: tuple[Instr, ...], leaders: list[int], deep: int) -> Iterator[str]:
    """The block of the leader `at`, by halving."""
    indent = " " * deep
    if len(leaders) == 1:
        yield from (indent + line for line in _block(instrs, leaders[0]))
        return
    half = len(leaders) // 2
    yield f"{indent}if at < {leaders[half]:d}:"
    yield from _choice(instrs, leaders[:half], deep + 1)
    yield f"{indent}else:"
    yield from _choice(instrs, leaders[half:], deep + 1)


def _block(instrs: tuple[Instr, ...], begin: int) -> Iterator[str]:
    """The instructions from a leader to the next jump or leader, if there is room for all of them in this run."""
    leaders = set(_leaders(instrs))
    end = begin
    while instrs[end].op < SHARED:
        end += 1
        if end in leaders or instrs[end - 1].op in (JZ, JMP):
            break
    if end == begin:
        yield "break"
        return
    yield f"if count > {RUN - (end - begin):d}: break"
    yield f"count += {end - begin:d}"
    for at in range(begin, end):
        yield from _instr(instrs[at], at, end)
    if instrs[end - 1].op not in (JZ, JMP):
        yield f"at = {end:d}"


def _instr(instr: Instr, at: int, end: int) -> Iterator[str]:
    op, x, y, z, _ = instr
    if op == SET:
        yield f"r{x:d} = {y:d}"
    elif op in OPERATORS:
        yield f"r{x:d} = r{y:d} {OPERATORS[op]} r{z:d}"
        yield f"if not {-(2**63):d} <= r{x:d} <= {2**63 - 1:d}: r{x:d} = wrapped(r{x:d})"
    elif op in COMPARISONS:
        yield f"r{x:d} = 1 if r{y:d} {COMPARISONS[op]} r{z:d} else 0"
    elif op in BITS:
        yield f"r{x:d} = r{y:d} {BITS[op]} r{z:d}"
    elif op == SHL:
        yield f"r{x:d} = wrapped(r{y:d} << (r{z:d} & 63))"
    elif op == SHR:
        yield f"r{x:d} = r{y:d} >> (r{z:d} & 63)"
    elif op == JZ:
        yield f"at = {y:d} if r{x:d} == 0 else {at + 1:d}"
    elif op == JMP:
        yield f"at = {x:d}"
    elif op in DIVISIONS:
        yield f"if r{z:d} == 0: return Run({at:d}, count - {end - at - 1:d}, True)"
        yield f"r{x:d} = {DIVISIONS[op]}(r{y:d}, r{z:d})"
    elif op in (SLOT, WIDTH):
        yield f"r{x:d} = {'slot' if op == SLOT else 'width'}"
    else:
        raise ValueError(f"no private instruction has the number {op}")

"""The replay's machine: what each operation gives, by one instruction at a time and by the compiled procedure."""
import random
import unittest
import zlib
from typing import Any

from arena.assembler import assemble
from arena.jobs import INSTRUCTIONS, Operand
from arena.replies import Complete
from arena.trace import fast, machine
from arena.trace.machine import Instr, Procedure, run_private
from arena.trace.rehearsal import rehearse

from tests import by_page, drawn_jobs

LEAST, GREATEST = -(2**63), 2**63 - 1
OPERATIONS = [name for name, operands in INSTRUCTIONS.items()
              if operands == (Operand.DESTINATION, Operand.SOURCE, Operand.SOURCE)]
JOBS = 300
"""How many jobs are drawn."""
NESTING = ([["spawn", 0, 0, 0, 1], ["wait", 2, 3, 0], ["ret", 2]], [["isolate", 2, 0, 0, 1], ["ret", 2]])
"""Procedures that call themselves until the slot is too high."""
ASKING = [[["ask", 2], ["store", 0, 2], ["spawn", 0, 1, 0, 1], ["wait", 2, 3, 0], ["store", 1, 3], ["ask", 2], ["store", 2, 2],
           ["ret", 0]], [["div", 2, 0, 1], ["ret", 2]]]
"""A row that asks whether it is cancelled, before and after a row that it waits for divides by zero. Cells have the answers."""

WORKED = (
    ("rem", 7, 3, 1), ("rem", -7, 3, -1), ("rem", 7, -3, 1), ("rem", -7, -3, -1), ("rem", LEAST, -1, 0), ("rem", 5, 0, None),
    ("and", -1, 12, 12), ("and", 12, 10, 8), ("or", 12, 10, 14), ("or", LEAST, 1, LEAST + 1), ("xor", 12, 10, 6),
    ("xor", -1, 0, -1), ("xor", -1, LEAST, GREATEST),
    ("shl", 1, 63, LEAST), ("shl", 3, 63, LEAST), ("shl", 1, 64, 1), ("shl", 1, -1, LEAST), ("shl", -1, 4, -16),
    ("shr", -1, 63, -1), ("shr", LEAST, 63, -1), ("shr", 7, 1, 3), ("shr", -7, 1, -4), ("shr", 7, 65, 3), ("shr", 7, -1, 0),
    ("eq", 3, 3, 1), ("eq", 3, 4, 0), ("le", 3, 3, 1), ("le", 4, 3, 0), ("le", LEAST, GREATEST, 1), ("lt", 3, 3, 0),
)
"""An instruction with its two operands and its result, None for a fault, worked out by hand."""

CRC32 = """
; the CRC-32 of the eight bytes of x, the lowest first
proc main(x)
        set     crc 0xffffffff
        set     poly 0xedb88320
        set     one 1
        set     left 64
loop:   xor     t crc x
        and     t t one
        shr     crc crc one
        jz      t next
        xor     crc crc poly
next:   shr     x x one
        sub     left left one
        jz      left done
        jmp     loop
done:   set     t 0xffffffff
        xor     crc crc t
        ret     crc
""".replace("0xffffffff", str(0xffffffff)).replace("0xedb88320", str(0xedb88320))


def result(name: str, a: int, b: int, is_compiled: bool) -> int | None:
    """What an instruction gives for two registers; None for a fault."""
    procedure = Procedure((Instr(machine.NUMBERS[name], 2, 0, 1), Instr(machine.NUMBERS["ret"], 2)))
    if is_compiled:
        fast.compile_procedure(procedure)
    registers = [a, b, 0, 0, 0, 0, 0, 0]
    run = run_private(procedure, registers, 0, 0, 1)
    return None if run.divided_by_zero else registers[2]


Seen = tuple[int | None, tuple[int, ...] | None, int, dict[int, int]]
"""A job's value, its fault with its procedure and, unless the fuel was spent, its instruction, the fuel it used, its cells."""


def rehearsed(job: dict[str, Any], rows: int, is_compiled: bool) -> Seen:
    """What the rehearsal says of a job."""
    for procedure in machine.decode(job["procs"]) if is_compiled else ():
        fast.compile_procedure(procedure)
    seen = rehearse(job, rows=rows)
    value = seen.outcome.value if isinstance(seen.outcome, Complete) else None
    fault = None if seen.fault is None else (int(seen.fault.code), seen.fault.procedure, seen.fault.instruction)
    return value, placed(fault), seen.fuel, dict(seen.cells)


def wanted_of(slot: by_page.OneSlot) -> Seen:
    """What the page says of a job that a slot has run."""
    return slot.value if slot.fault is None else None, placed(slot.fault), slot.given - slot.left, slot.cells


def placed(fault: tuple[int, int, int] | None) -> tuple[int, ...] | None:
    """A fault, without its instruction if the fuel was spent: the page does not say at which one of an advance."""
    return fault[:2] if fault is not None and fault[0] == by_page.FUEL else fault


class Machine(unittest.TestCase):
    """What the instructions give."""

    def test_worked_results(self) -> None:
        """Each worked result, by both ways."""
        for name, a, b, wanted in WORKED:
            for is_compiled in (False, True):
                self.assertEqual(result(name, a, b, is_compiled), wanted, f"{name} {a} {b}")

    def test_worked_results_by_the_page(self) -> None:
        """Each worked result, by the evaluation that drawn ones are compared with."""
        for name, a, b, wanted in WORKED:
            self.assertEqual(by_page.of_two(name, a, b), wanted, f"{name} {a} {b}")

    def test_drawn_operands(self) -> None:
        """Drawn operands, by both ways."""
        draws = random.Random(1)
        self.assertEqual(len(OPERATIONS), 13)
        for _ in range(2_000):
            name = draws.choice(OPERATIONS)
            a, b = drawn_jobs.number(draws), drawn_jobs.number(draws)
            for is_compiled in (False, True):
                self.assertEqual(result(name, a, b, is_compiled), by_page.of_two(name, a, b), f"{name} {a} {b}")

    def test_drawn_jobs(self) -> None:
        """Drawn jobs of all instructions, on one slot, by both ways."""
        draws, executed, faults = random.Random(1), set[str](), set[int]()
        for _ in range(JOBS):
            job, rows = drawn_jobs.job(draws), draws.choice((5, 40, 4_096))
            slot = by_page.OneSlot(job, rows)
            slot.run()
            executed |= slot.executed
            faults |= set() if slot.fault is None else {slot.fault[0]}
            for is_compiled in (False, True):
                self.assertEqual(rehearsed(job, rows, is_compiled), wanted_of(slot), job)
        self.assertEqual(sorted(executed), sorted(INSTRUCTIONS))
        self.assertEqual(sorted(faults), [1, 2, 4, 5])

    def test_too_deep(self) -> None:
        """A stack that is too high, by rows that wait and by regions."""
        for procedure in NESTING:
            job = {"args": [0, 0], "fuel": 1_000, "procs": [procedure]}
            slot = by_page.OneSlot(job, 4_096)
            slot.run()
            self.assertEqual(slot.fault and slot.fault[0], by_page.TOO_DEEP)
            for is_compiled in (False, True):
                self.assertEqual(rehearsed(job, 4_096, is_compiled), wanted_of(slot))

    def test_asked_after_a_fault(self) -> None:
        """A row goes on after a fault of its job, and is told that it is cancelled."""
        for is_compiled in (False, True):
            seen = rehearsed({"args": [7, 0], "fuel": 100, "procs": ASKING}, 10, is_compiled)
            self.assertEqual(seen, (None, (1, 1, 0), 9, {0: 0, 1: 2, 2: 1}))

    def test_names(self) -> None:
        """The machine has the instructions of a job, and no others."""
        self.assertEqual(sorted(machine.NAMES), sorted(INSTRUCTIONS))

    def test_crc32(self) -> None:
        """A CRC-32 by instructions is that of zlib."""
        for text in (b"12345678", b"Zegkrom.", b"\xff" * 8):
            job = assemble(CRC32, args=(int.from_bytes(text, "little", signed=True), 0))
            self.assertEqual(rehearse(job.to_value()).outcome, Complete(zlib.crc32(text), 1))

"""Jobs that are drawn, of all instructions. Each ends: a jump leads forward, and a procedure calls only later ones."""
import random
from typing import Any

from arena.jobs import GROUPS, INSTRUCTIONS, KEYS, LEAST_NUMBER, REGISTERS, Operand

PROCEDURES = 4
EDGES = (0, 1, -1, 2, -2, 3, 63, 64, 65, 2**62, -(2**62), LEAST_NUMBER, LEAST_NUMBER + 1, 2**63 - 1)
Instr = list[Any]


def number(draws: random.Random) -> int:
    """A number of 64 bits, often one at an edge."""
    return draws.choice((*EDGES, draws.getrandbits(64) + LEAST_NUMBER))


def job(draws: random.Random) -> dict[str, Any]:
    """A job, one in four with little fuel."""
    procs = [_procedure(draws, proc) for proc in range(PROCEDURES)]
    fuel = draws.randrange(1, 100) if draws.random() < 0.25 else 100_000
    return {"args": [number(draws), number(draws)], "fuel": fuel, "procs": procs}


def _procedure(draws: random.Random, proc: int) -> list[Instr]:
    """Some instructions, in most procedures the waits for all groups, and a return."""
    names = [name for name, operands in INSTRUCTIONS.items()
             if name != "ret" and (Operand.PROCEDURE not in operands or proc + 1 < PROCEDURES)]
    body = [instr for _ in range(draws.randrange(4, 16)) for instr in _drawn(draws, draws.choice(names), proc)]
    for at, instr in enumerate(body):
        if instr[0] in ("jz", "jmp"):
            instr[-1] = draws.randrange(at + 1, len(body) + 1)
    if draws.random() < 0.9:
        body += [["wait", draws.randrange(REGISTERS), draws.randrange(REGISTERS), group] for group in range(GROUPS)]
    return [*body, ["ret", draws.randrange(REGISTERS)]]


def _drawn(draws: random.Random, name: str, proc: int) -> list[Instr]:
    """An instruction. A divisor is most often set right before, since few registers are not 0."""
    instr = [name, *(_operand(draws, operand, proc) for operand in INSTRUCTIONS[name])]
    if name in ("div", "rem") and draws.random() < 0.9:
        return [["set", instr[3], draws.choice((1, -1, 2, -3, 2**62, LEAST_NUMBER))], instr]
    return [instr]


def _operand(draws: random.Random, operand: Operand, proc: int) -> int:
    """An operand. Where a jump leads is drawn later."""
    match operand:
        case Operand.NUMBER:
            return number(draws)
        case Operand.GROUP:
            return draws.randrange(GROUPS)
        case Operand.KEY:
            return draws.randrange(KEYS)
        case Operand.PROCEDURE:
            return draws.randrange(proc + 1, PROCEDURES)
        case Operand.TARGET:
            return 0
        case _:
            return draws.randrange(REGISTERS)

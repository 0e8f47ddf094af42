"""Numbers, and what private instructions make of registers, as `docs/PROTOCOL.md` describes them."""
from typing import Protocol

# Those that make a number of those in two registers.
OF_TWO = {"add", "sub", "mul", "div", "rem", "and", "or", "xor", "shl", "shr", "lt", "le", "eq"}
PRIVATE = OF_TWO | {"set", "jz", "jmp", "slot", "width"}
RUN = 1000
ZERO = 1  # the fault


def wrapped(number: int) -> int:
    """The number as a signed one of 64 bits."""
    return (number + 2**63) % 2**64 - 2**63


def quotient(a: int, b: int) -> int:
    """The quotient rounded toward zero."""
    return wrapped(abs(a) // abs(b) if (a < 0) == (b < 0) else -(abs(a) // abs(b)))


def remainder(a: int, b: int) -> int:
    """What the division of a by b leaves, with the sign of a."""
    return abs(a) % abs(b) if a >= 0 else -(abs(a) % abs(b))


def made_of_two(name: str, a: int, b: int) -> int | None:
    """What an instruction makes of two numbers; none if it divides by zero."""
    match name:
        case "div" | "rem" if b == 0:
            return None
        case "add":
            return wrapped(a + b)
        case "sub":
            return wrapped(a - b)
        case "mul":
            return wrapped(a * b)
        case "div":
            return quotient(a, b)
        case "rem":
            return remainder(a, b)
        case "and":
            return a & b
        case "or":
            return a | b
        case "xor":
            return a ^ b
        case "shl":
            return wrapped(a * 2 ** (b % 64))
        case "shr":
            return a // 2 ** (b % 64)
        case "lt":
            return int(a < b)
        case "le":
            return int(a <= b)
        case "eq":
            return int(a == b)
    raise ValueError(name)


class Runs(Protocol):
    """What executes a procedure: its instructions and registers, and the instruction that is next."""

    instrs: list
    registers: list
    at: int


class PrivateRun:
    """What a row's private instructions make of its registers, up to 1,000 of them and up to a shared one."""

    def __init__(self, row: "Runs", slot: int, width: int) -> None:
        """Runs a row, or a frame, on that slot of so many."""
        self.registers, self.at = [*row.registers], row.at
        self.count, self.fault, self.shared = 0, None, None
        while self.count < RUN and self.fault is None:
            instr = row.instrs[self.at]
            if instr[0] not in PRIVATE:
                self.shared = instr
                break
            self.count += 1
            self.at += 1
            self.execute(*instr, slot=slot, width=width)

    def execute(self, name: str, first: int, *others: int, slot: int, width: int) -> None:
        registers = self.registers
        match name, *others:
            case _, a, b if name in OF_TWO:
                made = made_of_two(name, registers[a], registers[b])
                if made is None:
                    self.fault = ZERO
                else:
                    registers[first] = made
            case "set", number:
                registers[first] = number
            case "jz", target if registers[first] == 0:
                self.at = target
            case ("jmp",):
                self.at = first
            case ("slot",):
                registers[first] = slot
            case ("width",):
                registers[first] = width

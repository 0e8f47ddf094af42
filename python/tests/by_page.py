"""What a job does on one slot, by the tables of docs/PROTOCOL.md alone: it has nothing of the package."""
from dataclasses import dataclass, field
from fractions import Fraction
from math import floor, trunc
from typing import Any

HIGHEST, BITS = 128, 64
RANGE: int = 2**BITS
DIVISION, FUEL, TOO_DEEP, TASK_LIMIT, MISSING_WAIT = range(1, 6)


def bits_of(number: int) -> str:
    """The 64 bits of a number in two's complement, the highest first."""
    return format(number + RANGE if number < 0 else number, f"0{BITS}b")


def number_of(bits: str) -> int:
    """The number that has these bits."""
    return int(bits, 2) - (RANGE if bits[0] == "1" else 0)


def wrapped(number: int) -> int:
    """The number that the lowest 64 bits of any number are."""
    return number_of(format(number % RANGE, f"0{BITS}b"))


def by_bits(a: int, b: int, ones: tuple[str, ...]) -> int:
    """The bits that are 1 where those of a and of b are one of these pairs."""
    return number_of("".join("1" if one + other in ones else "0" for one, other in zip(bits_of(a), bits_of(b), strict=True)))


def of_two(name: str, a: int, b: int) -> int | None:
    """What an instruction makes of two registers; None if it divides by zero."""
    if name in ("div", "rem") and b == 0:
        return None
    shift = int(bits_of(b)[-6:], 2)
    match name:
        case "add":
            return wrapped(a + b)
        case "sub":
            return wrapped(a - b)
        case "mul":
            return wrapped(a * b)
        case "div":
            return wrapped(trunc(Fraction(a, b)))
        case "rem":
            return a - b * trunc(Fraction(a, b))
        case "and":
            return by_bits(a, b, ("11",))
        case "or":
            return by_bits(a, b, ("01", "10", "11"))
        case "xor":
            return by_bits(a, b, ("01", "10"))
        case "shl":
            return number_of((bits_of(a) + "0" * shift)[-BITS:])
        case "shr":
            return floor(Fraction(a, 2**shift))
        case "lt":
            return 1 if a < b else 0
        case "le":
            return 1 if a <= b else 0
        case "eq":
            return 1 if a == b else 0
    raise ValueError(name)


@dataclass
class Group:
    """A group since its last wait: how many of its rows are open, and the total of those that returned."""

    open: int = 0
    total: int = 0
    is_used: bool = False
    is_cancelled: bool = False


@dataclass(eq=False)
class Row:
    """A row. `group` is that of its maker which it is in, `region` the innermost region that it is in or is."""

    proc: int
    args: tuple[int, int]
    is_region: bool = False
    is_spawned: bool = False
    group: Group | None = None
    region: "Row | None" = None
    at: int = 0
    registers: list[int] = field(default_factory=list)
    groups: list[Group] = field(default_factory=lambda: [Group() for _ in range(4)])

    def __post_init__(self) -> None:
        self.registers = [*self.args, 0, 0, 0, 0, 0, 0]


class OneSlot:
    """A tenant of one slot that runs a job to its end. `fault` is that of the job: its code, procedure and instruction."""

    def __init__(self, job: dict[str, Any], rows: int) -> None:
        self.procs, self.given, self.left, self.rows = job["procs"], job["fuel"], job["fuel"], rows
        self.fault: tuple[int, int, int] | None = None
        self.cells: dict[int, int] = {}
        self.executed: set[str] = set()
        x, y = job["args"]
        root = Row(0, (x, y))
        self.stack: list[Row] = []
        self.waiting, self.root, self.value = [root], root, 0

    def run(self) -> None:
        """Runs the job until no row is open."""
        while self.stack or self.waiting:
            row = self.stack[-1] if self.stack else None
            if row is not None and not self.is_blocked(row):
                self.execute(row)
            elif len(self.stack) == HIGHEST:
                self.end_by(TOO_DEEP)
            else:
                self.start_next(None if row is None else row.region)

    def is_blocked(self, row: Row) -> bool:
        """Whether a wait for a group with an open row is next."""
        name, *operands = self.procs[row.proc][row.at]
        return bool(name == "wait" and row.groups[operands[2]].open)

    def start_next(self, region: Row | None) -> None:
        """Starts the newest row that was made on the slot, else the oldest; in a region, of its rows alone."""
        rows = [row for row in self.waiting if region is None or row.region is region]
        made_here = [row for row in rows if row.is_spawned]
        row = made_here[-1] if made_here else rows[0]
        self.waiting.remove(row)
        self.stack.append(row)

    def execute(self, row: Row) -> None:
        """Executes the next instruction of the topmost row, which costs 1."""
        name, *operands = self.procs[row.proc][row.at]
        if self.left == 0:
            return self.end_by(FUEL)
        self.left -= 1
        self.executed.add(name)
        fault = self.effect_of(name, operands, row)
        if fault is not None:
            self.end_by(fault)
        elif name not in ("jz", "jmp", "isolate", "ret"):
            row.at += 1
        return None

    def effect_of(self, name: str, operands: list[int], row: Row) -> int | None:
        """What an instruction does, but for the step to the next one. Returns its fault."""
        registers, x, cells = row.registers, operands[0], self.cells
        match name:
            case "set":
                registers[x] = operands[1]
            case "jz":
                row.at = operands[1] if registers[x] == 0 else row.at + 1
            case "jmp":
                row.at = x
            case "slot":
                registers[x] = 0
            case "width" | "count":
                registers[x] = 1 if name == "width" or operands[1] in cells else 0
            case "ask":
                registers[x] = 0 if self.fault is None else 1
            case "load":
                registers[x] = cells.setdefault(operands[1], 0)
            case "store":
                cells[x] = registers[operands[1]]
            case "sum":
                registers[x] = cells.get(operands[1], 0)
            case "wait":
                self.complete(row, *operands)
            case "cancel":
                self.cancel(row.groups[x])
            case "ret":
                return self.end(row, registers[x])
            case "spawn" | "post" | "isolate":
                return self.make(name, operands, row)
            case _:
                return self.compute(name, operands, registers)
        return None

    def compute(self, name: str, operands: list[int], registers: list[int]) -> int | None:
        """An instruction of three registers."""
        d, a, b = operands
        result = of_two(name, registers[a], registers[b])
        if result is None:
            return DIVISION
        registers[d] = result
        return None

    def make(self, name: str, operands: list[int], row: Row) -> int | None:
        """Makes a row."""
        *first, proc, a, b = operands
        if name == "isolate" and len(self.stack) == HIGHEST:
            return TOO_DEEP
        if len(self.stack) + len(self.waiting) >= self.rows:
            return TASK_LIMIT
        new = Row(proc, (row.registers[a], row.registers[b]))
        if name == "isolate":
            new.is_region, new.region = True, new
            self.stack.append(new)
            return None
        if name == "spawn":
            new.group, new.region, new.is_spawned = row.groups[first[0]], row.region, True
            new.group.is_used = True
        if self.fault is None and not (new.group is not None and new.group.is_cancelled):
            self.waiting.append(new)
            if new.group is not None:
                new.group.open += 1
        return None

    def complete(self, row: Row, d: int, e: int, g: int) -> None:
        """Completes a wait, and starts the group over."""
        group = row.groups[g]
        row.registers[d] = wrapped(group.total)
        row.registers[e] = 2 if group.is_cancelled or self.fault is not None else 1
        row.groups[g] = Group()

    def cancel(self, group: Group) -> None:
        """Drops the waiting rows of a group, and what is spawned into it. On one slot no row of it is live."""
        group.is_cancelled = True
        self.waiting = [row for row in self.waiting if row.group is not group]
        group.open = 0

    def end(self, row: Row, value: int) -> int | None:
        """Ends the topmost row by a `ret`."""
        if any(group.is_used for group in row.groups):
            return MISSING_WAIT
        self.stack.pop()
        if row.is_region:
            below = self.stack[-1]
            below.registers[self.procs[below.proc][below.at][1]] = value
            below.at += 1
        if row.group is not None:
            row.group.open -= 1
            row.group.total += value
        if row is self.root:
            self.value = value
        return None

    def end_by(self, code: int) -> None:
        """Ends the topmost row by a fault, with the regions below it and the row that has these, and cancels the job."""
        top = self.stack[-1]
        if self.fault is None:
            self.fault = code, top.proc, top.at
        if code == FUEL:
            self.left = 0
        while self.stack:
            row = self.stack.pop()
            if row.group is not None:
                row.group.open -= 1
            if not row.is_region:
                break
        for row in self.waiting:
            if row.group is not None:
                row.group.open -= 1
        self.waiting = []

"""Drawn jobs whose outcomes are known beforehand, by what their programs are for."""
import random
from dataclasses import dataclass

import places  # noqa: F401  (the package's path)
from arena.queue import Program

PROCS: dict[str, list[list[list[str | int]]]] = {
    # fib(x) by a loop: 3 instructions, 6 for each round, and 2.
    "loop": [[["set", 2, 0], ["set", 3, 1], ["set", 5, 1], ["jz", 0, 9], ["add", 4, 2, 3], ["add", 2, 3, 6], ["add", 3, 4, 6],
              ["sub", 0, 0, 5], ["jmp", 3], ["ret", 2]]],
    # fib(x) by rows.
    "rows": [[["set", 2, 2], ["lt", 3, 0, 2], ["jz", 3, 4], ["ret", 0], ["set", 2, 1], ["sub", 3, 0, 2], ["spawn", 0, 0, 3, 1],
              ["sub", 3, 3, 2], ["spawn", 0, 0, 3, 1], ["wait", 4, 5, 0], ["ret", 4]]],
    # The sum of 1 to x, by as many rows: two of these at a time have more rows than a tenant may.
    "wide": [[["set", 4, 1], ["jz", 0, 5], ["spawn", 0, 1, 0, 4], ["sub", 0, 0, 4], ["jmp", 1], ["wait", 5, 6, 0], ["ret", 5]],
             [["ret", 0]]],
    "division": [[["div", 2, 0, 1], ["ret", 2]]],
    # Two that are not serial: the slot that runs the job, and what it keeps in a cell.
    "slot": [[["slot", 2], ["ret", 2]]],
    "cell": [[["store", 0, 0], ["load", 2, 0], ["ret", 2]]],
}
PROGRAMS = {name: Program.of(it) for name, it in PROCS.items()}
SLOTS, ROWS = 4, 200
"""What the tenants of the check have."""

DIVISION, FUEL = 1, 2


@dataclass(frozen=True, slots=True)
class Drawn:
    """A job: which program it has, its arguments and its fuel."""

    name: str
    x: int
    y: int
    fuel: int

    @classmethod
    def by(cls, draws: random.Random) -> "Drawn":
        """A job."""
        match draws.choices(["loop", "rows", "wide", "division", "slot", "cell"], [40, 30, 2, 10, 5, 5])[0]:
            case "loop" if draws.random() < 0.1:  # long enough to be under way for a while
                return cls("loop", draws.randrange(20_000), 0, 1_000_000)
            case "loop":
                return cls("loop", draws.randrange(90), 0, draws.choice([10_000, 10_000, 10_000, 60]))
            case "rows":
                return cls("rows", draws.randrange(9), 0, 100_000)
            case "wide":
                return cls("wide", draws.randrange(120, 180), 0, 100_000)
            case "division":
                return cls("division", draws.randrange(-1000, 1000), draws.randrange(-3, 4), 10)
            case name:
                return cls(name, draws.randrange(1000), 0, 100)

    def is_right(self, state: str, value: int | None, fault: int | None) -> bool:
        """Whether the job may have this outcome."""
        match self.name:
            case "loop" if self.fuel < 5 + 6 * self.x:
                return (state, fault) == ("fault", FUEL)
            case "division" if self.y == 0:
                return (state, fault) == ("fault", DIVISION)
            case "slot":
                return state == "complete" and value is not None and 0 <= value < SLOTS
        wanted = {"loop": lambda: fib(self.x), "rows": lambda: fib(self.x), "wide": lambda: self.x * (self.x + 1) // 2,
                  "division": lambda: abs(self.x) // abs(self.y) * (1 if (self.x < 0) == (self.y < 0) else -1),
                  "cell": lambda: self.x}[self.name]()
        return (state, value) == ("complete", wanted)


def fib(n: int) -> int:
    """The nth Fibonacci number, wrapped to 64 bits."""
    a, b = 0, 1
    for _ in range(n):
        a, b = b, (a + b) % 2**64
    return (a + 2**63) % 2**64 - 2**63

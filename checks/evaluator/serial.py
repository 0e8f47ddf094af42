"""The serial value of a job, as `docs/PROTOCOL.md` describes it: each task and region runs as soon as it is made."""
from collections.abc import Sequence

from private import ZERO, PrivateRun, wrapped

NOT_SERIAL = {"slot", "width", "post", "cancel", "ask", "load", "store", "sum", "count"}


class NoValue(Exception):
    """The job has no serial value."""


class Frame:
    """A frame that was just made, which `PrivateRun` takes for a row."""

    def __init__(self, instrs: list, args: Sequence[int]) -> None:
        self.instrs, self.registers, self.at = instrs, [*args] + [0] * 6, 0


class Serial:
    """A job that is run serially, with the fuel that is left."""

    def __init__(self, job: dict) -> None:
        self.procs, self.fuel = job["procs"], job["fuel"]

    def pay(self, cost: int) -> None:
        """Takes the cost of instructions from the fuel. Raises NoValue."""
        self.fuel -= cost
        if self.fuel < 0:
            raise NoValue

    def value(self, proc: int, args: Sequence[int]) -> int:
        """What a row of a procedure returns. Raises NoValue."""
        frame, totals = Frame(self.procs[proc], args), {}
        while True:
            ran = PrivateRun(frame, 0, 1)
            self.pay(ran.count)
            if ran.fault == ZERO:
                raise NoValue
            frame.registers, frame.at = ran.registers, ran.at
            if not ran.shared:
                continue
            self.pay(1)
            name, *operands = ran.shared
            if name == "ret" and totals:
                raise NoValue
            if name == "ret":
                return frame.registers[operands[0]]
            self.execute(frame, totals, name, operands)
            frame.at += 1

    def execute(self, frame: Frame, totals: dict[int, int], name: str, operands: list[int]) -> None:
        """Executes a shared instruction but `ret`. Raises NoValue."""
        registers = frame.registers
        match name, *operands:
            case "spawn", group, proc, a, b:
                totals[group] = totals.get(group, 0) + self.value(proc, (registers[a], registers[b]))
            case "isolate", to, proc, a, b:
                registers[to] = self.value(proc, (registers[a], registers[b]))
            case "wait", to, status, group:
                registers[to] = wrapped(totals.pop(group, 0))
                registers[status] = 1


def serial_value(job: dict) -> int | str:
    """What `arena-script serial` answers for a valid job."""
    if any(instr[0] in NOT_SERIAL for proc in job["procs"] for instr in proc):
        return "not_serial"
    try:
        return Serial(job).value(0, job["args"])
    except NoValue:
        return "none"

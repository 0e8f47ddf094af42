"""The eight registers for the unlimited ones, by colouring the graph of those that are live together."""
from dataclasses import dataclass, field

from arena.jobs import ARGUMENTS, REGISTERS
from arena.language.code import MOVE, OPERATIONS, Code
from arena.language.liveness import as_set, live_after, live_or_written, members

Colours = dict[int, int]
"""For each register of the code one of the eight."""


@dataclass(frozen=True)
class Coloured:
    """Code whose registers are chosen."""

    code: Code
    colours: Colours


@dataclass(frozen=True)
class Pressure:
    """The place of the step at which most registers are live, and these."""

    at: int
    registers: tuple[int, ...]


@dataclass
class Graph:
    """For each register the set of those that it must differ from, and those that it had better be equal to."""

    near: dict[int, int] = field(default_factory=dict)
    like: dict[int, list[int]] = field(default_factory=dict)

    def add(self, register: int, others: int) -> None:
        """Notes that a register differs from others, on its own side alone."""
        self.near[register] = (self.near.get(register, 0) | others) & ~(1 << register)

    def close(self) -> None:
        """Notes for all others, too, what was added."""
        for register, others in list(self.near.items()):
            for other in members(others):
                self.near[other] = self.near.get(other, 0) | 1 << register

    def prefer(self, register: int, other: int) -> None:
        """Notes that a register had better be equal to another one."""
        self.like.setdefault(register, []).append(other)


def graph_of(code: Code) -> Graph:
    """The graph of code. A register that is written differs from all that are live after the step, save that a copy may
    stay where it is."""
    graph = Graph()
    for step, after in zip(code, live_after(code)):
        for register in step.defines:
            others = after | as_set(step.defines)
            if step.name == MOVE:
                others &= ~as_set(step.uses)
            graph.add(register, others)
        for register in step.uses:
            graph.add(register, 0)
        if step.name == MOVE:
            graph.prefer(step.defines[0], step.uses[0])
            graph.prefer(step.uses[0], step.defines[0])
    for step in code:
        if step.name in OPERATIONS:
            for register in step.uses:
                graph.prefer(step.defines[0], register)
    graph.close()
    return graph


def _simplified(graph: Graph, fixed: Colours) -> list[int]:
    """The registers in the order in which they are taken out of the graph: first those that certainly find a colour."""
    left = dict(graph.near)
    order: list[int] = []
    waiting = [it for it in left if it not in fixed]
    while waiting:
        register = next((it for it in waiting if left[it].bit_count() < REGISTERS), None)
        if register is None:
            register = max(waiting, key=lambda it: left[it].bit_count())
        waiting.remove(register)
        order.append(register)
        for other in members(left[register]):
            left[other] &= ~(1 << register)
    return order


def coloured(code: Code, fixed: Colours) -> Coloured | None:
    """The code with one of the eight registers for each of its registers, or None if that was not found. `fixed` are
    those that are chosen already."""
    graph = graph_of(code)
    given = dict(fixed)
    for register in reversed(_simplified(graph, fixed)):
        taken = {given[it] for it in members(graph.near[register]) if it in given}
        free = [it for it in range(REGISTERS) if it not in taken]
        if not free:
            return None
        liked = [given[it] for it in graph.like.get(register, ()) if given.get(it) in free]
        later = [it for it in free if it >= ARGUMENTS]
        given[register] = (liked or later or free)[0]
    return Coloured(code, given)


def greatest_pressure(code: Code) -> Pressure:
    """Where most registers are live."""
    written = live_or_written(code)
    at = max(range(len(code)), key=lambda it: written[it].bit_count())
    return Pressure(at, tuple(members(written[at])))

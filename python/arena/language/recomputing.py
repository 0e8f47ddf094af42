"""Values that are computed again where they are read, if there are too few registers to keep them: nothing else can be done
with them, since a procedure has no memory. It costs instructions, so it is done for functions alone that would be refused."""
from dataclasses import dataclass, replace

from arena.jobs import REGISTERS
from arena.language.code import MOVE, PURE, Code, Registers, Step, weight
from arena.language.colouring import Coloured, coloured
from arena.language.flow import successors
from arena.language.liveness import live_after, live_or_written, members, without_unread

AGAIN = PURE - {MOVE, "slot", "width"}
"""The steps that may be done again: what they give depends on their operands alone."""

MOST_TRIES = 40
"""How many values are computed again at most; each takes the compiler some hundredths of a second."""


@dataclass(frozen=True)
class Again:
    """A value that may be computed again: its register, the places of the steps that compute it, in their order, those where
    it is read, the registers that have to be alive for it, and how many instructions more that is taken to be."""

    register: int
    steps: tuple[int, ...]
    reads: tuple[int, ...]
    leaves: frozenset[int]
    cost: int


def coloured_again(code: Code, registers: Registers) -> Coloured | None:
    """The code with registers, after some values are computed again; None if that does not help."""
    made: set[int] = set()
    for _ in range(MOST_TRIES):
        is_few = max(it.bit_count() for it in live_or_written(code)) <= REGISTERS
        found = coloured(code, registers.fixed) if is_few else None
        if found is not None:
            return found
        best = _best(code, made)
        if best is None:
            return None
        code = without_unread(_computed_again(code, best, registers, made))
    return None


def _best(code: Code, made: set[int]) -> Again | None:
    """What had better be computed again, at the place where most registers are live for which there is something."""
    written, after = live_or_written(code), live_after(code)
    uses = _Uses(code)
    for at in sorted(range(len(code)), key=lambda it: -written[it].bit_count()):
        if written[at].bit_count() < REGISTERS:
            return None
        found = [it for register in members(after[at]) if register not in made
                 if (it := uses.again(register)) is not None and all(after[at] >> leaf & 1 for leaf in it.leaves)]
        if found:
            return min(found, key=lambda it: (it.cost, it.register))
    return None


class _Uses:
    """Where each register of some code is written and read."""

    def __init__(self, code: Code) -> None:
        self.code, self.nexts = code, successors(code)
        self.writes: dict[int, list[int]] = {}
        self.reads: dict[int, list[int]] = {}
        self._found: dict[int, Again | None] = {}
        for at, step in enumerate(code):
            for register in step.defines:
                self.writes.setdefault(register, []).append(at)
            for register in dict.fromkeys(step.uses):
                self.reads.setdefault(register, []).append(at)

    def again(self, register: int) -> Again | None:
        """How a register's value may be computed again, if it may."""
        if register not in self._found:
            self._found[register] = self._again(register)
        return self._found[register]

    def _again(self, register: int) -> Again | None:
        steps = self._steps(register)
        inner = {self.code[at].defines[0] for at in steps}
        leaves = {use for at in steps for use in self.code[at].uses} - inner
        reads = self.reads.get(register, [])
        if not steps or not all(self._is_unchanged(at, inner, reads) for at in steps):
            return None
        cost = len(steps) * (sum(weight(self.code[at].depth) for at in reads) - weight(self.code[steps[-1]].depth))
        return Again(register, tuple(steps), tuple(reads), frozenset(leaves), cost)

    def _steps(self, register: int) -> list[int]:
        """The places of the steps that compute a register and what is read for it alone; none if it can't be done again."""
        writes = self.writes.get(register, [])
        if len(writes) != 1 or self.code[writes[0]].name not in AGAIN:
            return []
        at = writes[0]
        found: list[int] = []
        for use in dict.fromkeys(self.code[at].uses):
            if self.reads[use] == [at]:
                found += self._steps(use)
        return [*found, at]

    def _is_unchanged(self, start: int, inner: set[int], reads: list[int]) -> bool:
        """Whether a step's operands, of those that are not computed again with it, are at all reads what they were when the
        step was done last."""
        leaves = {it for it in self.code[start].uses if it not in inner}
        changed = [False] * len(self.code)
        waiting = [0]
        changed[0] = bool(leaves)
        seen = {0}
        while waiting:
            at = waiting.pop()
            after = at != start and (changed[at] or any(it in leaves for it in self.code[at].defines))
            for following in self.nexts[at]:
                if following not in seen or (after and not changed[following]):
                    seen.add(following)
                    changed[following] = changed[following] or after
                    waiting.append(following)
        return not any(changed[at] for at in reads)


def _computed_again(code: Code, it: Again, registers: Registers, made: set[int]) -> Code:
    """The code in which a value is computed right before each step that reads it."""
    found: Code = []
    for at, step in enumerate(code):
        if at in it.reads:
            renamed: dict[int, int] = {}
            for inner in it.steps:
                found.append(_renewed(code[inner], step, renamed, registers))
            made.update(renamed.values())
            step = replace(step, uses=tuple(renamed.get(use, use) if use == it.register else use for use in step.uses))
        found.append(step)
    return found


def _renewed(step: Step, reader: Step, renamed: dict[int, int], registers: Registers) -> Step:
    """A step once more, into a register of its own, before the step that reads its value."""
    register = step.defines[0]
    renamed[register] = registers.new(registers.names.get(register, ""))
    uses = tuple(renamed.get(use, use) for use in step.uses)
    return replace(step, defines=(renamed[register],), uses=uses, depth=reader.depth)

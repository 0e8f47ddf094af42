"""Which registers are live at each step: what they hold may still be read. A set of registers is an integer whose bit r
stands for register r."""
from collections.abc import Iterable, Iterator

from arena.language.code import PURE, Code
from arena.language.flow import successors


def as_set(registers: Iterable[int]) -> int:
    """The set of some registers."""
    found = 0
    for register in registers:
        found |= 1 << register
    return found


def members(registers: int) -> Iterator[int]:
    """The registers of a set, in order."""
    while registers:
        lowest = registers & -registers
        yield lowest.bit_length() - 1
        registers ^= lowest


def live_after(code: Code) -> list[int]:
    """For each step the set of the registers that are live after it."""
    nexts = successors(code)
    defines, uses = [as_set(it.defines) for it in code], [as_set(it.uses) for it in code]
    before, after = [0] * len(code), [0] * len(code)
    is_changed = True
    while is_changed:
        is_changed = False
        for at in range(len(code) - 1, -1, -1):
            live = 0
            for following in nexts[at]:
                live |= before[following]
            after[at], live = live, live & ~defines[at] | uses[at]
            if live != before[at]:
                before[at], is_changed = live, True
    return after


def live_or_written(code: Code) -> list[int]:
    """For each step the set of the registers that are live after it, or written by it."""
    return [live | as_set(step.defines) for step, live in zip(code, live_after(code))]


def without_unread(code: Code) -> Code:
    """The code without steps that only give a register a value which nothing reads. A division stays: it may fault."""
    while True:
        after = live_after(code)
        kept = [it for it, live in zip(code, after) if it.name not in PURE or as_set(it.defines) & live]
        if len(kept) == len(code):
            return code
        code = kept

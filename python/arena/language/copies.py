"""Copies that are not needed: both registers of a copy become one if they never differ while both are live."""
from dataclasses import replace

from arena.language.code import MOVE, Code, Registers, Step
from arena.language.colouring import Coloured, coloured, graph_of


def without_copies(it: Coloured, registers: Registers) -> Coloured:
    """The code without the copies that are not needed, as long as it finds its registers."""
    refused: set[tuple[int, int]] = set()
    while True:
        copy = next((step for step in it.code if step.name == MOVE and _pair(step) not in refused), None)
        if copy is None:
            return it
        merged = _merged(it.code, copy, registers)
        changed = coloured(merged, registers.fixed) if merged else None
        if changed is None:
            refused.add(_pair(copy))
        else:
            it = changed


def _pair(copy: Step) -> tuple[int, int]:
    return copy.defines[0], copy.uses[0]


def _merged(code: Code, copy: Step, registers: Registers) -> Code | None:
    """The code with one register for both of a copy, or None if they must differ."""
    gone, kept = copy.defines[0], copy.uses[0]
    if gone in registers.fixed:
        gone, kept = kept, gone
    if gone in registers.fixed or graph_of(code).near.get(gone, 0) >> kept & 1:
        return None
    names = [registers.names[it] for it in (kept, gone) if it in registers.names]
    if names:
        registers.names[kept] = "/".join(dict.fromkeys(names))
    return [_renamed(it, gone, kept) for it in code if it is not copy]


def _renamed(step: Step, gone: int, kept: int) -> Step:
    if gone not in step.defines and gone not in step.uses:
        return step
    defines, uses = (tuple(kept if it == gone else it for it in registers) for registers in (step.defines, step.uses))
    return replace(step, defines=defines, uses=uses)

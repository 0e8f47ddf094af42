"""Constants in registers: a number that is set again and again is set once instead, as long as there are registers."""
from collections.abc import Iterator
from dataclasses import dataclass, replace

from arena.jobs import REGISTERS
from arena.language.code import LABEL, LOOP, Code, Registers, Step, weight
from arena.language.colouring import Coloured, coloured
from arena.language.liveness import as_set, live_or_written


@dataclass(frozen=True)
class Candidate:
    """A number that is set at several places of a stretch of code, to `registers`, and may be set once instead, at
    `at`. The one register would be live up to `end`. `gain` is how many instructions that is taken to save."""

    number: int
    at: int
    places: tuple[int, ...]
    registers: frozenset[int]
    end: int
    gain: int

    def has_room(self, written: list[int]) -> bool:
        """Whether there is a register for it wherever it would be live. `written` are the registers that are live
        after each step, or written by it."""
        own = as_set(self.registers)
        return all((it & ~own).bit_count() < REGISTERS for it in written[self.at:self.end])


def with_constants(it: Coloured, registers: Registers) -> Coloured:
    """The code with constants kept in registers, the best first."""
    refused: set[frozenset[int]] = set()
    while True:
        written = live_or_written(it.code)
        found = [candidate for candidate in candidates(it.code)
                 if candidate.registers not in refused and candidate.has_room(written)]
        if not found:
            return it
        best = max(found, key=lambda candidate: candidate.gain)
        changed = coloured(_kept(it.code, best, registers), registers.fixed)
        if changed is None:
            refused.add(best.registers)
        else:
            it = changed


def candidates(code: Code) -> Iterator[Candidate]:
    """The candidates that gain something: of each loop, and of each stretch without labels."""
    settings = _settings(code)
    for at, step in enumerate(code):
        if step.name == LOOP:
            yield from _within(code, settings, at, _end_of_loop(code, at), at)
    for start, end in _stretches(code):
        yield from _within(code, settings, start, end, None)


def _settings(code: Code) -> list[int]:
    """The places where a number is set to a register that is written nowhere else."""
    writes: dict[int, int] = {}
    for step in code:
        for register in step.defines:
            writes[register] = writes.get(register, 0) + 1
    return [at for at, step in enumerate(code) if step.name == "set" and writes[step.defines[0]] == 1]


def _end_of_loop(code: Code, at: int) -> int:
    """The end of the loop that begins after a place."""
    return next((it for it in range(at + 1, len(code)) if code[it].depth <= code[at].depth), len(code))


def _stretches(code: Code) -> Iterator[tuple[int, int]]:
    """The stretches of steps that are entered at their first step alone."""
    start = 0
    for at, step in enumerate(code):
        if step.name == LABEL:
            yield start, at
            start = at + 1
    yield start, len(code)


def _within(code: Code, settings: list[int], start: int, end: int, at: int | None) -> Iterator[Candidate]:
    """The candidates of a stretch; without a place of their own, the numbers are set at the first of their places."""
    places: dict[int, list[int]] = {}
    for place in settings:
        if start <= place < end:
            places.setdefault(code[place].number, []).append(place)
    for number, found in places.items():
        where = found[0] if at is None else at
        gain = sum(weight(code[it].depth) for it in found) - weight(code[where].depth)
        if gain > 0:
            last = found[-1] + 1 if at is None else end
            yield Candidate(number, where, tuple(found), frozenset(code[it].defines[0] for it in found), last, gain)


def _kept(code: Code, it: Candidate, registers: Registers) -> Code:
    """The code with the number of a candidate in a register of its own."""
    register = registers.new(str(it.number))
    made: Code = []
    for at, step in enumerate(code):
        if at == it.at:
            made.append(Step("set", code[it.places[0]].place, (register,), number=it.number, depth=step.depth))
        if at not in it.places:
            uses = tuple(register if use in it.registers else use for use in step.uses)
            made.append(replace(step, uses=uses) if uses != step.uses else step)
    return made

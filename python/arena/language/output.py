"""The instructions of a job from code whose registers are chosen."""
from collections.abc import Iterator, Mapping
from dataclasses import dataclass

from arena.jobs import INSTRUCTIONS, Instruction, Operand, Procedure
from arena.language.code import ARGUMENT, LABEL, LOOP, MOVE, Code, Registers, Step
from arena.language.colouring import Coloured, Colours
from arena.language.faults import Place
from arena.language.syntax import Function


@dataclass(frozen=True)
class Line:
    """An instruction of a procedure with what the listing says of it. `names` are those of its registers."""

    instruction: Instruction
    source_line: int
    labels: tuple[str, ...]
    words: tuple[str, ...]
    names: tuple[str, ...]


@dataclass(frozen=True)
class FinishedProcedure:
    """A procedure with its name, what messages call it, its lines, and the place of its function; `holds` says which
    variables are in which register, at one time or another."""

    name: str
    title: str
    lines: tuple[Line, ...]
    holds: Mapping[int, tuple[str, ...]]
    place: Place

    def instructions(self) -> Procedure:
        """The instructions alone."""
        return tuple(it.instruction for it in self.lines)


def without_moves(it: Coloured) -> Code:
    """The code with instructions in place of copies between two registers, without the other copies, and without the
    steps that only mark something."""
    made: Code = []
    for step in it.code:
        if step.name == MOVE:
            (to,), (source,) = step.defines, step.uses
            if it.colours[to] != it.colours[source]:
                made.append(Step("or", step.place, (to,), (source, source), depth=step.depth))
        elif step.name not in (ARGUMENT, LOOP):
            made.append(step)
    return made


def operands_of(step: Step, colours: Colours, targets: Mapping[str, int],
                procedures: Mapping[str, int]) -> Iterator[int]:
    """The operands of a step's instruction, in their order. A task without arguments is given register 0."""
    defines, uses = iter(step.defines), iter(step.uses)
    for operand in INSTRUCTIONS[step.name]:
        match operand:
            case Operand.DESTINATION:
                yield colours[next(defines)]
            case Operand.SOURCE:
                yield colours.get(next(uses, 0), 0)
            case Operand.NUMBER:
                yield step.number
            case Operand.TARGET:
                yield targets[step.target]
            case Operand.GROUP:
                yield step.group
            case Operand.PROCEDURE:
                yield procedures[step.procedure]
            case Operand.KEY:
                yield step.key


def finished(function: Function, made: Coloured, registers: Registers,
             procedures: Mapping[str, int]) -> FinishedProcedure:
    """The procedure of a function. `procedures` numbers the functions."""
    code, colours = without_moves(made), made.colours
    targets: dict[str, int] = {}
    labels: dict[int, list[str]] = {}
    count = 0
    for step in code:
        if step.name == LABEL:
            targets[step.target] = count
            labels.setdefault(count, []).append(step.target)
        else:
            count += 1
    lines: list[Line] = []
    for step in code:
        if step.name != LABEL:
            numbers = tuple(operands_of(step, colours, targets, procedures))
            names = tuple(registers.name(it) for it in (*step.defines, *step.uses))
            words = tuple(shown(step, operand, number) for operand, number in zip(INSTRUCTIONS[step.name], numbers))
            instruction = Instruction(step.name, numbers)
            lines.append(Line(instruction, step.place.line, tuple(labels.get(len(lines), ())), words, names))
    return FinishedProcedure(function.name, function.title, tuple(lines), _holds(code, colours, registers), function.place)


def shown(step: Step, operand: Operand, number: int) -> str:
    """An operand as the assembler reads it."""
    match operand:
        case Operand.TARGET:
            return step.target
        case Operand.PROCEDURE:
            return step.procedure
        case Operand.NUMBER:
            return str(number)
    letter = {Operand.GROUP: "g", Operand.KEY: "k"}.get(operand, "r")
    return f"{letter}{number}"


def _holds(code: Code, colours: Colours, registers: Registers) -> dict[int, tuple[str, ...]]:
    held: dict[int, dict[str, None]] = {}
    for step in code:
        for register in (*step.uses, *step.defines):
            if register in registers.names:
                held.setdefault(colours[register], {})[registers.names[register]] = None
    return {register: tuple(held[register]) for register in sorted(held)}


def listing(procedures: list[FinishedProcedure], serial: bool) -> str:
    """The procedures as text that `arena.assembler` reads: with labels, and in comments the variables of the registers
    and the source line of each instruction."""
    text = [f"; {'a serial job' if serial else 'not a serial job'}"]
    for number, procedure in enumerate(procedures):
        text += ["", f"proc {procedure.name}    ; {number}"]
        text += [f"        ; r{register}: {', '.join(names)}" for register, names in procedure.holds.items()]
        for at, line in enumerate(procedure.lines):
            text += [f"{label}:" for label in line.labels]
            words = f"{line.instruction.name:8}{' '.join(line.words)}"
            names = f": {', '.join(line.names)}" if line.names else ""
            text.append(f"        {words:32}; {at}, line {line.source_line}{names}")
    return "\n".join(text) + "\n"

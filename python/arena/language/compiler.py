"""From a source to a job, through all passes."""
from collections.abc import Mapping, Sequence
from dataclasses import dataclass, field
from typing import Any

from arena.jobs import GREATEST_FUEL, INSTRUCTIONS_OF_A_PROCEDURE, REGISTERS, REQUEST_BYTES, Job
from arena.language import output
from arena.language.arithmetic import fits
from arena.language.builder import Source
from arena.language.code import ARGUMENT, DIVISIONS, MOVE, NO_OPERATION, PURE, Code, Registers
from arena.language.colouring import Coloured, coloured, greatest_pressure
from arena.language.constants import with_constants
from arena.language.copies import without_copies
from arena.language.faults import Notes, SourceFault, SourceWarning
from arena.language.flow import tidied
from arena.language.groups import with_ended_groups, with_waits
from arena.language.layouts import arguments_of
from arena.language.liveness import without_unread
from arena.language.output import FinishedProcedure, finished
from arena.language.parser import TOO_DEEP, parse
from arena.language.recomputing import coloured_again
from arena.language.statements import FunctionMaker
from arena.language.syntax import Function
from arena.language.unit import Unit
from arena.texts import counted, listed


MAY_GO = frozenset({*NO_OPERATION, ARGUMENT, *PURE})
"""The steps that may be no instructions in the end."""

MAY_BE_SHARED = frozenset({*NO_OPERATION, ARGUMENT, MOVE, "set"})
"""Those of them that may be no instructions though they are read: copies, and numbers that are set elsewhere."""


@dataclass(frozen=True)
class Compiled:
    """A compiled source: its job, whether that is serial: whether no schedule changes its value, and what is odd in the
    source. `job(1, 2, 3)` is the job with these arguments, one for each parameter of its `main`."""

    job: Job
    serial: bool
    file: str
    warnings: tuple[SourceWarning, ...]
    _procedures: list[FinishedProcedure] = field(repr=False)

    def listing(self) -> str:
        """The job's instructions as `arena.assembler` reads them, with labels, the variables of the registers and the
        source lines."""
        return output.listing(self._procedures, self.serial)

    def divisions(self) -> list[int]:
        """The lines of the source that divide by something else than a constant from 1: where fault 1 may come from. The
        ends of a `psum` that do not fit its index are divided by 0."""
        return sorted({line.source_line for procedure in self._procedures for line in procedure.lines
                       if line.instruction.name in DIVISIONS and not line.names[-1].strip("-0").isdigit()})

    def length(self, name: str) -> int:
        """How many instructions a function has."""
        return next(len(it.lines) for it in self._procedures if it.name == name)

    def place(self, procedure: int, instruction: int) -> str:
        """What instruction of which procedure is of the source, in words: `count, line 12`."""
        it = self._procedures[procedure]
        return f"{it.title}, line {it.lines[instruction].source_line}"

    def source_map(self) -> dict[str, Any]:
        """For JSON: `{"file":..,"procedures":[{"lines":[..],"name":..},..]}` with the source line of each
        instruction."""
        procedures = [{"lines": [line.source_line for line in it.lines], "name": it.name} for it in self._procedures]
        return {"file": self.file, "procedures": procedures}


@dataclass(frozen=True)
class _Made:
    """A function, its registers, and its code in which these are chosen."""

    function: Function
    registers: Registers
    result: Coloured


def compile_source(text: str, *, parameters: Mapping[str, int] | None = None, args: Sequence[int] = (0, 0),
                   fuel: int = GREATEST_FUEL, file: str = "<job>") -> Compiled:
    """Compiles a source. `parameters` give values to its `param`s, `args` are the arguments of the root, one for each
    parameter of its function, and `fuel` is the number of instructions that the job may execute. `file` is the name in
    messages.

    Raises `SourceFault` with all faults if the source can't be compiled, and ValueError for arguments or fuel out of range.
    It blocks for as long as it computes: some milliseconds for each procedure.
    """
    if not all(map(fits, args)):
        raise ValueError(f"the arguments {args} do not fit 64 bits")
    if not 1 <= fuel <= GREATEST_FUEL:
        raise ValueError(f"the fuel is from 1 to {GREATEST_FUEL}, not {fuel}")
    notes = Notes()
    try:
        unit = Unit(parse(text, notes), parameters or {}, notes)
        procedures = _procedures(unit, notes)
        root = unit.functions[unit.root()]
        job = Job(arguments_of(root, args), fuel, tuple(it.instructions() for it in procedures),
                  lambda numbers: arguments_of(root, numbers))
        _check_length(job, procedures)
    except SourceFault as fault:
        for it in fault.all():
            it.file, it.text = file, text
        raise
    return Compiled(job, job.is_serial(), file, tuple(notes.warnings(file)), procedures)


def _procedures(unit: Unit, notes: Notes) -> list[FinishedProcedure]:
    waiting = [unit.functions[name] for name in unit.order()]

    def add_function(function: Function) -> None:
        """Adds a function that is not in the source."""
        unit.functions[function.name] = function
        unit.check_count(function.place)
        waiting.append(function)

    source = Source(unit, notes, add_function)
    made: list[_Made] = []
    while waiting:
        try:
            made += _made(source, waiting.pop(0))
        except SourceFault as fault:
            notes.note(fault)
            source.opened.clear()
    notes.refuse()
    numbers = {it.function.name: number for number, it in enumerate(made)}
    return [_finished(it, numbers) for it in made]


def _made(source: Source, function: Function) -> list[_Made]:
    """The code of a function through all passes up to the choice of its registers; none if faults of it were noted. Raises
    `SourceFault`."""
    maker, before = FunctionMaker(source, function), source.notes.count
    registers = maker.registers
    try:
        made = maker.make()
    except RecursionError:
        raise (maker.caller() or maker.place).fault(TOO_DEEP) from None
    if source.notes.count > before:
        return []
    code = tidied(with_ended_groups(made, registers))
    _check_count(function, sum(it.name not in MAY_GO for it in code), "at least ")
    code = without_unread(with_waits(code, registers))
    _check_count(function, sum(it.name not in MAY_BE_SHARED for it in code), "at least ")
    result = coloured(code, registers.fixed) or coloured_again(code, registers)
    if result is None:
        raise _pressure(function, code, registers)
    return [_Made(function, registers, with_constants(without_copies(result, registers), registers))]


def _pressure(function: Function, code: Code, registers: Registers) -> SourceFault:
    """The fault that a function needs more registers than there are."""
    pressure = greatest_pressure(code)
    names = sorted({shown_name(registers.names[it]) for it in pressure.registers if it in registers.names})
    values = sum(it not in registers.names for it in pressure.registers)
    shown = listed([*names, *([counted(values, "other value")] if values else [])])
    step = code[pressure.at]
    inside = f", in the inline fn of line {step.place.line}, column {step.place.column}," if step.caller else ""
    return (step.caller or step.place).fault(
        f"{function.title} needs more than {REGISTERS} registers here{inside or ','} and there is no memory to put one "
        f"into; alive are {shown}: let another fn do a part, or compute a value where it is needed")


def shown_name(name: str) -> str:
    """The name of a variable; one that the source does not have stands in parentheses."""
    return f"the {name[1:-1]}" if name.startswith("(") else name


def _finished(it: _Made, numbers: Mapping[str, int]) -> FinishedProcedure:
    """The procedure of a function, if it is not too long."""
    procedure = finished(it.function, it.result, it.registers, numbers)
    _check_count(it.function, len(procedure.lines))
    return procedure


def _check_count(function: Function, count: int, least: str = "") -> None:
    """Refuses a procedure with too many instructions. The first passes say which it has at least, so that none takes
    long for code that is refused at the end."""
    if count > INSTRUCTIONS_OF_A_PROCEDURE:
        raise function.place.fault(f"{function.title} has {least}{count} instructions, and a procedure has at most "
                                   f"{INSTRUCTIONS_OF_A_PROCEDURE}: let another fn do a part")


def _check_length(job: Job, procedures: Sequence[FinishedProcedure]) -> None:
    """Refuses a job whose request is too long, at the procedure with the most instructions."""
    length = job.request_bytes()
    if length > REQUEST_BYTES:
        longest = max(procedures, key=lambda it: len(it.lines))
        raise longest.place.fault(f"the request with this job has {length} bytes, and a line has at most {REQUEST_BYTES}: "
                                  f"make the source shorter; {longest.name} has the most instructions")

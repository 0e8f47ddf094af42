"""What all makers of a function's code share: the code so far, its registers and labels, and the names that are
alive."""
from collections.abc import Callable
from dataclasses import dataclass, field
from typing import Any

from arena.jobs import INSTRUCTIONS_OF_A_PROCEDURE, PROCEDURES
from arena.language.code import ARGUMENT, LABEL, LOOP, MOVE, Code, Registers, Step
from arena.language.faults import NOWHERE, Notes, Place
from arena.language.names import Names, Pending
from arena.language.syntax import Application, Expression, Function, Gathers, Parameter
from arena.language.unit import Unit, folded

MOST_STEPS = 1_536
"""The most steps that are made of a function, and the most inline functions that are inserted in it. What the later
passes leave out is far less than the difference to what a procedure may have."""


@dataclass(frozen=True)
class Loop:
    """A loop around a place: where `continue` and `break` go, and which tasks were pending, and how many blocks open,
    when it began."""

    more: str
    end: str
    pending: Pending
    blocks: int


@dataclass(frozen=True)
class Sum:
    """The parallel sum whose body is being made: what it gathers, in which register, where `give` goes, and which tasks
    were pending, and how many blocks open, when it began."""

    gathers: Gathers
    total: int
    more: str
    pending: Pending
    blocks: int


@dataclass
class Source:
    """What the makers of all functions of a source share. `opened` are the uses of inline functions around the place,
    `add_function` makes a function that is not in the source, and `notes` takes what is wrong or odd."""

    unit: Unit
    notes: Notes
    add_function: Callable[[Function], None]
    opened: list[Application] = field(default_factory=list)


@dataclass(frozen=True)
class Unpacked:
    """A parameter with its register."""

    parameter: Parameter
    register: int


class Builder:
    """The code of a function that is being made."""

    def __init__(self, source: Source, function: Function) -> None:
        self.source, self.unit, self.function = source, source.unit, function
        self.names = Names(self.unit, function.around)
        self.registers = Registers()
        self.code: Code = []
        self.loops: list[Loop] = []
        self.sum: Sum | None = None
        self.depth = 0
        self.place = function.place
        self._labels = self._expanded = 0

    def label(self) -> str:
        """A label that nothing uses yet."""
        self._labels += 1
        return f"L{self._labels}"

    def emit(self, name: str, place: Place, defines: tuple[int, ...] = (), uses: tuple[int, ...] = (),
             **more: Any) -> None:
        """Adds a step; `more` are the other members of `Step`."""
        self.place, caller = place, self.caller()
        if len(self.code) >= MOST_STEPS:
            raise (caller or place).fault(f"{self.function.title} has more than {MOST_STEPS} steps, of which a procedure "
                                          f"has at most {INSTRUCTIONS_OF_A_PROCEDURE}: let another fn do a part")
        self.code.append(Step(name, place, defines, uses, depth=self.depth, caller=caller, **more))

    def is_spent(self) -> bool:
        """Whether a limit is reached that each further statement would reach, too."""
        return (len(self.code) >= MOST_STEPS or self._expanded > MOST_STEPS
                or len(self.unit.functions) > PROCEDURES)

    def warn(self, place: Place, message: str) -> None:
        """Notes what is odd."""
        self.source.notes.warn(place, message)

    def warn_if_hiding(self, name: str, place: Place) -> None:
        """Warns of a variable that has the name of one of a block around it."""
        if name.isidentifier() and self.names.is_further_out(name):
            self.warn_hiding(name, place)

    def warn_hiding(self, name: str, place: Place) -> None:
        """Warns of a name that hides one further out."""
        self.warn(place, f"{name} hides the {name} of a block around this one: to change that, leave `let` out; else choose "
                  "another name")

    def caller(self) -> Place | None:
        """Where the outermost inline function is used that this place is in."""
        return self.source.opened[0].place if self.source.opened else None

    def expand(self, application: Application) -> None:
        """Notes that an inline function is inserted. They may use each other, so what one line says may have no end in
        practice."""
        self.place = application.place
        self._expanded += 1
        if self._expanded > MOST_STEPS:
            raise (self.caller() or application.place).fault(
                f"more than {MOST_STEPS} inline functions would be inserted in {self.function.title}, since they use each "
                "other: make some of them an fn")
        self.source.opened.append(application)

    def put(self, label: str) -> None:
        """Places a label here."""
        self.code.append(Step(LABEL, NOWHERE, target=label, depth=self.depth))

    def mark_loop(self) -> None:
        """Marks that a loop begins here; the loop's own steps are one deeper."""
        self.code.append(Step(LOOP, NOWHERE, depth=self.depth))

    def jump(self, label: str, place: Place, after: str = "") -> None:
        """Jumps to a label, unless that is placed right after."""
        if label != after:
            self.emit("jmp", place, target=label)

    def number(self, value: int, place: Place, into: int | None = None) -> int:
        """A register that holds a number."""
        register = self.registers.new(str(value)) if into is None else into
        self.emit("set", place, (register,), number=value)
        return register

    def move(self, register: int, into: int | None, place: Place) -> int:
        """Copies a register into another one, if one is asked for."""
        if into is None or into == register:
            return register
        self.emit(MOVE, place, (into,), (register,))
        return into

    def fold(self, expression: Expression) -> int | None:
        """The number that an expression always has, or None."""
        return folded(expression, self.names.constant, self.unit.own)

    def part(self, place: Place, register: int, shift: int, bits: int | None, name: str) -> int:
        """A parameter of a packed argument: so many bits from one on; all from that one on without a number of bits."""
        shifted = register
        if shift:
            shifted = self.registers.new(name if bits is None else "")
            self.emit("shr", place, (shifted,), (register, self.number(shift, place)))
        if bits is None:
            return shifted
        low = self.registers.new(name)
        self.emit("and", place, (low,), (shifted, self.number(2**bits - 1, place)))
        return low

    def argument(self, number: int, parameters: tuple[Parameter, ...]) -> int:
        """A register that holds an argument at the start."""
        name = parameters[0].name if len(parameters) == 1 else "(packed)"
        register = self.registers.new(name)
        self.registers.fixed[register] = number
        self.emit(ARGUMENT, parameters[0].place, (register,), number=number)
        return register

    def unpacked(self, register: int, parameters: tuple[Parameter, ...]) -> list[Unpacked]:
        """The parameters of an argument with their registers."""
        found, shift = [], 0
        for number in range(len(parameters) - 1, -1, -1):
            parameter = parameters[number]
            bits = parameter.bits if number else None
            part = self.part(parameter.place, register, shift, bits, parameter.name)
            found.append(Unpacked(parameter, part))
            shift += parameter.bits or 0
        return found

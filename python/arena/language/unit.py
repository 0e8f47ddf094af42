"""The items of a source by their names: constants, cells, inline functions, functions."""
from collections.abc import Callable, Container, Iterator, Mapping, Sequence
from difflib import get_close_matches

from arena.jobs import KEYS, PROCEDURES
from arena.language import arithmetic
from arena.language.faults import START, Notes, Place, SourceFault
from arena.language.layouts import Layout, layout_of
from arena.language.syntax import (Application, Binary, CellName, Constant, Expression, Function, Inline, Item, Name,
                                   Not, Number)
from arena.texts import counted, is_or_are, listed

BUILT_IN = {"slot": "slot", "width": "width", "cancelled": "ask"}
"""The built-in functions, which have no arguments, and their instructions."""

FUNCTIONS: Mapping[str, Callable[..., int]] = {"min": min, "max": max, "abs": lambda it: arithmetic.wrapped(abs(it))}
"""The functions that a source may use, or have its own of the same names."""

ROOT = "main"
"""The function that the job's root runs; without one of this name, the first."""


def folded(expression: Expression, constant: Callable[[str], int | None], own: Container[str]) -> int | None:
    """The number that an expression always has, if its names are constants, else None. `own` are the names of the source's
    functions."""
    match expression:
        case Number(value=value):
            return value
        case Name(name=name):
            return constant(name)
        case Not(operand=operand):
            number = folded(operand, constant, own)
            return None if number is None else int(number == 0)
        case Binary(operator=operator, left=left, right=right):
            return arithmetic.result(operator, folded(left, constant, own), folded(right, constant, own))
        case Application(name=name, arguments=arguments) if name in FUNCTIONS and name not in own:
            return _applied(name, [folded(it, constant, own) for it in arguments])
    return None


def _applied(name: str, numbers: Sequence[int | None]) -> int | None:
    """What a function of the language gives for some numbers, if all are known."""
    known = [it for it in numbers if it is not None]
    is_whole = len(known) == len(numbers) and takes(name, len(numbers))
    return FUNCTIONS[name](*known) if is_whole else None


def takes(name: str, count: int) -> bool:
    """Whether a function of the language takes so many arguments."""
    return count == 1 if name == "abs" else count >= 2


class Unit:
    """The items of a source, and the order of the functions as procedures. What is there twice or too often is noted, and
    so are parameters given by number that the source does not have. Raises `SourceFault` if there is no function."""

    def __init__(self, items: Sequence[Item], parameters: Mapping[str, int], notes: Notes) -> None:
        self.own = frozenset(it.name for it in items if isinstance(it, Inline | Function))
        self.constants: dict[str, int] = {}
        self.cells: dict[str, int] = {}
        self.inlines: dict[str, Inline] = {}
        self.functions: dict[str, Function] = {}
        self._given = dict(parameters)
        self.parameters = {it.name for it in items if isinstance(it, Constant) and it.is_parameter}
        self._places: dict[str, Place] = {}
        self._taken_keys = {it.key for it in items if isinstance(it, CellName) and it.key is not None}
        for item in items:
            try:
                self._enter(item)
            except SourceFault as fault:
                notes.note(fault)
                if isinstance(item, Constant):
                    self.constants.setdefault(item.name, 1)  # so that its uses are no faults, too
        for found in self._faults():
            notes.note(found)
        if not self.functions:
            notes.refuse()
            raise START.fault("there is no fn: write `fn main(x, y) { .. }`")

    def _enter(self, item: Item) -> None:
        if item.name in BUILT_IN:
            raise item.place.fault(f"{item.name} is built in: choose another name")
        if item.name in self._places:
            raise item.place.fault(f"{item.name} is there already, in line {self._places[item.name].line}: choose "
                                   "another name")
        self._places[item.name] = item.place
        match item:
            case Constant():
                self.constants[item.name] = self._constant(item)
            case CellName():
                self.cells[item.name] = self._key(item)
            case Inline():
                self.inlines[item.name] = item
            case Function():
                self.functions[item.name] = item

    def _constant(self, item: Constant) -> int:
        if item.name in self._given and item.name in self.parameters:
            number = self._given[item.name]
            if not arithmetic.fits(number):
                raise item.place.fault(f"{item.name} = {number} does not fit 64 bits")
            return number
        found = folded(item.value, self.constants.get, self.own)
        if found is None:
            raise item.value.place.fault(f"the value of {item.name} is no constant: write it with numbers, operators "
                                         "and the constants above it")
        return found

    def _key(self, item: CellName) -> int:
        if len(self.cells) == KEYS:
            raise item.place.fault(f"there are only {KEYS} cells, and they are {listed(self.cells)}: use one for two "
                                   "things")
        key = item.key
        if key is None:
            free = set(range(KEYS)) - self._taken_keys - set(self.cells.values())
            if not free:
                raise item.place.fault(f"no key is left for {item.name}: there are only {KEYS} cells, and those below "
                                       "choose theirs")
            return min(free)
        if key >= KEYS:
            raise item.place.fault(f"the key of a cell is from 0 to {KEYS - 1}")
        if key in self.cells.values():
            other = listed(name for name, number in self.cells.items() if number == key)
            raise item.place.fault(f"key {key} is that of the cell {other}: choose another key, or leave it out")
        return key

    def _faults(self) -> Iterator[SourceFault]:
        """What is wrong with the items as a whole."""
        for name in self._given:
            if name not in self.parameters:
                yield START.fault(f"there is no param {name} in the source: write `param {name} = ..` with the value "
                                  "that it has without one")
        items: list[Function | Inline] = [*self.functions.values(), *self.inlines.values()]
        for item in items:
            try:
                self._check_names(item)
                if isinstance(item, Function):
                    layout_of(item)
            except SourceFault as fault:
                yield fault
        if len(self.functions) > PROCEDURES:
            try:
                self.check_count(list(self.functions.values())[PROCEDURES].place)
            except SourceFault as fault:
                yield fault

    def _check_names(self, function: Function | Inline) -> None:
        seen: set[str] = set()
        for parameter in function.parameters:
            self.check_variable(parameter.name, parameter.place)
            if parameter.name in seen:
                raise parameter.place.fault(f"{function.name} has two parameters {parameter.name}: rename one")
            if parameter.bits and isinstance(function, Inline):
                raise parameter.place.fault("parameters of an inline fn have no width")
            seen.add(parameter.name)

    def check_count(self, place: Place) -> None:
        """Refuses more functions than a job can have procedures."""
        if len(self.functions) > PROCEDURES:
            raise place.fault(f"a job has at most {PROCEDURES} procedures, and here are {len(self.functions)} (each fn "
                              "and each psum is one): make some of them inline")

    def check_variable(self, name: str, place: Place) -> None:
        """Refuses a variable that has the name of a constant or a cell."""
        if name in self.constants or name in self.cells:
            kind = "constant" if name in self.constants else "cell"
            raise place.fault(f"{name} is a {kind} already: choose another name")

    def root(self) -> str:
        """The name of the function that the root runs."""
        return ROOT if ROOT in self.functions else next(iter(self.functions))

    def order(self) -> list[str]:
        """The functions as they are numbered: the root's first, then the others as they stand in the source."""
        root = self.root()
        return [root, *(name for name in self.functions if name != root)]

    def key(self, cell: str, place: Place) -> int:
        """The key of a cell."""
        if cell not in self.cells:
            raise place.fault(f"there is no cell {cell}: write `cell {cell}` outside the "
                              f"functions{self._similar(cell)}")
        return self.cells[cell]

    def function(self, target: Application) -> Function:
        """The function that a spawn, call, isolate or post names, checked for the number of its arguments."""
        name, count = target.name, len(target.arguments)
        if name not in self.functions:
            why = "is an inline fn, which makes no task: write it without the word before it" if name in self.inlines \
                else f"is no fn of this source{self._similar(name)}"
            raise target.place.fault(f"{name} {why}")
        function = self.functions[name]
        if count != len(function.parameters):
            raise target.place.fault(f"{name} takes {counted(len(function.parameters), 'argument')}, and here "
                                     f"{is_or_are(count)}")
        return function

    def layout(self, function: Function) -> Layout:
        """The layout of a function of this unit."""
        return layout_of(function)

    def _similar(self, name: str) -> str:
        close = get_close_matches(name, self._places, 1)
        return f"; did you mean {close[0]}?" if close else ""

"""A parallel sum as a function of its own: it spawns the upper half of its range into a group as long as the range is
longer than the grain, adds the terms of what is left, and then the group's total. It is called for ranges that are not
empty alone, and so are all parts of one."""
from collections.abc import Callable
from dataclasses import dataclass

from arena.jobs import GREATEST_NUMBER, LEAST_NUMBER
from arena.language.captures import names_from_outside
from arena.language.faults import Place
from arena.language.layouts import PACKED_BITS
from arena.language.names import HALVES, Names, Variable
from arena.language.syntax import (Application, Assign, Binary, Block, Break, Call, DeclareGroup, Expression, Extreme,
                                   Function, Gathers, If, Let, LetTask, Name, Number, Parameter, ParallelSum, Return,
                                   Spawn, Statement, SumLoop, Wait, While)

SIZE, MIDDLE, TOTAL, LOWER, UPPER = "(size)", "(middle)", "(total)", "(lower half)", "(upper half)"
"""Names that no source can have: the length of a range, where it is divided, the sum of one task, and those of its halves."""

NEUTRAL = {Gathers.SUM: 0, Gathers.LEAST: GREATEST_NUMBER, Gathers.GREATEST: LEAST_NUMBER}
"""What comes of a range without indices."""

GREATEST_STEP = 2**20
"""The greatest step of a parallel sum."""

Spawned = Callable[[Expression, Expression], Application]
"""The application of a parallel sum's function to a range from one expression up to another."""

GREATEST_INDEX_BITS = PACKED_BITS // 2 - 1
"""The most bits of an index with a width: both ends of a range share an argument, and the upper may be one beyond."""


@dataclass(frozen=True)
class SumFunction:
    """The function of a parallel sum. `applied` gives its application to a range, which must not be empty, and whose ends
    must fit the index's width."""

    function: Function
    applied: Spawned


def sum_function(it: ParallelSum, grain: int, step: int, names: Names, around: str) -> SumFunction:
    """The function of a parallel sum in a function `around` in which `names` are alive."""
    place, end = it.place, f"(end of {it.index})"
    captured = _captured(it, names)
    count = sum(name.startswith(f"{around}.sum") for name in names.unit.functions)
    name = f"{around}.sum{count + 1}"
    bits = None if it.bits is None or not captured else it.bits + 1
    ends = [Parameter(place, it.index, bits, "is counted by the psum around this line"), Parameter(place, end, bits)]
    outer = [Parameter(place, captured, kept="is of the function around this psum, which can't change "
                                             "it")] if captured else []

    def spawned(low: Expression, high: Expression) -> Application:
        """The function's application to a range."""
        return Application(place, name, (*(Name(place, parameter.name) for parameter in outer), low, high))

    parts = _Parts(place, it.index, end, min(grain * step, GREATEST_NUMBER), step, spawned)
    leaf = (Let(place, TOTAL, Number(place, NEUTRAL[it.gathers])),
            SumLoop(place, it.gathers, step, it.index, end, it.body))
    if it.gathers is Gathers.SUM:
        total = Binary(place, "+", Name(place, TOTAL), Wait(place, HALVES))
        statements: tuple[Statement | SumLoop, ...] = (DeclareGroup(place, HALVES), parts.split(), *leaf, Return(place, total))
    else:
        statements = (*parts.halve(it.gathers is Gathers.LEAST), *leaf, Return(place, Name(place, TOTAL)))
    body, shown = Block(place, statements, it.body.end), f"the {it.gathers.value} of line {place.line}"
    return SumFunction(Function(place, name, (*outer, *ends), body, _numbers(it, names), shown, names.variables()),
                       spawned)


def _numbers(it: ParallelSum, names: Names) -> dict[str, int]:
    """The names that the body uses which stand for numbers in the inline function around it."""
    found = {name: names.found(name) for name in names_from_outside(it.body, it.index)}
    return {name: meaning for name, meaning in found.items() if isinstance(meaning, int)}


@dataclass(frozen=True)
class _Parts:
    """How a task divides its range from `low` up to `high`, if that is longer than `most`. Parts begin at indices, which are
    `step` apart."""

    place: Place
    low: str
    high: str
    most: int
    step: int
    spawned: Spawned

    def binary(self, operator: str, left: str, right: Expression) -> Binary:
        """An operation on a variable."""
        return Binary(self.place, operator, Name(self.place, left), right)

    def size(self) -> Let:
        """`let size = high - low`."""
        return Let(self.place, SIZE, self.binary("-", self.high, Name(self.place, self.low)))

    def middle(self) -> Let:
        """`let middle = ..`, between the ends."""
        place, step = self.place, self.step
        if step == 1:
            half = self.binary("/", SIZE, Number(place, 2))
            return Let(place, MIDDLE, self.binary("-", self.high, half))
        steps = Binary(place, "/", self.binary("+", SIZE, Number(place, step)), Number(place, 2 * step))
        return Let(place, MIDDLE, self.binary("+", self.low, Binary(place, "*", steps, Number(place, step))))

    def upper(self) -> Application:
        """The application to the upper half."""
        return self.spawned(Name(self.place, MIDDLE), Name(self.place, self.high))

    def split(self) -> While:
        """`while 1 { let size = ..; if size <= most { break }; let middle = ..; spawn halves: self(middle, high);
        high = middle }`."""
        place = self.place
        is_short = self.binary("<=", SIZE, Number(place, self.most))
        return While(place, Number(place, 1), Block(place, (
            self.size(),
            If(place, is_short, Block(place, (Break(place),), place), Block(place, (), place)),
            self.middle(),
            Spawn(place, HALVES, self.upper()),
            Assign(place, self.high, Name(place, MIDDLE))), place))

    def halve(self, is_least: bool) -> tuple[Let, If]:
        """`let size = ..; if size > most { let middle = ..; let upper = spawn self(middle, high); let lower = call
        self(low, middle); return the least of lower and wait upper }`."""
        place, low, middle = self.place, Name(self.place, self.low), Name(self.place, MIDDLE)
        found = Extreme(place, is_least, (Name(place, LOWER), Wait(place, UPPER)))
        block = Block(place, (self.middle(), LetTask(place, UPPER, self.upper()),
                              Let(place, LOWER, Call(place, self.spawned(low, middle))), Return(place, found)), place)
        is_long = self.binary(">", SIZE, Number(place, self.most))
        return self.size(), If(place, is_long, block, Block(place, (), place))


def _captured(it: ParallelSum, names: Names) -> str | None:
    """The one variable of the function around that the body may use, if it uses one."""
    used = names_from_outside(it.body, it.index)
    found = [name for name in used if isinstance(names.found(name), Variable)]
    if not found:
        return None
    shown = f"the body of this {it.gathers.value} uses {found[0]} of the function around it"
    if len(found) > 1:
        raise used[found[1]].fault(f"{shown}, and also {found[1]}: a task has room for one such variable beside the "
                                   "ends of its range; write an fn with packed parameters that spawns its halves")
    if it.bits is None:
        raise used[found[0]].fault(f"{shown}: a task has room for it if the index has a width, such as "
                                   f"{it.gathers.value} {it.index}: u20")
    if it.bits > GREATEST_INDEX_BITS:
        raise it.place.fault(f"the index of a {it.gathers.value} that uses a variable from outside has at most "
                             f"{GREATEST_INDEX_BITS} bits")
    return found[0]

"""Draws sources, as syntax trees, whose value no schedule changes, though some are not serial: cells are read where no
other row can have written them, groups are cancelled before anything is spawned into them."""
import random
from dataclasses import dataclass

from arena.language.faults import NOWHERE
from arena.language.syntax import (Application, Assign, Binary, Block, Break, Call, Cancel, CellName, CellPart,
                                   Constant, Continue, DeclareGroup, Evaluate, Expression, For, Function, Gathers, Give, If,
                                   Inline, Isolate, Item, Let, LetBoth, LetTask, Name, Not, Number, Parameter,
                                   ParallelSum, Post, ReadCell, Return, Spawn, StoreCell, Sync, Wait, While)

NUMBERS = (0, 1, 2, 3, 4, 5, 7, 10, 64, 100, -1, -3, 2**20, 2**40, 2**63 - 1, -(2**63))
ARITHMETIC, COMPARISONS, LOGIC = (*"++--**/%&|^", "<<", ">>"), ("<", ">", "<=", ">=", "==", "!="), ("&&", "||")
MOST_VARIABLES = (4, 4, 6)


def number(value: int) -> Number:
    return Number(NOWHERE, value)


def name(text: str) -> Name:
    return Name(NOWHERE, text)


def binary(operator: str, left: Expression, right: Expression) -> Binary:
    return Binary(NOWHERE, operator, left, right)


def block(*statements):
    return Block(NOWHERE, tuple(statements), NOWHERE)


def function(text, parameters, *statements):
    return Function(NOWHERE, text, tuple(Parameter(NOWHERE, it) for it in parameters), block(*statements))


def applied(text, *arguments):
    return Application(NOWHERE, text, tuple(arguments))


@dataclass(frozen=True)
class Room:
    """What may stand at a place: the variables that can be read, those that can be assigned, the functions that can be
    called, how deep blocks may still nest, and whether a loop or a parallel sum is around."""

    readable: tuple[str, ...]
    assignable: tuple[str, ...]
    functions: tuple[str, ...]
    depth: int
    in_loop: bool = False
    in_sum: bool = False

    def inside(self, **more):
        return Room(**{**self.__dict__, "depth": self.depth - 1, **more})

    def plus(self, *names, kept=()):
        more = {"readable": (*self.readable, *names, *kept), "assignable": (*self.assignable, *names)}
        return Room(**{**self.__dict__, **more})


class Drawer:
    """Draws sources. Some use what makes a job not serial, if `may_be_unserial`."""

    def __init__(self, draws: random.Random, may_be_unserial: bool) -> None:
        self.draws, self.may_be_unserial, self.count = draws, may_be_unserial, 0
        self.most_variables = draws.choice(MOST_VARIABLES)

    def chance(self, share):
        return self.draws.random() < share

    def new(self, letter):
        self.count += 1
        return f"{letter}{self.count}"

    # expressions

    def expression(self, room, depth=2):
        pick = self.draws.random()
        if depth == 0 or pick < 0.3:
            return self.operand(room)
        if pick < 0.37:
            return Not(NOWHERE, self.expression(room, depth - 1))
        if pick < 0.40:
            return binary("-", number(0), self.expression(room, depth - 1))
        if pick < 0.42:
            return binary("^", self.expression(room, depth - 1), number(-1))
        if pick < 0.5:
            inline = self.draws.choice(("mix", "near", "clip", "min", "max", "abs"))
            if inline == "abs":
                return applied(inline, self.expression(room, depth - 1))
            return applied(inline, *(self.expression(room, depth - 1) for _ in range(2)))
        if pick < 0.53 and self.may_be_unserial:
            return self.unserial_expression()
        signs = self.draws.choice((ARITHMETIC, ARITHMETIC, COMPARISONS, LOGIC))
        sides = [self.expression(room, depth - 1) for _ in range(2)]
        return binary(self.draws.choice(signs), *sides)

    def operand(self, room):
        if room.readable and self.chance(0.6):
            return name(self.draws.choice(room.readable))
        return name("BASE") if self.chance(0.1) else number(self.draws.choice(NUMBERS))

    def unserial_expression(self):
        return self.draws.choice((
            applied("width"), applied("cancelled"), binary("<", applied("slot"), applied("width")),
            ReadCell(NOWHERE, "unused", CellPart.SUM), ReadCell(NOWHERE, "unused", CellPart.COUNT)))

    # statements: each method returns the statements, and the names that they declare

    def body(self, room, most=3):
        """The statements of a block."""
        found = []
        for _ in range(self.draws.randint(1, most)):
            statements, names = self.draws.choice(self.kinds(room))(room)
            found += [*statements, *(self.use(it, room) for it in names if room.assignable and self.chance(0.6))]
            room = room.plus(*names)
        return found

    def use(self, variable, room):
        """A statement whose effect depends on a variable, and on how often it is executed."""
        to = self.draws.choice(room.assignable)
        return Assign(NOWHERE, to, binary("+", binary("*", name(to), number(3)), name(variable)))

    def condition(self, room, depth=2):
        """An expression that is often a comparison."""
        if self.chance(0.5):
            return self.expression(room, depth)
        return binary(self.draws.choice(COMPARISONS), self.operand(room), self.expression(room, depth - 1))

    def kinds(self, room):
        """The methods that may draw at this place, as often as they shall be chosen."""
        kinds = [self.assignment] * 3 * bool(room.assignable) + [self.leaving] * (3 if room.in_sum else 1)
        if len(room.readable) < self.most_variables:
            kinds += [self.let] * 2
            if room.functions:
                kinds += [self.tasks, self.tasks, self.group, self.group, self.call]
            if room.depth > 0:
                kinds += [self.counted_while, self.parallel_sum, self.parallel_sum]
            if self.may_be_unserial:
                kinds += [self.cell, self.dropped_group]
        if room.depth > 0:
            kinds += [self.conditional] * 3 + [self.counted_for] * 3
        if self.may_be_unserial and room.functions:
            kinds += [self.post]
        if room.in_loop:
            kinds += [self.loop_leaving]
        return kinds

    def let(self, room):
        variable, other = self.new("v"), self.draws.choice(room.readable or ("BASE",))
        if self.chance(0.6):
            return [Let(NOWHERE, variable, self.expression(room))], [variable]
        advance = Assign(NOWHERE, variable, binary("+", name(variable), self.operand(room)))
        return [Let(NOWHERE, variable, name(other)), advance], [variable]

    def assignment(self, room):
        variable = self.draws.choice(room.assignable)
        value = self.expression(room)
        if self.chance(0.6):
            value = binary(self.draws.choice(ARITHMETIC), name(variable), value)
        return [Assign(NOWHERE, variable, value)], []

    def leaving(self, room):
        value = self.expression(room, 1)
        way = Give(NOWHERE, value) if room.in_sum else Return(NOWHERE, value)
        return [If(NOWHERE, self.condition(room, 1), block(way), block())], []

    def loop_leaving(self, room):
        way = self.draws.choice((Break, Continue))(NOWHERE)
        return [If(NOWHERE, self.condition(room, 1), block(way), block())], []

    def conditional(self, room):
        inner = room.inside()
        otherwise = self.body(inner) if self.chance(0.5) else []
        return [If(NOWHERE, self.condition(room), block(*self.body(inner)), block(*otherwise))], []

    def counted_for(self, room):
        """A loop of a few turns, up to a number, an expression, or a variable that its body may assign to."""
        index, end = self.new("i"), self.new("e")
        low = self.draws.choice((number(0), number(2), binary("%", self.operand(room), number(4))))
        few = binary("%", self.operand(room), number(6))
        before, high = [], self.draws.choice((number(3), number(5), few, name(end), name(end)))
        if room.readable and self.chance(0.3):
            low = name(self.draws.choice(room.readable))
            few = high = binary("+", low, number(3))
        inner = room.inside(in_loop=True).plus(kept=(index,))
        if isinstance(high, Name):
            before = [Let(NOWHERE, end, few)]
            inner = inner.plus(end)
        found = [self.use(index, room)] if room.assignable and self.chance(0.7) else []
        if before and self.chance(0.4):
            found.append(Assign(NOWHERE, end, binary(self.draws.choice("+-"), name(end), number(1))))
        step = number(self.draws.choice((1, 1, 1, 2, 3, -1)))
        return [*before, For(NOWHERE, index, low, high, step, block(*found, *self.body(inner)))], []

    def counted_while(self, room):
        """A loop with a counter that it advances first, so that it ends."""
        counter, end = self.new("w"), number(self.draws.randint(1, 4))
        going = self.draws.choice((
            binary("<", name(counter), end), binary("<=", name(counter), end), binary("!=", name(counter), end),
            Not(NOWHERE, binary("==", name(counter), end)), binary("&&", binary(">", end, name(counter)),
                                                                   self.expression(room, 1))))
        advance = Assign(NOWHERE, counter, binary("+", name(counter), number(1)))
        inner = room.inside(in_loop=True).plus(kept=(counter,))
        loop = While(NOWHERE, going, block(advance, *self.body(inner)))
        return [Let(NOWHERE, counter, number(0)), loop], []

    def arguments(self, function_name, room):
        if function_name == "packed":
            return [*(self.draws.choice((number(self.draws.randint(0, 99)), binary("+", binary(
                "%", self.expression(room, 1), number(50)), number(50)))) for _ in range(2)), self.expression(room, 1)]
        if function_name == "descend":
            return [number(self.draws.randint(-1, 4)), self.expression(room, 1)]
        return [self.expression(room, 1) for _ in range(2)]

    def target(self, room):
        chosen = self.draws.choice(room.functions)
        return applied(chosen, *self.arguments(chosen, room))

    def tasks(self, room):
        """A task, and what is done before it is waited for."""
        task, other = self.new("a"), self.new("b")
        found = [LetTask(NOWHERE, task, self.target(room)), LetTask(NOWHERE, other, self.target(room))]
        if room.depth > 0 and self.chance(0.4):
            found += self.conditional(room.inside(functions=(), depth=1))[0]
        waits = [[Sync(NOWHERE)], [Evaluate(NOWHERE, Wait(NOWHERE, task)), Sync(NOWHERE)],
                 [Evaluate(NOWHERE, Wait(NOWHERE, other)), Evaluate(NOWHERE, Wait(NOWHERE, task))],
                 [Let(NOWHERE, self.new("u"), binary("-", Wait(NOWHERE, task), Wait(NOWHERE, other)))]]
        total = Assign(NOWHERE, task, binary(self.draws.choice("+-"), name(task), binary("*", name(other), number(3))))
        return [*found, *self.draws.choice(waits), total], [task]

    def call(self, room):
        way = Isolate if self.chance(0.3) else Call
        variable = self.new("c")
        return [Let(NOWHERE, variable, way(NOWHERE, self.target(room)))], [variable]

    def group(self, room):
        """A group with some rows, and its total."""
        group, total, status, index = self.new("g"), self.new("t"), self.new("s"), self.new("i")
        spawns = [Spawn(NOWHERE, self.draws.choice((group, group, None)), self.target(room))
                  for _ in range(self.draws.randint(1, 2))]
        if self.chance(0.3):
            inner = room.plus(kept=(index,))
            spawns.append(For(NOWHERE, index, number(0), number(2), number(1), block(Spawn(NOWHERE, group, self.target(inner)))))
        if self.chance(0.5):
            return [DeclareGroup(NOWHERE, group), *spawns, LetBoth(NOWHERE, total, status, group)], [total]
        value = binary(self.draws.choice("+-*"), self.operand(room), Wait(NOWHERE, group))
        return [DeclareGroup(NOWHERE, group), *spawns, Let(NOWHERE, total, value)], [total]

    def dropped_group(self, room):
        """A group that is cancelled before anything is spawned into it."""
        group, total, status = self.new("g"), self.new("t"), self.new("s")
        spawns = [Spawn(NOWHERE, group, self.target(room))] if room.functions else []
        both = Let(NOWHERE, self.new("u"), binary("*", name(total), name(status)))
        return [DeclareGroup(NOWHERE, group), Cancel(NOWHERE, group), *spawns, LetBoth(NOWHERE, total, status, group),
                both], [status]

    def cell(self, room):
        """A cell that is read at once after it was written."""
        variable = self.new("k")
        return [StoreCell(NOWHERE, "mine", self.expression(room)),
                Let(NOWHERE, variable, ReadCell(NOWHERE, "mine", CellPart.LOCAL))], [variable]

    def post(self, room):
        return [Post(NOWHERE, self.target(room))], []

    def parallel_sum(self, room):
        index, total = self.new("q"), self.new("t")
        low, high = self.draws.randint(-4, 4), self.draws.randint(0, 9)
        captured = self.draws.choice(room.readable) if room.readable and self.chance(0.4) else None
        bits = None
        if captured:
            low, bits = abs(low), self.draws.randint(5, 30)
        readable = (index, *([captured] if captured else []))
        inner = Room(readable, (), room.functions, 1, in_sum=True)
        early = If(NOWHERE, binary(self.draws.choice(COMPARISONS), name(index), number(low + 2)),
                   block(Give(NOWHERE, self.expression(inner))), block())
        body = block(*([early] if self.chance(0.4) else []), *(self.body(inner, 2) if self.chance(0.6) else []),
                     Give(NOWHERE, self.expression(inner)))
        ends = [number(low), number(high)]
        if room.readable and self.chance(0.4):
            ends = [binary("+", binary("%", name(self.draws.choice(room.readable)), number(5)), end) for end in ends]
        gathers, step = self.draws.choice((*[Gathers.SUM] * 3, *Gathers)), number(self.draws.choice((1, 1, 1, 2, 5)))
        it = ParallelSum(NOWHERE, gathers, index, bits, *ends, step, number(self.draws.randint(1, 4)), body)
        return [Let(NOWHERE, total, it)], [total]

    # items

    def whole(self, own_name, functions):
        room = Room(("x", "y"), ("x", "y"), functions, 2)
        return function(own_name, ("x", "y"), *self.body(room), Return(NOWHERE, self.mixed(room)))

    def mixed(self, room):
        """An expression that depends on all variables that can be assigned."""
        found = self.expression(room, 1)
        for factor, variable in zip((31, 7, 1_001), room.assignable):
            found = binary(self.draws.choice("+-"), binary("*", name(variable), number(factor)), found)
        return found

    def program(self) -> list[Item]:
        """The items of a source whose `main` has two parameters."""
        room = Room(("a", "b"), (), (), 0)
        inlines = [Inline(NOWHERE, it, (Parameter(NOWHERE, "a"), Parameter(NOWHERE, "b")), value) for it, value in (
            ("mix", binary("+", binary("*", name("a"), name("BASE")), name("b"))),
            ("near", binary("||", binary("==", name("a"), name("b")), binary("<", name("a"), name("BASE")))),
            ("clip", self.expression(room)))]
        if uses(inlines[2].value, "clip"):  # it must not use itself
            inlines[2] = Inline(NOWHERE, "clip", inlines[0].parameters, binary("%", name("a"), number(7)))
        callees = {"packed": self.packed, "descend": self.descend, "middle": lambda: self.whole("middle", ("leaf",))}
        callee = self.draws.choice((*callees, "leaf"))
        functions = [self.whole("main", ("leaf", callee)), self.whole("leaf", ())]
        functions += [callees[callee]()] if callee in callees else []
        items = [Constant(NOWHERE, "BASE", binary("+", number(1), number(2)), False), *inlines, *functions]
        cells = [CellName(NOWHERE, "unused", None), CellName(NOWHERE, "mine", self.draws.choice((None, 3, 7)))]
        return cells + items if self.may_be_unserial else items

    def packed(self):
        parameters = (Parameter(NOWHERE, "p", 8), Parameter(NOWHERE, "q", 12), Parameter(NOWHERE, "r"))
        room = Room(("p", "q", "r"), ("p", "q", "r"), (), 1)
        body = block(*self.body(room, 2), Return(NOWHERE, self.mixed(room)))
        return Function(NOWHERE, "packed", parameters, body)

    def descend(self):
        """A function that calls itself."""
        room = Room(("n", "x"), (), (), 1)
        lower = [binary("-", name("n"), number(it)) for it in (1, 2)]
        last = block(Return(NOWHERE, self.expression(room, 1)))
        return function("descend", ("n", "x"),
                        If(NOWHERE, binary("<=", name("n"), number(0)), last, block()),
                        LetTask(NOWHERE, "first", applied("descend", lower[0], self.expression(room, 1))),
                        Let(NOWHERE, "second", Call(NOWHERE, applied("descend", lower[1], name("x")))),
                        Sync(NOWHERE),
                        Return(NOWHERE, binary("-", name("first"), name("second"))))


def uses(expression: Expression, inline: str) -> bool:
    """Whether an expression applies an inline function."""
    match expression:
        case Application(name=found, arguments=arguments):
            return found == inline or any(uses(it, inline) for it in arguments)
        case Not(operand=operand):
            return uses(operand, inline)
        case Binary(left=left, right=right):
            return uses(left, inline) or uses(right, inline)
    return False

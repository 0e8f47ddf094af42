"""A walk over the syntax tree of a source, as docs/LANGUAGE.md describes it: every task runs as soon as it is made. It
has its own arithmetic, and shares nothing with the compiler but the classes of the tree."""
from collections.abc import Sequence

from arena.language.syntax import (Application, Assign, Binary, Break, Call, Cancel, CellName, CellPart, Constant,
                                   Continue, DeclareGroup, Evaluate, For, Function, Gathers, Give, If, Inline, Isolate, Item,
                                   Let, LetBoth, LetTask, Name, Not, Number, ParallelSum, Post, ReadCell, Return,
                                   Spawn, StoreCell, Sync, Wait, While)

HALF = 2**63


class DivisionByZero(Exception):
    """The job has fault 1."""


class TooLong(Exception):
    """The walk takes more turns or rows than were allowed."""


class Returned(Exception):
    """A function returned."""


class Given(Exception):
    """A parallel sum's body gave a term."""


class Left(Exception):
    """A loop was left."""


class Continued(Exception):
    """The next turn of a loop."""


def wrapped(number: int) -> int:
    """The number as a signed one of 64 bits."""
    return (number + HALF) % (2 * HALF) - HALF


def bit(number: int, place: int) -> int:
    """A bit of a number in two's complement."""
    return number // 2**place % 2


def divided(a: int, b: int) -> int:
    """a / b rounded toward zero."""
    if b == 0:
        raise DivisionByZero
    size = abs(a) // abs(b)
    return wrapped(size if (a < 0) == (b < 0) else -size)


class Group:
    """A group, or a task: what its rows returned, and whether it is cancelled."""

    def __init__(self):
        self.total, self.is_cancelled = 0, False

    def waited(self) -> tuple[int, int]:
        """Its total and status; then it begins anew."""
        found = self.total, 2 if self.is_cancelled else 1
        self.total, self.is_cancelled = 0, False
        return found


class Scope:
    """Variables of a block, by their names; what is not here is further out."""

    def __init__(self, outer: "Scope | None" = None) -> None:
        self.outer, self.own = outer, {}

    def holder(self, name: str) -> dict[str, object]:
        """The variables of the block that a name is of."""
        scope = self
        while name not in scope.own:
            scope = scope.outer
        return scope.own

    def __getitem__(self, name):
        return self.holder(name)[name]

    def __setitem__(self, name, value):
        self.holder(name)[name] = value


class Frame:
    """A row of a function: its groups and its cells' slot are its own."""

    def __init__(self):
        self.groups = {}


class Walk:
    """Walks over the items of a source on an arena of so many slots. `turns` and `rows` count what it took."""

    def __init__(self, items: Sequence[Item], slots: int = 1, turns: int = 2_000, rows: int = 100) -> None:
        """Raises DivisionByZero where a constant divides by 0."""
        self.functions = {it.name: it for it in items if isinstance(it, Function)}
        self.inlines = {it.name: it for it in items if isinstance(it, Inline)}
        self.cells = {it.name: None for it in items if isinstance(it, CellName)}
        self.slots, self.turns_left, self.rows_left, self.rows = slots, turns, rows, 0
        self.constants = {}
        for it in items:
            if isinstance(it, Constant):
                self.constants[it.name] = self.value(it.value, Scope(), Frame())

    def root(self, args: Sequence[int]) -> int:
        """What the job's root returns. `main` has as many parameters as there are arguments, or fewer. Raises
        DivisionByZero, TooLong."""
        return self.call("main", args)

    def turn(self) -> None:
        """Takes one turn. Raises TooLong."""
        self.turns_left -= 1
        if self.turns_left < 0:
            raise TooLong

    def call(self, name: str, args: Sequence[int]) -> int:
        """What a function returns, as a row of its own. Raises DivisionByZero, TooLong."""
        self.rows, self.rows_left = self.rows + 1, self.rows_left - 1
        if self.rows_left < 0:
            raise TooLong
        scope = Scope()
        scope.own.update((it.name, value) for it, value in zip(self.functions[name].parameters, args))
        try:
            self.block(self.functions[name].body, scope, Frame())
        except Returned as it:
            return it.args[0]
        return 0

    def target(self, it: Application, scope, frame):
        return self.call(it.name, [self.value(argument, scope, frame) for argument in it.arguments])

    def spawn(self, group, it, scope, frame):
        args = [self.value(argument, scope, frame) for argument in it.arguments]
        if not group.is_cancelled:
            group.total = wrapped(group.total + self.call(it.name, args))

    # statements

    def block(self, block, outer, frame):
        scope = Scope(outer)
        for it in block.statements:
            self.statement(it, scope, frame)

    def statement(self, it, scope, frame):
        match it:
            case Let(name=name, value=value):
                scope.own[name] = self.value(value, scope, frame)
            case LetTask(name=name, target=target):
                task = Group()
                self.spawn(task, target, scope, frame)
                scope.own[name] = task
            case LetBoth():
                group = frame.groups.get(it.group) or scope[it.group]
                scope.own[it.total], scope.own[it.status] = group.waited()
            case Assign(name=name, value=value):
                scope[name] = self.value(value, scope, frame)
            case StoreCell(cell=cell, value=value):
                self.cells[cell] = self.value(value, scope, frame)
            case Evaluate(value=value):
                self.value(value, scope, frame)
            case DeclareGroup(name=name):
                frame.groups.setdefault(name, Group())
            case Spawn(group=group, target=target):
                self.spawn(frame.groups[group] if group else Group(), target, scope, frame)
            case Post(target=target):
                self.target(target, scope, frame)
            case Sync():
                pass
            case Cancel(name=name):
                (frame.groups.get(name) or scope[name]).is_cancelled = True
            case _:
                self.control(it, scope, frame)

    def control(self, it, scope, frame):
        match it:
            case Return(value=value):
                raise Returned(self.value(value, scope, frame))
            case Give(value=value):
                raise Given(self.value(value, scope, frame))
            case Break():
                raise Left
            case Continue():
                raise Continued
            case While():
                while self.value(it.condition, scope, frame) and self.goes_on(it.body, scope, frame):
                    pass
            case For():
                low, high = self.value(it.low, scope, frame), self.value(it.high, scope, frame)
                step = self.value(it.step, scope, frame)
                while (low < high if step > 0 else low > high) and self.goes_on(
                        it.body, self.with_index(it.index, low, scope), frame):
                    low += step
            case If():
                holds = self.value(it.condition, scope, frame)
                self.block(it.then if holds else it.otherwise, scope, frame)

    def with_index(self, name, value, outer):
        scope = Scope(outer)
        scope.own[name] = value
        return scope

    def goes_on(self, body, scope, frame):
        """Takes one turn of a loop, and says whether there may be another one."""
        self.turn()
        try:
            self.block(body, scope, frame)
        except Left:
            return False
        except Continued:
            return True
        return True

    # expressions

    def value(self, it, scope, frame):
        match it:
            case Number(value=value):
                return value
            case Name(name=name):
                return self.named(name, scope)
            case Not(operand=operand):
                return int(self.value(operand, scope, frame) == 0)
            case Binary():
                return self.operation(it, scope, frame)
            case Call(target=target) | Isolate(target=target):
                return self.target(target, scope, frame)
            case Wait(name=name):
                return self.waited(name, scope, frame)
            case ReadCell():
                return self.cell(it)
            case Application():
                return self.applied(it, scope, frame)
            case ParallelSum():
                return self.sum(it, scope, frame)

    def named(self, name, scope):
        if name in self.constants:
            return self.constants[name]
        found = scope[name]
        if isinstance(found, Group):  # a task that a sync waited for
            scope[name] = found = found.total
        return found

    def waited(self, name, scope, frame):
        if name in frame.groups:
            return frame.groups[name].waited()[0]
        return self.named(name, scope)

    def cell(self, it):
        if it.part is CellPart.LOCAL:
            self.cells[it.cell] = self.cells[it.cell] or 0
            return self.cells[it.cell]
        held = self.cells[it.cell]
        return (held or 0) if it.part is CellPart.SUM else int(held is not None)

    def applied(self, it, scope, frame):
        built_in = {"slot": 0, "width": self.slots, "cancelled": 0}
        if it.name in built_in:
            return built_in[it.name]
        if it.name in ("min", "max", "abs"):
            numbers = sorted(self.value(a, scope, frame) for a in it.arguments)
            return {"min": numbers[0], "max": numbers[-1], "abs": wrapped(abs(numbers[0]))}[it.name]
        inline = self.inlines[it.name]
        inner = Scope()
        inner.own.update((p.name, self.value(a, scope, frame)) for p, a in zip(inline.parameters, it.arguments))
        return self.value(inline.value, inner, frame)

    def sum(self, it, scope, frame):
        low, high, given = self.value(it.low, scope, frame), self.value(it.high, scope, frame), []
        if it.bits is not None and low < high and not 0 <= low < high <= 2**it.bits:
            raise DivisionByZero
        for index in range(low, high, self.value(it.step, scope, frame)):
            self.turn()
            try:
                self.block(it.body, self.with_index(it.index, index, scope), Frame())
            except Given as term:
                given.append(term.args[0])
        self.rows += max(0, high - low)
        match it.gathers:
            case Gathers.LEAST:
                return min([*given, HALF - 1])
            case Gathers.GREATEST:
                return max([*given, -HALF])
        return wrapped(sum(given))

    def operation(self, it, scope, frame):
        left = self.value(it.left, scope, frame)
        if it.operator == "&&":
            return int(left != 0 and self.value(it.right, scope, frame) != 0)
        if it.operator == "||":
            return int(left != 0 or self.value(it.right, scope, frame) != 0)
        return computed(it.operator, left, self.value(it.right, scope, frame))


def computed(operator, a, b):
    """What an operator gives for two numbers."""
    match operator:
        case "+":
            return wrapped(a + b)
        case "-":
            return wrapped(a - b)
        case "*":
            return wrapped(a * b)
        case "/":
            return divided(a, b)
        case "%":
            return wrapped(a - divided(a, b) * b)
        case "&":
            return sum(2**it * (bit(a, it) * bit(b, it)) for it in range(63)) - HALF * (bit(a, 63) * bit(b, 63))
        case "|":
            return wrapped(a + b - computed("&", a, b))
        case "^":
            return wrapped(a + b - 2 * computed("&", a, b))
        case "<<":
            return wrapped(a * 2**(b % 64))
        case ">>":
            return a // 2**(b % 64)
        case "<":
            return int(a < b)
        case ">":
            return int(a > b)
        case "<=":
            return int(a <= b)
        case ">=":
            return int(a >= b)
        case "==":
            return int(a == b)
        case "!=":
            return int(a != b)

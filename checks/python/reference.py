"""What a source of the job language gives, by docs/LANGUAGE.md alone: an interpreter that shares nothing with the package. It
leaves out `cancel`, `slot()` and `width()`, which a schedule decides: each task runs as soon as it is made, on one slot, and
none is cancelled. What cells give is up to no schedule if one task alone uses them.
"""
from collections.abc import Sequence

from reference_parser import Source, read

HALF = 2**63


class Fault(Exception):
    """The job has fault 1."""


class TooLong(Exception):
    """It takes more turns than were allowed."""


class Leaves(Exception):
    """A statement that goes elsewhere: `return`, `give`, `break` or `continue`, with its value."""

    def __init__(self, word: str, value: int = 0) -> None:
        super().__init__(word)
        self.word, self.value = word, value


def wrap(number: int) -> int:
    """A number as 64 bits with a sign hold it."""
    return (number + HALF) % (2 * HALF) - HALF


def divide(a: int, b: int) -> tuple[int, int]:
    """The quotient toward zero, and the remainder. Raises Fault."""
    if b == 0:
        raise Fault
    size, left = divmod(abs(a), abs(b))
    return wrap(-size if (a < 0) != (b < 0) else size), -left if a < 0 else left


BINARY = {
    "+": lambda a, b: wrap(a + b), "-": lambda a, b: wrap(a - b), "*": lambda a, b: wrap(a * b),
    "/": lambda a, b: divide(a, b)[0], "%": lambda a, b: divide(a, b)[1],
    "&": lambda a, b: a & b, "|": lambda a, b: a | b, "^": lambda a, b: a ^ b,
    "<<": lambda a, b: wrap(a << b % 64), ">>": lambda a, b: a >> b % 64,
    "<": lambda a, b: int(a < b), "<=": lambda a, b: int(a <= b), ">": lambda a, b: int(a > b),
    ">=": lambda a, b: int(a >= b), "==": lambda a, b: int(a == b), "!=": lambda a, b: int(a != b)}
UNARY = {"-": lambda a: wrap(-a), "!": lambda a: int(a == 0), "~": lambda a: ~a}
BUILT_IN = {"min": min, "max": max, "abs": lambda a: wrap(abs(a)), "cancelled": lambda: 0}
EMPTY = {"psum": 0, "pmin": HALF - 1, "pmax": -HALF}

Scope = dict[str, object]


class Task:
    """A task or a group: the sum of what was spawned into it."""

    def __init__(self) -> None:
        self.total = 0

    def wait(self) -> int:
        """Its sum; it starts over."""
        total, self.total = wrap(self.total), 0
        return total


class Row:
    """A running function, or the body of a sum: its blocks, the innermost last, and its tasks."""

    def __init__(self, scopes: list[Scope]) -> None:
        self.scopes = scopes
        self.tasks: list[str] = []

    def of(self, name: str) -> Scope:
        """The block that a name is of."""
        return next(it for it in reversed(self.scopes) if name in it)


class Interpreter:
    """Runs a source. `turns` limits the turns of loops and the calls."""

    def __init__(self, source: Source, turns: int = 3_000) -> None:
        self.source, self.turns, self.rows = source, turns, 0
        self.cells: dict[str, int] = {}
        self.constants: Scope = {}
        for name, value in source.constants.items():
            self.constants[name] = self.value(value, Row([self.constants]))

    def turn(self) -> None:
        """Counts a turn. Raises TooLong."""
        self.turns -= 1
        if self.turns < 0:
            raise TooLong

    def run(self, name: str, arguments: Sequence[int]) -> int:
        """What a function returns."""
        self.turn()
        self.rows += 1
        function = self.source.functions[name]
        own: Scope = {parameter: value for (parameter, _), value in zip(function.parameters, arguments)}
        try:
            self.block(function.body, Row([self.constants, own]), own)
        except Leaves as way:
            return way.value
        return 0

    def call(self, call: tuple, row: Row) -> int:
        """What a spawned or called function returns."""
        return self.run(call[0], [self.value(it, row) for it in call[1]])

    def block(self, block: list[tuple], row: Row, own: Scope | None = None) -> None:
        """Runs a block, which has names of its own."""
        depth = len(row.scopes)
        if own is None:
            row.scopes.append({})
        try:
            for it in block:
                getattr(self, f"do_{it[0]}")(row, *it[1:])
        finally:
            del row.scopes[depth:]

    # statements

    def do_let(self, row: Row, name: str, value: tuple) -> None:
        row.scopes[-1][name] = self.value(value, row)

    def do_task(self, row: Row, name: str, call: tuple) -> None:
        row.scopes[-1][name] = self.call(call, row)

    def do_both(self, row: Row, total: str, status: str, group: str) -> None:
        row.scopes[-1][total] = self.waited(group, row)
        row.scopes[-1][status] = 1

    def do_assign(self, row: Row, name: str, value: tuple) -> None:
        found = self.value(value, row)
        row.of(name)[name] = found

    def do_if(self, row: Row, condition: tuple, yes: list, no: list) -> None:
        self.block(yes if self.value(condition, row) else no, row)

    def do_while(self, row: Row, condition: tuple, block: list) -> None:
        while self.value(condition, row) and self.goes_on(block, row):
            pass

    def do_for(self, row: Row, index: str, low: tuple, high: tuple, step: tuple, block: list) -> None:
        for number in range(self.value(low, row), self.value(high, row), self.value(step, row)):
            row.scopes.append({index: number})
            is_going = self.goes_on(block, row)
            row.scopes.pop()
            if not is_going:
                return

    def goes_on(self, block: list, row: Row) -> bool:
        """Takes a turn of a loop, and says whether there may be another one."""
        self.turn()
        try:
            self.block(block, row)
        except Leaves as way:
            if way.word in ("return", "give"):
                raise
            return way.word == "continue"
        return True

    def do_return(self, row: Row, value: tuple) -> None:
        raise Leaves("return", self.value(value, row))

    def do_give(self, row: Row, value: tuple) -> None:
        raise Leaves("give", self.value(value, row))

    def do_break(self, _row: Row) -> None:
        raise Leaves("break")

    def do_continue(self, _row: Row) -> None:
        raise Leaves("continue")

    def do_group(self, row: Row, name: str) -> None:
        row.scopes[-1][name] = Task()

    def do_spawn(self, row: Row, group: str | None, call: tuple) -> None:
        value = self.call(call, row)
        if group is not None:
            row.of(group)[group].total += value

    def do_post(self, row: Row, call: tuple) -> None:
        self.call(call, row)

    def do_store(self, row: Row, cell: str, value: tuple) -> None:
        self.cells[cell] = self.value(value, row)

    def do_sync(self, _row: Row) -> None:
        """All tasks have run."""

    def do_value(self, row: Row, value: tuple) -> None:
        self.value(value, row)

    # expressions

    def value(self, it: tuple, row: Row) -> int:
        """The value of an expression."""
        match it:
            case ("number", number):
                return wrap(number)
            case ("name", name):
                return row.of(name)[name]
            case ("unary", sign, operand):
                return UNARY[sign](self.value(operand, row))
            case ("binary", "&&", left, right):
                return int(bool(self.value(left, row)) and bool(self.value(right, row)))
            case ("binary", "||", left, right):
                return int(bool(self.value(left, row)) or bool(self.value(right, row)))
            case ("binary", sign, left, right):
                return BINARY[sign](self.value(left, row), self.value(right, row))
            case ("call" | "isolate", call):
                return self.call(call, row)
            case ("wait", name):
                return self.waited(name, row)
            case ("part", cell, part):
                return self.asked(cell, part)
            case ("apply", name, arguments):
                return self.applied(name, [self.value(argument, row) for argument in arguments])
        return self.gathered(row, *it[1:])

    def waited(self, name: str, row: Row) -> int:
        """The value of a task, or the total of a group."""
        found = row.of(name)[name]
        return found.wait() if isinstance(found, Task) else found

    def asked(self, cell: str, part: str) -> int:
        """The slot's cell, or the sum or the number of all."""
        if part == "count":
            return int(cell in self.cells)
        return self.cells.setdefault(cell, 0) if part == "local" else self.cells.get(cell, 0)

    def applied(self, name: str, numbers: list[int]) -> int:
        """What an inline function gives, or one of the language."""
        if name not in self.source.functions:
            return BUILT_IN[name](*numbers)
        function = self.source.functions[name]
        own: Scope = {parameter: value for (parameter, _), value in zip(function.parameters, numbers)}
        return self.value(function.body, Row([self.constants, own]))

    def gathered(self, row: Row, word: str, index: str, bits: int | None, low: tuple, high: tuple, step: tuple, _grain: tuple,
                 block: list) -> int:
        """A sum, or the least or greatest, over a range."""
        first, last = self.value(low, row), self.value(high, row)
        if bits is not None and first < last and not 0 <= first < last <= 2**bits:
            raise Fault
        given = []
        for number in range(first, last, self.value(step, row)):
            self.turn()
            self.rows += 1
            try:
                self.block(block, Row([*row.scopes, {index: number}]))
            except Leaves as way:
                given.append(way.value)
        if word == "psum":
            return wrap(sum(given))
        return {"pmin": min, "pmax": max}[word]([*given, EMPTY[word]])


def interpreted(text: str, arguments: Sequence[int], turns: int = 3_000) -> int | None:
    """The value of a source; None if it has fault 1. Raises TooLong."""
    try:
        interpreter = Interpreter(read(text), turns)
        return interpreter.run("main" if "main" in interpreter.source.functions else next(iter(interpreter.source.functions)),
                               arguments)
    except Fault:
        return None

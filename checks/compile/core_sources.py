"""Drawn sources of the part of the job language that arena-compile takes."""
import random
from dataclasses import dataclass, field

DIVISIONS = ("/", "%")
BITS = ("&", "|", "^", "<<", ">>")
ARITHMETIC = ("+", "-", "*", *DIVISIONS, *BITS)
COMPARISONS = ("==", "!=", "<", "<=", ">", ">=")
NUMBERS = ("0x1f", "0xFf_00", "1_000", "63", "0x7fff_ffff_ffff_ffff", "0x8000_0000_0000_0000", "18446744073709551615", "-9223372036854775808")
MOST_DEPTH = 3
MOST_PARALLEL = 4
"""How many parallel loops a source has at most: each is a function, and a job has 16."""
MOST_PENDING = 3
"""How many tasks a function may have that were not waited for."""


@dataclass(frozen=True)
class Called:
    """A function that others call."""

    name: str
    parameters: int


@dataclass(frozen=True)
class Inline:
    """An inline function, and whether it divides."""

    name: str
    parameters: int
    divides: bool


@dataclass
class Sources:
    """Draws sources."""

    draws: random.Random
    count: int = 0
    names: list[str] = field(default_factory=list)
    constants: list[str] = field(default_factory=list)
    callees: list[Called] = field(default_factory=list)
    pending: list[str] = field(default_factory=list)
    further_out: int = 0
    """The tasks of the innermost block that were not waited for, and how many tasks and groups there are in the blocks around it."""
    groups: list[str] = field(default_factory=list)
    outer_groups: list[str] = field(default_factory=list)
    """The groups of the innermost block that were not waited for, and those of the blocks around it."""
    cells: list[str] = field(default_factory=list)
    inlines: list[Inline] = field(default_factory=list)
    spawns_nameless: bool = False
    """Whether the function may have tasks without a name, for which it has a group then."""
    may_divide: bool = True
    may_ask: bool = False
    hidable: list[str] = field(default_factory=list)
    """The names of the blocks around the innermost one that it may declare again."""
    parallel_loops: int = 0
    in_parallel: bool = False
    """How many parallel loops there are so far, and whether the body of one is drawn."""

    def source(self) -> str:
        """A source with a main of two parameters, behind constants, cells and inline functions, and functions below it. Each calls
        only later ones, and only main uses cells, so no schedule decides what they give."""
        self.constants, self.inlines, self.parallel_loops = [], [], 0
        items = "".join(self.constant() for _ in range(self.draws.choice((0, 0, 1, 2)))) + self.items_of_cells()
        items += "".join(self.inline() for _ in range(self.draws.choice((0, 0, 1, 2, 3))))
        below = [Called(f"f{number}", self.draws.randint(0, 2)) for number in range(self.draws.choice((0, 1, 1, 2)))]
        functions = self.function(Called("main", 2), below, MOST_DEPTH)
        self.cells = []
        functions += "".join(self.function(it, below[number:], 1) for number, it in enumerate(below, 1))
        comment = "# drawn\n" if self.draws.random() < 0.3 else ""
        return f"{comment}{items}{functions}"

    def function(self, head: Called, callees: list[Called], depth: int) -> str:
        """A function that calls some of these."""
        self.count, self.names, self.callees = 0, ["a", "b"][:head.parameters], callees
        self.spawns_nameless = self.draws.random() < 0.3
        parameters = ", ".join(self.names)
        body = self.block(1, depth, in_loop=False)
        last = "" if self.draws.random() < 0.2 else f"    return {self.returned(2)}\n"
        return f"fn {head.name}({parameters}) {{\n{body}{last}}}\n"

    def constant(self) -> str:
        """A constant: a number, or one of those above."""
        value = self.draws.choice([*self.constants, self.number()])
        if self.draws.random() < 0.3:
            value = f"{value} {self.draws.choice(('+', '*', '<=', '!=', *BITS))} {self.number()}"
        self.constants.append(f"C{len(self.constants)}")
        return f"{self.draws.choice(('const', 'param'))} {self.constants[-1]} = {value}\n"

    def inline(self) -> str:
        """An inline function, which may use those above."""
        inline = Inline(f"e{len(self.inlines)}", self.draws.randint(0, 3), self.draws.random() < 0.4)
        self.names, self.may_divide = ["x", "y", "z"][:inline.parameters], inline.divides
        value = self.value(2) if inline.divides or self.draws.random() < 0.5 else self.condition(2)
        self.may_divide = True
        self.inlines.append(inline)
        return f"inline fn {inline.name}({', '.join(self.names)}) = {value}\n"

    def insertion(self) -> str:
        """A use of an inline function, if one fits here, or of one that the language has."""
        if self.draws.random() < 0.05:
            return self.built_in()
        fitting = [it for it in self.inlines if self.may_divide or not it.divides]
        if not fitting or self.draws.random() < 0.75:
            return ""
        inline, before, self.may_divide = self.draws.choice(fitting), self.may_divide, False
        given = ", ".join(self.value(1) for _ in range(inline.parameters))
        self.may_divide = before
        return f"{inline.name}({given})"

    def built_in(self) -> str:
        """A use of `min`, `max` or `abs`."""
        name, before, self.may_divide = self.draws.choice(("min", "max", "abs")), self.may_divide, False
        given = ", ".join(self.value(self.draws.choice((0, 0, 1))) for _ in range(1 if name == "abs" else self.draws.choice((2, 2, 3))))
        self.may_divide = before
        return f"{name}({given})"

    def items_of_cells(self) -> str:
        """The items of a few cells, some of which choose their keys."""
        self.cells = [f"c{number}" for number in range(self.draws.choice((0, 0, 0, 1, 2, 3)))]
        keys = self.draws.sample(range(8), len(self.cells))
        return "".join(f"cell {it}{self.draws.choice(('', f' @ {key}'))}\n" for it, key in zip(self.cells, keys))

    def block(self, indent: int, depth: int, in_loop: bool) -> str:
        """The lines of a block, without its braces. No statement in it but the last one leaves."""
        alive, around, groups, outer_groups = len(self.names), self.pending, self.groups, self.outer_groups
        before, self.hidable = self.hidable, self.names[:] if indent > 1 else []
        self.pending, self.further_out = [], self.further_out + len(around) + len(groups)
        self.groups, self.outer_groups = [], outer_groups + groups
        lines = [self.statement(indent, depth, in_loop) for _ in range(self.draws.randint(1, 3))]
        if indent > 1 and self.draws.random() < 0.25:
            word = "give" if self.in_parallel else "return"
            leaving = [f"{word} {self.returned(1)}", *(f"{word} wait {it}" for it in self.groups), *(["break", "continue"] if in_loop else [])]
            lines.append("    " * indent + self.draws.choice(leaving) + "\n")
        elif indent > 1:
            lines += [f"{'    ' * indent}wait {it}\n" for it in self.pending + self.groups]
        self.pending, self.further_out = around, self.further_out - len(around) - len(groups)
        self.groups, self.outer_groups = groups, outer_groups
        self.hidable = before
        del self.names[alive:]
        return "".join(lines)

    def statement(self, indent: int, depth: int, in_loop: bool) -> str:
        """A statement, with the spaces before it."""
        room = "    " * indent
        kind = self.draws.choice(("let", "set", "update", "if", "while") if depth else ("let", "set", "update"))
        if self.callees and self.draws.random() < 0.1:
            return f"{room}{self.call(('call', 'isolate', 'post'))}\n"
        if self.callees and self.spawns_nameless and not self.in_parallel and self.draws.random() < 0.15:
            return f"{room}spawn {self.application()}\n"
        if self.callees and self.further_out + len(self.pending) + len(self.groups) < MOST_PENDING - self.spawns_nameless and self.draws.random() < 0.25:
            return self.draws.choice((self.task, self.task, self.group))(room)
        if self.callees and (self.groups or self.outer_groups) and self.draws.random() < 0.3:
            return f"{room}spawn {self.draws.choice(self.groups + self.outer_groups)}: {self.application()}\n"
        if self.groups and self.draws.random() < 0.3:
            return self.gather(room)
        if self.pending and self.draws.random() < 0.4:
            return self.wait(room)
        if self.cells and self.draws.random() < 0.3:
            sign = self.draws.choice(("=", *(f"{it}=" for it in ARITHMETIC)))
            return f"{room}{self.draws.choice(self.cells)}.local {sign} {self.any_value() if sign == '=' else self.value(1)}\n"
        if not self.names or kind == "let" and len(self.names) < 6:
            return self.declared(room, self.given())
        if kind == "if":
            return self.choice(indent, depth, in_loop)
        if kind == "while":
            return self.draws.choice((self.loop, self.counted))(indent, depth)
        name = self.draws.choice(self.names)
        if kind == "update":
            return f"{room}{name} {self.draws.choice(ARITHMETIC)}= {self.value(1)}\n"
        return f"{room}{name} = {self.given()}\n"

    def call(self, words: tuple[str, ...] = ("call", "isolate")) -> str:
        """A call of one of the functions that are called, or a region or a posted task of one."""
        return f"{self.draws.choice(words)} {self.application()}"

    def application(self) -> str:
        """One of the functions that are called, with its arguments."""
        called = self.draws.choice(self.callees)
        return f"{called.name}({', '.join(self.value(1) for _ in range(called.parameters))})"

    def gift(self) -> str:
        """What gives a value and is no expression, if something is drawn: a call, a region, a cell, `cancelled()`."""
        if self.callees and self.draws.random() < 0.3:
            return self.call()
        if self.cells and self.draws.random() < 0.3:
            return f"{self.draws.choice(self.cells)}.{self.draws.choice(('local', 'sum', 'count'))}"
        if not self.in_parallel and self.parallel_loops < MOST_PARALLEL and self.draws.random() < 0.05:
            return self.parallel()
        return "cancelled()" if self.draws.random() < 0.03 else ""

    def parallel(self) -> str:
        """A parallel loop over a few numbers. Its body sees no variable of the function around it, and uses no cell: whose task it is
        is up to the schedule."""
        kept = {name: getattr(self, name) for name in ("names", "hidable", "pending", "groups", "outer_groups", "further_out", "cells")}
        self.count, self.parallel_loops, self.in_parallel = self.count + 2, self.parallel_loops + 1, True
        index, copy = f"i{self.count - 1}", f"v{self.count}"
        ends = f"{self.draws.randint(-2, 2)}..{self.draws.choice([str(self.draws.randint(-1, 6)), *(f'{it} % 7' for it in self.names[:1])])}"
        head = f"{self.draws.choice(('psum', 'pmin', 'pmax'))} {index} in {ends}{self.draws.choice(('', '', ' step 2', ' step 3'))}{self.draws.choice(('', ' grain 1', ' grain 2'))}"
        self.names, self.hidable, self.pending, self.groups, self.outer_groups, self.further_out, self.cells = [copy], [], [], [], [], 0, []
        lines = "".join(self.statement(1, 1, in_loop=False) for _ in range(self.draws.randint(1, 3)))
        waits = "".join(f"    wait {it}\n" for it in self.pending + self.groups)
        last = waits if self.draws.random() < 0.2 else f"    give {self.returned(1)}\n"
        self.in_parallel = False
        for name, value in kept.items():
            setattr(self, name, value)
        return f"{head} {{\n    let {copy} = {index}\n{lines}{last}}}"

    def task(self, room: str) -> str:
        """A task, which is not waited for yet."""
        made = self.application()
        self.count += 1
        self.pending.append(f"v{self.count}")
        return f"{room}let {self.pending[-1]} = spawn {made}\n"

    def group(self, room: str) -> str:
        """A group, with a task in it."""
        self.count += 1
        self.groups.append(f"g{self.count}")
        return f"{room}group {self.groups[-1]}\n{room}spawn {self.groups[-1]}: {self.application()}\n"

    def gather(self, room: str) -> str:
        """A wait for a group."""
        group = self.groups.pop(self.draws.randrange(len(self.groups)))
        kind = self.draws.choice(("wait", "let", "set", "both"))
        if kind == "both" and len(self.names) < 4:
            return self.with_status(room, group)
        if kind == "set" and self.names:
            return f"{room}{self.draws.choice(self.names)} = wait {group}\n"
        return self.declared(room, f"wait {group}") if kind == "let" else f"{room}wait {group}\n"

    def wait(self, room: str) -> str:
        """A wait for a task, or for all of them, which are variables from there on."""
        if not self.further_out and self.draws.random() < 0.3:
            self.names += self.pending
            self.pending = []
            return f"{room}sync\n"
        task = self.pending.pop(self.draws.randrange(len(self.pending)))
        value = self.draws.choice((f"wait {task}", f"{self.value(1)} {self.draws.choice(ARITHMETIC)} wait {task}", f"(wait {task}) % 7 + {task}"))
        given = self.draws.choice(self.names) if self.names else ""
        self.names.append(task)
        kind = self.draws.choice(("wait", "let", "set", "if", "both"))
        if kind == "both" and len(self.names) < 4:
            return self.with_status(room, task)
        if kind == "set" and given:
            return f"{room}{given} = {value}\n"
        if kind == "if":
            return f"{room}if {value} {{\n{room}    {task} += 1\n{room}}}\n"
        return self.declared(room, value) if kind == "let" else f"{room}wait {task}\n"

    def declared(self, room: str, value: str) -> str:
        """A new variable with this value."""
        self.names.append(self.new_name())
        return f"{room}let {self.names[-1]} = {value}\n"

    def new_name(self) -> str:
        """A name of a variable: a new one, or one of a block around the innermost one, which it hides."""
        if self.hidable and self.draws.random() < 0.2:
            return self.hidable.pop(self.draws.randrange(len(self.hidable)))
        self.count += 1
        return f"v{self.count}"

    def with_status(self, room: str, awaited: str) -> str:
        """A wait whose status is asked for, too."""
        self.count += 1
        total, status = self.new_name(), f"s{self.count}"
        self.names += [total, status]
        return f"{room}let {total}, {status} = wait {awaited}\n"

    def given(self) -> str:
        """What a variable may be given: a value, or what gives one."""
        return self.mixed() or self.any_value()

    def returned(self, depth: int) -> str:
        """What may be returned: a number, or what gives one."""
        return self.mixed() or self.value(depth)

    def mixed(self) -> str:
        """What gives a value, if something is drawn: alone, or one or two inside another value, behind nothing that divides."""
        if self.draws.random() < 0.5:
            return self.gift()
        before, self.may_divide, inlines, self.inlines = self.may_divide, False, self.inlines, []
        gift, left = self.gift(), self.value(1)
        again = self.gift() if gift and "{" not in gift and self.draws.random() < 0.5 else ""
        self.may_divide, self.inlines = before, inlines
        if not gift:
            return ""
        operator = self.draws.choice([it for it in (*ARITHMETIC, *COMPARISONS) if not again or it not in DIVISIONS])
        right = f"({again})" if again else self.value(1)
        return self.draws.choice((f"({gift}) {operator} {right}", f"{left} - ({gift}) {operator} {right}", f"-({gift})", f"~({gift}) {operator} {right}"))

    def choice(self, indent: int, depth: int, in_loop: bool) -> str:
        """An `if`, with the spaces before it."""
        room = "    " * indent
        text = f"{room}if {self.asking(2)} {{\n{self.block(indent + 1, depth - 1, in_loop)}{room}}}"
        if self.draws.random() < 0.3:
            test = f"{self.call()} > {self.value(1)}" if self.callees and self.draws.random() < 0.2 else self.asking(1)
            text += f" else if {test} {{\n{self.block(indent + 1, depth - 1, in_loop)}{room}}}"
        if self.draws.random() < 0.4:
            between = self.draws.choice((" ", " ", f"\n{room}", f"  # or\n\n{room}"))
            text += f"{between}else {{\n    {room}{self.draws.choice(self.names)} = {self.value(1)}\n{room}}}"
        return text + "\n"

    def loop(self, indent: int, depth: int) -> str:
        """A loop of a few turns, which counts first, so that `continue` counts too."""
        room = "    " * indent
        self.count += 1
        turn = f"t{self.count}"
        test = f"{turn} < {self.draws.randint(1, 4)}"
        if self.draws.random() < 0.3:
            test += f" && {self.asking(1)}"
        body = self.block(indent + 1, depth - 1, in_loop=True)
        return f"{room}let {turn} = 0\n{room}while {test} {{\n{room}    {turn} += 1\n{body}{room}}}\n"

    def counted(self, indent: int, depth: int) -> str:
        """A loop that counts. Its ends may be named by what its body changes."""
        room = "    " * indent
        self.count += 1
        index = f"i{self.count}"
        low, high = (self.draws.choice((str(self.draws.randint(-2, 3)), f"{self.draws.choice(self.names)} % 3")) for _ in range(2))
        used = f"{room}    {self.draws.choice(self.names)} += {index}\n"
        body = self.block(indent + 1, depth - 1, in_loop=True)
        step = self.draws.choice(("", "", f" step {self.draws.choice((1, 2, 3, -1, -2))}"))
        ends = f"{high} + 4..{low}" if "-" in step else f"{low}..{high} + 2"
        return f"{room}for {index} in {ends}{step} {{\n{used}{body}{room}}}\n"

    def any_value(self) -> str:
        """A value that a variable may be given: a number, or a condition."""
        return self.condition(2) if self.draws.random() < 0.2 else self.value(2)

    def value(self, depth: int) -> str:
        """A number."""
        if depth and (inserted := self.insertion()):
            return inserted
        if not depth or self.draws.random() < 0.3:
            known = [*self.names, *self.constants]
            return self.draws.choice((*([self.draws.choice(known)] if known else []), self.number()))
        if self.draws.random() < 0.12:
            return self.truth(depth - 1)
        operators = [it for it in (*ARITHMETIC, *COMPARISONS) if self.may_divide or it not in DIVISIONS]
        both = f"{self.value(depth - 1)} {self.draws.choice(operators)} {self.value(depth - 1)}"
        return self.draws.choice((f"({both})", f"({both})", f"-({both})", f"~({both})"))

    def number(self) -> str:
        """A number that is written, mostly a small one."""
        small = str(self.draws.randint(-3, 12))
        return self.draws.choice((small, small, small, self.draws.choice(NUMBERS)))

    def truth(self, depth: int) -> str:
        """A condition as a number. What it may skip does not divide."""
        before, self.may_divide = self.may_divide, False
        found = f"({self.condition(depth)})"
        self.may_divide = before
        return found

    def asking(self, depth: int) -> str:
        """A condition, which may ask something."""
        self.may_ask = True
        found = self.condition(depth)
        self.may_ask = False
        return found

    def condition(self, depth: int) -> str:
        """A condition."""
        if self.may_ask and self.draws.random() < 0.1:
            return self.draws.choice(("cancelled()", "!cancelled()", *(f"{it}.{part} < 3" for it in self.cells for part in ("sum", "count"))))
        if depth and (inserted := self.insertion()):
            return inserted
        kind = self.draws.choice(("compare", "compare", "both", "either", "not", "number")) if depth else "compare"
        if kind == "compare":
            return f"{self.value(1)} {self.draws.choice(COMPARISONS)} {self.value(1)}"
        if kind == "number":
            return self.value(1)
        if kind == "not":
            return f"!({self.condition(depth - 1)})"
        sign = "&&" if kind == "both" else "||"
        return f"{self.condition(depth - 1)} {sign} {self.condition(depth - 1)}"

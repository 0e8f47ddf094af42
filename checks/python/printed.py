"""The source of a syntax tree, with no more parentheses than it needs, save some that are drawn."""
import random
from collections.abc import Sequence

from arena.language.syntax import (Application, Assign, Binary, Block, Break, Call, Cancel, CellName, Constant,
                                   Continue, DeclareGroup, Evaluate, Expression, For, Function, Give, If, Inline,
                                   Isolate, Item, Let, LetBoth, LetTask, Name, Not, Number, ParallelSum, Post,
                                   ReadCell, Return, Spawn, Statement, StoreCell, Sync, Wait, While)

LEVEL = {"||": 1, "&&": 2, "==": 3, "!=": 3, "<": 3, "<=": 3, ">": 3, ">=": 3, "|": 4, "^": 5, "&": 6, "<<": 7, ">>": 7,
         "+": 8, "-": 8, "*": 9, "/": 9, "%": 9}
UNARY = 10
ASSIGNABLE = ("+", "-", "*", "/", "%", "&", "|", "^", "<<", ">>")
SOMETIMES = 0.05


class Printer:
    """Prints trees; `draws` says where parentheses stand that are not needed, and which short forms are taken."""

    def __init__(self, draws: random.Random) -> None:
        self.draws = draws

    def program(self, items: Sequence[Item]) -> str:
        """The source of some items."""
        return "\n".join(self.item(it) for it in items) + "\n"

    def item(self, it: Item) -> str:
        match it:
            case Constant():
                return f"{'param' if it.is_parameter else 'const'} {it.name} = {self.expression(it.value)}"
            case CellName():
                return f"cell {it.name}" + (f" @ {it.key}" if it.key is not None else "")
            case Inline():
                return f"inline fn {it.name}({self.parameters(it)}) = {self.expression(it.value)}"
            case Function():
                return f"fn {it.name}({self.parameters(it)}) {self.block(it.body, '')}"

    def parameters(self, it: Inline | Function) -> str:
        return ", ".join(p.name if p.bits is None else f"{p.name}: u{p.bits}" for p in it.parameters)

    def block(self, block: Block, indent: str) -> str:
        inner = indent + "    "
        lines = [f"{inner}{self.statement(it, inner)}\n" for it in block.statements]
        return "{\n" + "".join(lines) + indent + "}"

    def statement(self, it: Statement, indent: str) -> str:
        match it:
            case Let(name=name, value=value):
                return f"let {name} = {self.expression(value)}"
            case LetTask(name=name, target=target):
                return f"let {name} = spawn {self.application(target)}"
            case LetBoth():
                return f"let {it.total}, {it.status} = wait {it.group}"
            case Assign(name=name, value=value):
                return self.assignment(name, value)
            case StoreCell(cell=cell, value=value):
                return f"{cell}.local = {self.expression(value)}"
            case Evaluate(value=value):
                return self.expression(value)
            case DeclareGroup(name=name):
                return f"group {name}"
            case Spawn(group=group, target=target):
                return f"spawn {group + ': ' if group else ''}{self.application(target)}"
            case Post(target=target):
                return f"post {self.application(target)}"
            case Sync():
                return "sync"
            case Cancel(name=name):
                return f"cancel {name}"
            case Return(value=value):
                return f"return {self.expression(value)}"
            case Give(value=value):
                return f"give {self.expression(value)}"
            case Break():
                return "break"
            case Continue():
                return "continue"
            case While():
                return f"while {self.expression(it.condition)} {self.block(it.body, indent)}"
            case For():
                ends = f"{self.expression(it.low)}..{self.expression(it.high)}"
                return f"for {it.index} in {ends}{self.step(it.step)} {self.block(it.body, indent)}"
            case If():
                return self.conditional(it, indent)

    def step(self, it: Expression) -> str:
        """The step of a range, left out sometimes if it is 1."""
        is_one = isinstance(it, Number) and it.value == 1
        return "" if is_one and self.draws.random() < 0.8 else f" step {self.expression(it)}"

    def conditional(self, it: If, indent: str) -> str:
        text = f"if {self.expression(it.condition)} {self.block(it.then, indent)}"
        return f"{text} else {self.block(it.otherwise, indent)}" if it.otherwise.statements else text

    def assignment(self, name: str, value: Expression) -> str:
        is_short = isinstance(value, Binary) and isinstance(value.left, Name) and value.left.name == name
        if is_short and value.operator in ASSIGNABLE and self.draws.random() < 0.7:
            return f"{name} {value.operator}= {self.expression(value.right)}"
        return f"{name} = {self.expression(value)}"

    def application(self, it: Application) -> str:
        return f"{it.name}({', '.join(self.expression(argument) for argument in it.arguments)})"

    def expression(self, it: Expression, level: int = 0) -> str:
        text, own = self.bare(it)
        return f"({text})" if own < level or self.draws.random() < SOMETIMES else text

    def bare(self, it: Expression) -> tuple[str, int]:
        """The text without parentheses around it, and how strongly it binds."""
        match it:
            case Number(value=value):
                return str(value), UNARY
            case Name(name=name):
                return name, UNARY
            case Not(operand=operand):
                return f"!{self.expression(operand, UNARY)}", UNARY
            case Binary(operator="-", left=Number(value=0), right=Name() as right) if self.draws.random() < 0.5:
                return f"-{self.expression(right, UNARY)}", UNARY
            case Binary(operator="^", right=Number(value=-1)) if self.draws.random() < 0.5:
                return f"~{self.expression(it.left, UNARY)}", UNARY
            case Binary(operator=operator):
                own = LEVEL[operator]
                return f"{self.expression(it.left, own)} {operator} {self.expression(it.right, own + 1)}", own
            case Application():
                return self.application(it), UNARY
            case Wait(name=name):
                return f"wait {name}", UNARY
            case Isolate(target=target):
                return f"isolate {self.application(target)}", UNARY
            case Call(target=target):
                return f"call {self.application(target)}", UNARY
            case ReadCell():
                return f"{it.cell}.{it.part.name.lower()}", UNARY
            case ParallelSum():
                index = it.index if it.bits is None else f"{it.index}: u{it.bits}"
                ends = f"{self.expression(it.low)}..{self.expression(it.high)}"
                grain, block = self.expression(it.grain), self.block(it.body, "    ")
                return f"{it.gathers.value} {index} in {ends}{self.step(it.step)} grain {grain} {block}", UNARY

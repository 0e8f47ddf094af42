"""The grammar's expressions."""
from dataclasses import dataclass

from arena.language.cursor import Cursor
from arena.language.syntax import (Application, Binary, Block, Call, CellPart, Expression, Gathers, Isolate, Name, Not, Number,
                                   ParallelSum, ReadCell, Wait)
from arena.language.tokens import TokenKind

LEVELS = (("||",), ("&&",), ("==", "!=", "<", "<=", ">", ">="), ("|",), ("^",), ("&",), ("<<", ">>"), ("+", "-"),
          ("*", "/", "%"))
"""The operators between two operands, those that bind least first, as in Rust."""

DEFAULT_GRAIN = 64
"""Up to how many indices of a parallel sum one task adds by itself, unless `grain` says so."""


@dataclass(frozen=True)
class Range:
    """The ends of a range, of which the second is not in it, and its step."""

    low: Expression
    high: Expression
    step: Expression


class Expressions(Cursor):
    """Reads expressions. The blocks in them are read by `block`, which the reader of statements has."""

    def block(self) -> Block:
        """Reads a block."""
        raise NotImplementedError

    def expression(self, level: int = 0) -> Expression:
        """Reads an expression whose operators bind as those of a level, or more."""
        if level == len(LEVELS):
            return self.unary()
        left = self.expression(level + 1)
        while self.sees(*LEVELS[level]):
            sign = self.advance()
            self.skip_breaks()
            left = Binary(sign.place, sign.text, left, self.expression(level + 1))
        return left

    def unary(self) -> Expression:
        """Reads an operand with the signs before it."""
        place = self.place
        if self.take("-"):
            if self.token.kind is TokenKind.NUMBER:
                return Number(place, self.number(is_negative=True))
            return Binary(place, "-", Number(place, 0), self.unary())
        if self.take("!"):
            return Not(place, self.unary())
        if self.take("~"):
            return Binary(place, "^", self.unary(), Number(place, -1))
        return self.operand()

    def operand(self) -> Expression:
        """Reads an operand."""
        place = self.place
        if self.token.kind is TokenKind.NUMBER:
            return Number(place, self.number())
        if self.token.kind is TokenKind.NAME:
            return self.named()
        if self.take("("):
            inside = self.expression()
            self.need(")")
            return inside
        if self.take("wait"):
            return Wait(place, self.name("a group or a task"))
        if self.take("isolate"):
            return Isolate(place, self.application())
        if self.take("call"):
            return Call(place, self.application())
        if self.sees("psum", "pmin", "pmax"):
            return self.parallel_sum()
        if self.sees("spawn"):
            raise place.fault("a task is made by `let name = spawn f(..)`, or by `spawn f(..)` as a statement; for its "
                              "value at once write `call f(..)`")
        raise self.unexpected("an expression")

    def named(self) -> Expression:
        """Reads what begins with a name: a variable, a part of a cell, an inline function."""
        place = self.place
        if self.ahead(1).text == "(":
            return self.application()
        name = self.name()
        if not self.take("."):
            return Name(place, name)
        part_place = self.place
        part = self.advance().text
        if part.upper() not in CellPart.__members__:
            raise part_place.fault(f"a cell has .local, .sum and .count, not .{part}")
        return ReadCell(place, name, CellPart[part.upper()])

    def application(self) -> Application:
        """Reads `name(a, b, ..)`."""
        place = self.place
        name = self.name("a function")
        self.need("(", f"`(` and the arguments of {name}")
        arguments: list[Expression] = []
        while not self.take(")"):
            arguments.append(self.expression())
            if not self.take(","):
                self.need(")", "`,` or `)`")
                break
        return Application(place, name, tuple(arguments))

    def parallel_sum(self) -> ParallelSum:
        """Reads `psum i in low..high step s grain n { .. }`, or `pmin` or `pmax`."""
        place, word = self.place, self.advance().text
        index, bits = self.name("the index"), self.width()
        self.need("in")
        ends = self.range()
        grain: Expression = Number(self.place, DEFAULT_GRAIN)
        if self.take("grain"):
            grain = self.expression()
        return ParallelSum(place, Gathers(word), index, bits, ends.low, ends.high, ends.step, grain, self.block())

    def range(self) -> Range:
        """Reads `low..high`, with `step s` or without."""
        low = self.expression()
        if isinstance(low, Application) and low.name == "range" and not self.sees(".."):
            raise low.place.fault("there is no `range(..)`: write both ends, as in `0..n`")
        self.need("..", "`..` and the end of the range")
        self.skip_breaks()
        high = self.expression()
        step: Expression = Number(self.place, 1)
        if self.token.kind is TokenKind.NAME and self.token.text == "step":
            self.advance()
            step = self.expression()
        return Range(low, high, step)

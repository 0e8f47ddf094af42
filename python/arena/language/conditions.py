"""Code for conditions: what jumps on them, and their values 1 and 0."""
from dataclasses import dataclass

from arena.language.builder import Builder
from arena.language.faults import Place
from arena.language.syntax import Application, Binary, Expression, Not

COMPARISONS = ("<", ">", "<=", ">=", "==", "!=")
OPPOSITES = {"<": ">=", "<=": ">", ">": "<=", ">=": "<"}
"""The comparisons that hold if others do not."""

INSTRUCTIONS = {"<": ("lt", False), ">": ("lt", True), "<=": ("le", False), ">=": ("le", True), "==": ("eq", False)}
"""The comparisons that are one instruction: which, and whether its operands are swapped."""


@dataclass(frozen=True)
class Test:
    """A register that says whether a condition holds: by being 0, or by not being 0."""

    register: int
    holds_if_zero: bool


class Conditions(Builder):
    """Makes the code of conditions."""

    def value(self, expression: Expression, into: int | None = None) -> int:
        """The register with an expression's value; `into` is that register, if one is asked for."""
        raise NotImplementedError

    def is_inline(self, expression: Expression) -> bool:
        """Whether an expression is an application of an inline function."""
        return isinstance(expression, Application) and expression.name in self.unit.inlines

    def opened(self, application: Application) -> Expression:
        """Opens an inline function: its parameters are alive until `closed`. Returns its body."""
        raise NotImplementedError

    def closed(self, application: Application) -> None:
        """Ends what `opened` began."""
        raise NotImplementedError

    def branch(self, condition: Expression, yes: str, no: str, after: str) -> None:
        """Jumps to `yes` if a condition holds, else to `no`. The label `after` is placed right after this."""
        number = self.fold(condition)
        if number is not None:
            self.jump(yes if number else no, condition.place, after)
            return
        match condition:
            case Not(operand=operand):
                self.branch(operand, no, yes, after)
            case Application() if self.is_inline(condition):
                self.branch(self.opened(condition), yes, no, after)
                self.closed(condition)
            case Binary(operator="&&" | "||" as operator):
                middle = self.label()
                first = (middle, no) if operator == "&&" else (yes, middle)
                self.branch(condition.left, *first, middle)
                self.put(middle)
                before = self.names.pending
                self.branch(condition.right, yes, no, after)
                where = f"on the right of `{operator}`, which may be skipped"
                self.names.refuse_waited(before, condition.right.place, where)
            case _:
                self._branch_on(self.test(condition, after == no), condition, yes, no, after)

    def _branch_on(self, test: Test, condition: Expression, yes: str, no: str, after: str) -> None:
        if_zero, otherwise = (yes, no) if test.holds_if_zero else (no, yes)
        self.emit("jz", condition.place, (), (test.register,), target=if_zero)
        self.jump(otherwise, condition.place, after)

    def test(self, condition: Expression, had_better_hold_if_zero: bool) -> Test:
        """The shortest test of a condition that is no combination of others, if it can be of the kind asked for. All
        comparisons can, save those with 0, whose other side is the register."""
        if not isinstance(condition, Binary) or condition.operator not in COMPARISONS:
            return Test(self.value(condition), False)
        if condition.operator in ("==", "!="):
            return self._equality(condition, had_better_hold_if_zero)
        operator = OPPOSITES[condition.operator] if had_better_hold_if_zero else condition.operator
        return Test(self._compared(condition, operator, None), had_better_hold_if_zero)

    def _equality(self, condition: Binary, had_better_hold_if_zero: bool) -> Test:
        """The test of `==` or `!=`."""
        holds_if_equal = condition.operator == "=="
        other = self.side_beside_zero(condition)
        if other is not None:
            return Test(self.value(other), holds_if_equal)
        name = "sub" if holds_if_equal == had_better_hold_if_zero else "eq"
        left, right = self.value(condition.left), self.value(condition.right)
        register = self.registers.new()
        self.emit(name, condition.place, (register,), (left, right))
        return Test(register, had_better_hold_if_zero)

    def side_beside_zero(self, condition: Binary) -> Expression | None:
        """The side of a comparison whose other side is 0, if there is one."""
        if self.fold(condition.right) == 0:
            return condition.left
        return condition.right if self.fold(condition.left) == 0 else None

    def _compared(self, condition: Binary, operator: str, into: int | None) -> int:
        """The register with 1 if both sides compare so, else 0, by one instruction."""
        left, right = self.value(condition.left), self.value(condition.right)
        name, is_swapped = INSTRUCTIONS[operator]
        register = self.registers.new() if into is None else into
        self.emit(name, condition.place, (register,), (right, left) if is_swapped else (left, right))
        return register

    def ends_sooner_by_zero(self, condition: Expression) -> bool:
        """Whether a test of a condition holds if its register is 0, so that a loop had better test at its end."""
        if self.fold(condition) is not None:
            return False
        if isinstance(condition, Not):
            operand = condition.operand
            return not isinstance(operand, Binary) or operand.operator not in (*COMPARISONS, "&&", "||")
        if not isinstance(condition, Binary) or condition.operator not in COMPARISONS:
            return False
        return condition.operator != "!=" or self.side_beside_zero(condition) is None

    def truth(self, condition: Expression, into: int | None) -> int:
        """The register with 1 if a condition holds, else 0."""
        place = condition.place
        match condition:
            case Binary(operator=operator) if operator in INSTRUCTIONS:
                return self._compared(condition, operator, into)
            case Binary(operator="!="):
                return self._is_zero(self._compared(condition, "==", None), place, into)
            case Not(operand=operand) if not self.is_inline(operand):
                return self._is_zero(self.value(operand), place, into)
        register = self.registers.new() if into is None else into
        yes, no, end = self.label(), self.label(), self.label()
        self.branch(condition, yes, no, yes)
        self.put(yes)
        self.number(1, place, register)
        self.jump(end, place)
        self.put(no)
        self.number(0, place, register)
        self.put(end)
        return register

    def _is_zero(self, of: int, place: Place, into: int | None) -> int:
        """The register with 1 if another one is 0, else 0."""
        zero, register = self.number(0, place), self.registers.new() if into is None else into
        self.emit("eq", place, (register,), (of, zero))
        return register

"""Code for expressions: the registers with their values."""
from collections.abc import Sequence
from dataclasses import dataclass

from arena.language.conditions import Conditions
from arena.language.names import Variable
from arena.language.sums import GREATEST_STEP, NEUTRAL, SumFunction, sum_function
from arena.language.syntax import (Application, Binary, Call, CellPart, Expression, Extreme, Held, Isolate, Name, Not,
                                   Number, ParallelSum, ReadCell, Wait)
from arena.language.unit import BUILT_IN, FUNCTIONS, takes
from arena.texts import counted, is_or_are

ARITHMETIC = {"+": "add", "-": "sub", "*": "mul", "/": "div", "%": "rem", "&": "and", "|": "or", "^": "xor", "<<": "shl",
              ">>": "shr"}


@dataclass(frozen=True)
class Passed:
    """The registers that go along with a task, as a step's uses."""

    uses: tuple[int, ...]


class Values(Conditions):
    """Makes the code of expressions. Where a method takes `into`, that is the register which the value is asked for in;
    it is written by the last step alone, so that it may be read before."""

    def value(self, expression: Expression, into: int | None = None) -> int:
        """The register with an expression's value."""
        number = self.fold(expression)
        if number is not None:
            return self.number(number, expression.place, into)
        match expression:
            case Name(place=place, name=name):
                return self.move(self.names.readable(name, place).register, into, place)
            case Held(place=place, register=register):
                return self.move(register, into, place)
            case Binary():
                return self._binary(expression, into)
            case Not():
                return self.truth(expression, into)
            case Wait():
                return self._wait(expression, into)
            case Isolate(target=target):
                return self._isolate(target, into)
            case Call(target=target):
                return self.call(target, into)
            case ReadCell():
                return self._read_cell(expression, into)
            case Application():
                return self._apply(expression, into)
            case Extreme():
                return self._extreme(expression, into)
            case ParallelSum():
                return self._parallel_sum(expression, into)
        raise TypeError(expression)

    def _result(self, into: int | None) -> int:
        return self.registers.new() if into is None else into

    def _binary(self, it: Binary, into: int | None) -> int:
        if it.operator not in ARITHMETIC:
            return self.truth(it, into)
        if it.operator in "/%" and self.fold(it.right) == 0:
            self.warn(it.place, "this divides by 0, which ends the job with fault 1")
        left, right = self.value(it.left), self.value(it.right)
        register = self._result(into)
        self.emit(ARITHMETIC[it.operator], it.place, (register,), (left, right))
        return register

    def _wait(self, it: Wait, into: int | None) -> int:
        found = self.names.group_or_task(it.name, it.place)
        if isinstance(found, Variable):
            if found in self.names.pending:
                self.settle(found, it)
            return self.move(found.register, into, it.place)
        register = self._result(into)
        self.emit("wait", it.place, (register, self.registers.new("(status)")), group=found)
        return register

    def settle(self, task: Variable, it: Wait) -> None:
        """Waits for a task; from here on its variable is its value."""
        self.emit("wait", it.place, (task.register, self.registers.new("(status)")), group=task.group or 0)
        self.names.settle(task)

    def passed(self, target: Application) -> Passed:
        """The registers with the arguments of a function, packed if it says so."""
        function = self.unit.function(target)
        values = dict(zip(function.parameters, target.arguments))
        registers = []
        for parameters in self.unit.layout(function):
            packed = values[parameters[0]]
            for parameter in parameters:
                self._check_width(parameter.bits, values[parameter], parameter.name)
            for parameter in parameters[1:]:
                scaled = Binary(target.place, "*", packed, Number(target.place, 2 ** (parameter.bits or 0)))
                packed = Binary(target.place, "+", scaled, values[parameter])
            registers.append(self.value(packed))
        return Passed((registers[0], registers[-1]) if registers else ())

    def _check_width(self, bits: int | None, value: Expression, name: str) -> None:
        number = self.fold(value)
        if bits is not None and number is not None and not 0 <= number < 2**bits:
            raise value.place.fault(f"{number} does not fit {name}: u{bits}, which is from 0 to {2**bits - 1}: make "
                                    "the parameter wider")

    def _isolate(self, target: Application, into: int | None) -> int:
        passed = self.passed(target)
        register = self._result(into)
        self.emit("isolate", target.place, (register,), passed.uses, procedure=target.name)
        return register

    def call(self, target: Application, into: int | None) -> int:
        """Spawns a function and waits for it at once."""
        passed = self.passed(target)
        group = self.names.free_group(target.place, f"this call of {target.name}")
        self.emit("spawn", target.place, (), passed.uses, group=group, procedure=target.name)
        register = self._result(into)
        self.emit("wait", target.place, (register, self.registers.new("(status)")), group=group)
        return register

    def _read_cell(self, it: ReadCell, into: int | None) -> int:
        key, register = self.unit.key(it.cell, it.place), self._result(into)
        self.emit(CellPart(it.part).value, it.place, (register,), key=key)
        return register

    def _apply(self, it: Application, into: int | None) -> int:
        if it.name in BUILT_IN:
            if it.arguments:
                raise it.place.fault(f"{it.name}() takes no arguments")
            register = self._result(into)
            self.emit(BUILT_IN[it.name], it.place, (register,))
            return register
        if it.name in FUNCTIONS and it.name not in self.unit.own:
            return self._function(it, into)
        register = self.value(self.opened(it), into)
        self.closed(it)
        return register

    def _function(self, it: Application, into: int | None) -> int:
        """`min`, `max` or `abs`."""
        if not takes(it.name, len(it.arguments)):
            wanted = "1 argument" if it.name == "abs" else "2 arguments or more"
            raise it.place.fault(f"{it.name} takes {wanted}, and here {is_or_are(len(it.arguments))}")
        if it.name != "abs":
            return self._extreme(Extreme(it.place, it.name == "min", it.arguments), into)
        # -1 for a negative number, else 0: a xor of that, less that
        number, sign, turned = self.value(it.arguments[0]), self.registers.new(), self.registers.new()
        self.emit("shr", it.place, (sign,), (number, self.number(63, it.place)))
        self.emit("xor", it.place, (turned,), (number, sign))
        register = self._result(into)
        self.emit("sub", it.place, (register,), (turned, sign))
        return register

    def _extreme(self, it: Extreme, into: int | None) -> int:
        """The least or the greatest of some operands."""
        place, (first, *others) = it.place, [self.value(operand) for operand in it.operands]
        found, is_other = self.move(first, self.registers.new(), place), self.registers.new()
        for other in others:
            kept = self.label()
            self.emit("lt", place, (is_other,), (other, found) if it.is_least else (found, other))
            self.emit("jz", place, (), (is_other,), target=kept)
            self.move(other, found, place)
            self.put(kept)
        return self.move(found, into, place)

    def opened(self, application: Application) -> Expression:
        """Opens an inline function: makes its arguments, and its parameters alive. Returns its body."""
        name, place = application.name, application.place
        if name in self.unit.functions:
            raise place.fault(f"{name} is an fn, which runs as a task: write `call {name}(..)` for its value at once, "
                              "or spawn, isolate or post")
        if name not in self.unit.inlines:
            raise place.fault(f"there is no inline fn {name}: write `inline fn {name}(..) = ..` above")
        if any(it.name == name for it in self.source.opened):
            raise place.fault(f"inline fn {name} uses itself: make it an fn, and write `call {name}(..)`")
        inline = self.unit.inlines[name]
        if len(inline.parameters) != len(application.arguments):
            raise place.fault(f"{name} takes {counted(len(inline.parameters), 'argument')}, and here "
                              f"{is_or_are(len(application.arguments))}")
        numbers = [self.fold(it) for it in application.arguments]
        registers = [self.value(it) if number is None else 0 for it, number in zip(application.arguments, numbers)]
        self.names.open(is_wall=True)
        for parameter, number, register in zip(inline.parameters, numbers, registers):
            meaning: Variable | int = Variable(parameter.name, register) if number is None else number
            self.names.declare(parameter.name, meaning, parameter.place)
        self.expand(application)
        return inline.value

    def closed(self, application: Application) -> None:
        """Ends what `opened` began."""
        self.source.opened.pop()
        self.names.close(application.place, is_left=False)

    def _parallel_sum(self, it: ParallelSum, into: int | None) -> int:
        grain, step = self.fold(it.grain), self.fold(it.step)
        if grain is None or grain < 1:
            raise it.grain.place.fault("the grain is a constant from 1: the most indices that one task adds by itself")
        if step is None or not 1 <= step <= GREATEST_STEP:
            raise it.step.place.fault(f"the step of a {it.gathers.value} is a constant from 1 to {GREATEST_STEP}")
        if it.index in self.names.variables():
            self.warn_hiding(it.index, it.place)
        made = sum_function(it, grain, step, self.names, self.function.name)
        self.source.add_function(made.function)
        low, high = self.fold(it.low), self.fold(it.high)
        if low is not None and high is not None and low >= high:
            return self.number(NEUTRAL[it.gathers], it.place, into)
        self._check_ends(it)
        ends: list[Number | Held] = [Number(end.place, number) if number is not None else Held(end.place, self.value(end))
                for end, number in ((it.low, low), (it.high, high))]
        if low is not None and high is not None:
            return self.call(made.applied(*ends), into)
        return self._sum_unless_empty(it, made, ends, into)

    def _sum_unless_empty(self, it: ParallelSum, made: SumFunction, ends: Sequence[Number | Held],
                          into: int | None) -> int:
        """The sum over a range whose ends are known when it runs: its neutral number if it is empty, and fault 1 if an index
        of it does not fit its width."""
        place, register, (low, high) = it.place, self._result(into), ends
        inside, fits, misfit, empty, end = (self.label() for _ in range(5))
        self.branch(Binary(place, "<", low, high), inside, empty, inside)
        self.put(inside)
        if it.bits is not None:
            is_misfit = Binary(place, "||", Binary(place, "<", low, Number(place, 0)),
                               Binary(place, "<", Number(place, 2**it.bits), high))
            self.branch(is_misfit, misfit, fits, fits)
        self.put(fits)
        self.call(made.applied(low, high), register)
        self.jump(end, place)
        self.put(misfit)
        if it.bits is not None:
            zero = self.number(0, place)
            self.emit("div", place, (self.registers.new(),), (zero, zero))
        self.put(empty)
        self.number(NEUTRAL[it.gathers], place, register)
        self.put(end)
        return register

    def _check_ends(self, it: ParallelSum) -> None:
        """Refuses a range that is not empty if a constant end of it shows that some index does not fit its width."""
        for end in (it.low, it.high):
            number = self.fold(end)
            if it.bits is not None and number is not None and not 0 <= number <= 2**it.bits:
                raise end.place.fault(f"{number} does not fit {it.index}: u{it.bits}, which is from 0 to "
                                      f"{2**it.bits - 1}: make the index wider")

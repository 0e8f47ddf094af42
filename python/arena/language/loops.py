"""Code for loops. A loop whose last index is known when it begins, or whose test holds if a register is 0, is tested at
its end, which takes an instruction less in each turn."""
from collections.abc import Callable
from dataclasses import dataclass

from arena.jobs import GREATEST_NUMBER, LEAST_NUMBER
from arena.language.arithmetic import wrapped
from arena.language.builder import Loop, Sum
from arena.language.captures import is_assigned, may_leave
from arena.language.faults import Place
from arena.language.names import Variable
from arena.language.sums import TOTAL
from arena.language.syntax import Binary, Block, Expression, For, Held, Name, Number, SumLoop, While
from arena.language.values import Values


@dataclass(frozen=True)
class Stepped:
    """Up to which end a loop counts, which is not reached, and by which step; down, if that is negative."""

    high: Expression
    step: int


class Loops(Values):
    """Makes the code of loops."""

    def block(self, block: Block) -> bool:
        """Makes a block; returns whether its end is never reached."""
        raise NotImplementedError

    def body(self, block: Block, place: Place, more: str, end: str) -> None:
        """Makes the body of a loop."""
        before = self.names.pending
        self.loops.append(Loop(more, end, before, self.names.depth()))
        is_left = self.block(block)
        self.loops.pop()
        if not is_left and self.names.pending != before:
            names = sorted(it.name for it in self.names.pending ^ before)
            raise place.fault(f"the task {names[0]} is waited for in this loop and was made before it: wait for it "
                              "before the loop")
        self.names.pending = before

    def make_while(self, it: While) -> None:
        """`while condition { .. }`."""
        top, inside, end = self.label(), self.label(), self.label()
        before = self.names.pending
        if self.fold(it.condition) and not may_leave(it.body):
            self.warn(it.place, "this loop never ends: its condition always holds, and no break or return is in it")
        self.mark_loop()
        self.depth += 1
        if self.ends_sooner_by_zero(it.condition):
            self.jump(top, it.place)
            self.put(inside)
            self.body(it.body, it.place, top, end)
            self.put(top)
            self.branch(it.condition, inside, end, end)
        else:
            self.put(top)
            self.branch(it.condition, inside, end, inside)
            self.put(inside)
            self.body(it.body, it.place, top, end)
            self.jump(top, it.place)
        self.names.refuse_waited(before, it.condition.place, "in the condition of a loop")
        self.depth -= 1
        self.put(end)

    def make_for(self, it: For) -> None:
        """`for index in low..high { .. }`. Both ends are computed once."""
        place, index, step = it.place, self.registers.new(it.index), self.fold(it.step)
        if not step:
            raise it.step.place.fault("the step of a `for` is a constant that is not 0")
        first, limit = self.fold(it.low), self.fold(it.high)
        self.value(it.low, index)
        if step != 1:
            self._count_by_step(it, index, step)
            return
        variable = it.high.name if isinstance(it.high, Name) and limit is None else None
        if variable is not None and not is_assigned(it.body, variable):
            high = self.names.readable(variable, it.high.place).register
            self._count_to_variable(it, index, high)
            return
        end = self.label()
        if limit is None:
            limit_register = self.value(it.high, self.registers.new(f"(end of {it.index})"))
            self._skip_if_empty(place, index, Held(place, limit_register), end)
            self._count_to_last(place, index, limit_register, end, lambda more: self._for_body(it, index, more, end))
            return
        if first is None or first >= limit:
            self._skip_if_empty(place, index, it.high, end)
        last = wrapped(limit - 1)
        self._count(place, index, lambda: self.number(last, place), end,
                    lambda more: self._for_body(it, index, more, end))

    def _count_by_step(self, it: For, index: int, step: int) -> None:
        """A loop whose step is not 1, down if that is negative."""
        place, end, limit = it.place, self.label(), self.fold(it.high)
        high: Number | Held = Number(place, limit) if limit is not None else Held(place, self.value(it.high))
        self._skip_if_empty(place, index, high, end, "<" if step > 0 else ">")
        self._count_in_steps(place, index, Stepped(high, step), end, lambda more: self._for_body(it, index, more, end))

    def _count_in_steps(self, place: Place, index: int, to: "Stepped", end: str, body: Callable[[str], None]) -> None:
        """A loop that is not empty, tested at its end: there is a next turn if the index is before the end less a step."""
        inside, more, is_over = self.label(), self.label(), self.registers.new()
        if isinstance(to.high, Number):
            number = min(max(to.high.value - to.step, LEAST_NUMBER), GREATEST_NUMBER)
            limit: Expression = Number(place, number)
        else:
            limit = Held(place, self._limit(place, to))
        self.mark_loop()
        self.depth += 1
        self.put(inside)
        body(more)
        self.put(more)
        sides = (self.value(limit), index)
        self.emit("le", place, (is_over,), sides if to.step > 0 else sides[::-1])
        self.emit("add", place, (index,), (index, self.number(to.step, place)))
        self.emit("jz", place, (), (is_over,), target=inside)
        self.depth -= 1
        self.put(end)

    def _limit(self, place: Place, to: "Stepped") -> int:
        """The register with the end less a step, or the last number there is if that would wrap."""
        high, limit, fits, wraps = self.value(to.high), self.registers.new("(last index)"), self.label(), self.registers.new()
        self.emit("sub", place, (limit,), (high, self.number(to.step, place)))
        self.emit("lt", place, (wraps,), (high, limit) if to.step > 0 else (limit, high))
        self.emit("jz", place, (), (wraps,), target=fits)
        self.number(LEAST_NUMBER if to.step > 0 else GREATEST_NUMBER, place, limit)
        self.put(fits)
        return limit

    def _for_body(self, it: For, index: int, more: str, end: str) -> None:
        self.names.open()
        self.warn_if_hiding(it.index, it.place)
        self.names.declare(it.index, Variable(it.index, index, kept="is counted by the for around this line"), it.place)
        self.body(it.body, it.place, more, end)
        self.names.close(it.body.end, is_left=False)

    def _skip_if_empty(self, place: Place, index: int, high: Expression, end: str, is_before: str = "<") -> None:
        inside = self.label()
        self.branch(Binary(place, is_before, Held(place, index), high), inside, end, inside)
        self.put(inside)

    def _count_to_variable(self, it: For, index: int, high: int) -> None:
        """A loop up to a variable that it does not change, tested at its beginning."""
        place, top, inside, more, end = it.place, self.label(), self.label(), self.label(), self.label()
        self.mark_loop()
        self.depth += 1
        self.put(top)
        self.branch(Binary(place, "<", Held(place, index), Held(place, high)), inside, end, inside)
        self.put(inside)
        self._for_body(it, index, more, end)
        self.put(more)
        self._step(place, index)
        self.jump(top, place)
        self.depth -= 1
        self.put(end)

    def _count_to_last(self, place: Place, index: int, high: int, end: str, body: Callable[[str], None]) -> None:
        """A loop up to a register of its own, which is not empty: the register becomes the last index."""
        self.emit("sub", place, (high,), (high, self.number(1, place)))
        self._count(place, index, lambda: high, end, body)

    def _count(self, place: Place, index: int, last: Callable[[], int], end: str, body: Callable[[str], None]) -> None:
        """A loop that is not empty, tested at its end against its last index."""
        inside, more = self.label(), self.label()
        self.mark_loop()
        self.depth += 1
        self.put(inside)
        body(more)
        self.put(more)
        self._step(place, index)
        is_beyond = self.registers.new()
        self.emit("lt", place, (is_beyond,), (last(), index))
        self.emit("jz", place, (), (is_beyond,), target=inside)
        self.depth -= 1
        self.put(end)

    def _step(self, place: Place, index: int) -> None:
        self.emit("add", place, (index,), (index, self.number(1, place)))

    def make_sum_loop(self, it: SumLoop) -> None:
        """The loop of one task of a parallel sum over its range, which is not empty."""
        place, end = it.place, self.label()
        index, high = (self.names.variable(name, place).register for name in (it.index, it.end))
        total = self.names.variable(TOTAL, place).register

        def body(more: str) -> None:
            """Makes the body, in which `give` may stand."""
            self.sum = Sum(it.gathers, total, more, self.names.pending, self.names.depth())
            self.body(it.body, place, more, end)
            self.sum = None

        if it.step == 1:
            self._count_to_last(place, index, high, end, body)
        else:
            self._count_in_steps(place, index, Stepped(Held(place, high), it.step), end, body)

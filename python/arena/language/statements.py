"""Code for statements: the code of a function."""
from arena.language.builder import Loop, Sum
from arena.language.captures import parts, spawns_without_group
from arena.language.code import GROUP_END, GROUP_LEFT, Code
from arena.language.faults import Place, SourceFault
from arena.language.loops import Loops
from arena.language.names import TASKS, Group, Pending, Variable
from arena.language.syntax import (Assign, Binary, Block, Break, Cancel, Continue, DeclareGroup, Evaluate, Extreme,
                                   For, Gathers, Give, Held, If, Let, LetBoth, LetTask, Post, Return, Spawn, Statement, StoreCell, SumLoop,
                                   Sync, Wait, While)


class FunctionMaker(Loops):
    """Makes the code of a function. Raises `SourceFault` for what can't be compiled."""

    def make(self) -> Code:
        """The code of the whole function, which ends in a return or a jump."""
        function = self.function
        layout = self.unit.layout(function)
        arguments = [self.argument(number, parameters) for number, parameters in enumerate(layout)]
        for name, number in function.numbers.items():
            self.names.declare(name, number, function.place)
        for register, parameters in zip(arguments, layout):
            for it in self.unpacked(register, parameters):
                variable = Variable(it.parameter.name, it.register, kept=it.parameter.kept)
                self.names.declare(variable.name, variable, it.parameter.place)
        if spawns_without_group(function.body):
            self.names.declare_group(TASKS, function.place)
        if not self._statements(function.body):
            self.emit("ret", function.body.end, (), (self.number(0, function.body.end),))
        return self.code

    def block(self, block: Block) -> bool:
        """Makes a block; returns whether its end is never reached."""
        self.names.open()
        is_left = self._statements(block)
        for group in self.names.close(block.end, is_left):
            if not is_left:
                self.emit(GROUP_END, block.end, group=group.number, target=group.name)
        return is_left

    def _statements(self, block: Block) -> bool:
        is_left = False
        for it in block.statements:
            if is_left:
                self.source.notes.note(it.place.fault("this is never reached: leave it out"))
                break
            is_left = self._tried(it)
        return is_left

    def _tried(self, it: Statement | SumLoop) -> bool:
        """Makes a statement. A fault of it is noted, and what follows is looked at as if it had none."""
        blocks, opened, loops = self.names.depth(), len(self.source.opened), len(self.loops)
        pending, around, depth = self.names.pending, self.sum, self.depth
        try:
            return self.statement(it)
        except SourceFault as fault:
            if self.is_spent():
                raise
            self.source.notes.note(fault)
        self.names.cut(blocks)
        del self.source.opened[opened:], self.loops[loops:]
        waited = {part.name for part in parts(it) if isinstance(part, Wait)}
        self.names.pending = frozenset(task for task in pending if task.name not in waited)
        self.sum, self.depth = around, depth
        self._declare_in_spite(it)
        return isinstance(it, Return | Give | Break | Continue)

    def _declare_in_spite(self, it: Statement | SumLoop) -> None:
        """Declares what a statement with a fault would have declared."""
        match it:
            case Let(name=name) | LetTask(name=name):
                names = [name]
            case LetBoth(total=total, status=status):
                names = [total, status]
            case DeclareGroup(name=name):
                self.names.declare_in_spite(name, Group(name, 0))
                return
            case _:
                return
        for name in names:
            self.names.declare_in_spite(name, Variable(name, self.registers.new(name), group=0))

    def statement(self, it: Statement | SumLoop) -> bool:
        """Makes a statement; returns whether what follows it is never reached."""
        self.place = it.place
        match it:
            case Return() | Give() | Break() | Continue():
                self._leave(it)
                return True
            case If():
                return self._if(it)
            case While():
                self.make_while(it)
            case For():
                self.make_for(it)
            case SumLoop():
                self.make_sum_loop(it)
            case Let() | LetTask() | LetBoth() | Assign() | StoreCell():
                self._write(it)
            case _:
                self._run(it)
        return False

    def _write(self, it: Statement) -> None:
        """What gives a variable or a cell a value."""
        match it:
            case Let(place=place, name=name, value=value):
                self.warn_if_hiding(name, place)
                register = self.value(value, self.registers.new(name))
                self.names.declare(name, Variable(name, register), place)
            case LetTask(place=place, name=name, target=target):
                self.warn_if_hiding(name, place)
                passed = self.passed(target)
                task = self.names.task(name, self.registers.new(name), place)
                self.emit("spawn", place, (), passed.uses, group=task.group, procedure=target.name)
            case LetBoth():
                self._let_both(it)
            case Assign(place=place, name=name, value=value):
                self.value(value, self.names.assignable(name, place).register)
            case StoreCell(place=place, cell=cell, value=value):
                key = self.unit.key(cell, place)
                self.emit("store", place, (), (self.value(value),), key=key)

    def _let_both(self, it: LetBoth) -> None:
        for name in (it.total, it.status):
            self.warn_if_hiding(name, it.place)
        found = self.names.group_or_task(it.group, it.place)
        total, status = self.registers.new(it.total), self.registers.new(it.status)
        if isinstance(found, Variable):
            if found not in self.names.pending:
                raise it.place.fault(f"{it.group} was waited for already: its status can be had once, by its first "
                                     "wait")
            self.emit("wait", it.place, (found.register, status), group=found.group)
            self.names.settle(found)
            self.move(found.register, total, it.place)
        else:
            self.emit("wait", it.place, (total, status), group=found)
        self.names.declare(it.total, Variable(it.total, total), it.place)
        self.names.declare(it.status, Variable(it.status, status), it.place)

    def _run(self, it: Statement) -> None:
        """What runs, or asks of, other rows."""
        match it:
            case Evaluate(value=Wait() as wait):
                self._wait_for(wait)
            case Evaluate(value=value):
                self.value(value)
            case DeclareGroup(place=place, name=name):
                self.names.declare_group(name, place)
            case Spawn(place=place, group=group, target=target):
                number = self.names.spawn_group(group, place)
                self.emit("spawn", place, (), self.passed(target).uses, group=number, procedure=target.name)
            case Post(place=place, target=target):
                self.emit("post", place, (), self.passed(target).uses, procedure=target.name)
            case Sync(place=place):
                self._sync(place)
            case Cancel(place=place, name=name):
                found = self.names.group_or_task(name, place)
                self.emit("cancel", place, group=self._group_to_cancel(found, name, place))

    def _group_to_cancel(self, found: Variable | int, name: str, place: Place) -> int:
        if isinstance(found, int):
            return found
        if found not in self.names.pending:
            raise place.fault(f"{name} was waited for already: there is nothing to cancel")
        return found.group or 0

    def _wait_for(self, it: Wait) -> None:
        """A wait whose value is dropped."""
        found = self.names.group_or_task(it.name, it.place)
        if isinstance(found, Variable):
            if found in self.names.pending:
                self.settle(found, it)
            return
        self._drop_group(found, it.place)

    def _drop_group(self, group: int, place: Place) -> None:
        dropped = self.registers.new("(dropped)")
        self.emit("wait", place, (dropped, dropped), group=group)

    def _sync(self, place: Place) -> None:
        for task in self.names.pending_tasks():
            self.settle(task, Wait(place, task.name))
        group = self.names.unnamed_group()
        if group is not None:
            self._drop_group(group, place)

    def _leave(self, it: Statement) -> None:
        """What goes elsewhere than to the next statement."""
        match it:
            case Return(place=place, value=value):
                if self.sum:
                    raise place.fault("a psum's body ends by `give`, not by `return`: write `give`, or `give 0`")
                self.emit("ret", place, (), (self.value(value),))
            case Give(place=place, value=value):
                self._give(it)
            case Break(place=place) | Continue(place=place):
                self._leave_loop(it, "break" if isinstance(it, Break) else "continue")

    def _give(self, it: Give) -> None:
        if not self.sum:
            raise it.place.fault("`give` belongs into the body of a psum: write `return`")
        total, gathers = self.sum.total, self.sum.gathers
        if gathers is not Gathers.SUM:
            self.value(Extreme(it.place, gathers is Gathers.LEAST, (Held(it.place, total), it.value)), total)
        elif self.fold(it.value) != 0:
            self.value(Binary(it.place, "+", Held(it.place, total), it.value), total)
        self._drop_tasks(it.place, self.sum.pending, "this `give`")
        self._drop_groups(it.place, self.sum.blocks)
        self.jump(self.sum.more, it.place)

    def _leave_loop(self, it: Break | Continue, word: str) -> None:
        if self.sum and len(self.loops) == 1:
            raise it.place.fault(f"`{word}` would leave only one task's part of the psum: write `give 0` for this "
                                 "index")
        if not self.loops:
            raise it.place.fault(f"`{word}` outside a loop: leave it out")
        loop = self.loops[-1]
        self._drop_tasks(it.place, loop.pending, f"this `{word}`")
        self._drop_groups(it.place, loop.blocks)
        self.jump(loop.end if isinstance(it, Break) else loop.more, it.place)

    def _drop_tasks(self, place: Place, before: Pending, here: str) -> None:
        """Waits for the tasks of a loop's turn that is left. Tasks from before the loop must still be pending."""
        waited = before - self.names.pending
        if waited:
            name = sorted(it.name for it in waited)[0]
            raise place.fault(f"the task {name} was made before the loop, and waited for before {here}: wait for it "
                              "before the loop")
        for task in self.names.pending_tasks():
            if task not in before:
                self._drop_group(task.group or 0, place)

    def _drop_groups(self, place: Place, blocks: int) -> None:
        """Leaves the groups of the blocks that were opened since so many were open."""
        for group in self.names.groups_within(blocks):
            self.emit(GROUP_LEFT, place, group=group.number)

    def _target_of(self, block: Block) -> str | None:
        """Where a block goes that does nothing but leave a turn of a loop, with the tasks that the loop began with."""
        if len(block.statements) != 1:
            return None
        only, is_own = block.statements[0], not (self.sum and len(self.loops) == 1)
        match only:
            case Break() | Continue() if self.loops and is_own and self._has_nothing_since(self.loops[-1]):
                return self.loops[-1].end if isinstance(only, Break) else self.loops[-1].more
            case Give() if self.sum and self._gives_nothing(only):
                return self.sum.more
        return None

    def _gives_nothing(self, it: Give) -> bool:
        """Whether a `give` does nothing but go on with the next index."""
        if not self.sum or self.sum.gathers is not Gathers.SUM:
            return False
        return self.fold(it.value) == 0 and self._has_nothing_since(self.sum)

    def _has_nothing_since(self, around: Loop | Sum) -> bool:
        """Whether no task is pending, and no group there, that was not when a loop began."""
        return self.names.pending == around.pending and not self.names.groups_within(around.blocks)

    def _if_jump(self, it: If, target: str) -> None:
        """An `if` whose block does nothing but go to a label: the condition jumps there itself."""
        following, before, only = self.label(), self.names.pending, it.then.statements[0]
        self.branch(it.condition, target, following, following)
        self._drop_tasks(only.place, before, f"this `{type(only).__name__.lower()}`")
        self.put(following)

    def _if(self, it: If) -> bool:
        target = None if it.otherwise.statements else self._target_of(it.then)
        if target:
            self._if_jump(it, target)
            return False
        yes, no, end = self.label(), self.label(), self.label()
        self.branch(it.condition, yes, no, yes)
        before = self.names.pending
        self.put(yes)
        then_left = self.block(it.then)
        after_then, self.names.pending = self.names.pending, before
        if it.otherwise.statements:
            if not then_left:
                self.jump(end, it.place)
            self.put(no)
            otherwise_left = self.block(it.otherwise)
            self.put(end)
        else:
            self.put(no)
            otherwise_left = False
        after_otherwise = self.names.pending
        if not then_left and not otherwise_left and after_then != after_otherwise:
            name = sorted(task.name for task in after_then ^ after_otherwise)[0]
            raise it.place.fault(f"the task {name} is waited for in one branch only: wait for it in both, or after the "
                                 "if")
        self.names.pending = after_otherwise if then_left else after_then
        return then_left and otherwise_left

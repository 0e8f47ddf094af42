"""The names that are alive at a place of a function: its variables, tasks and groups, and what may be done with
each."""
from dataclasses import dataclass, field
from difflib import get_close_matches

from arena.jobs import GROUPS
from arena.language.faults import Place
from arena.language.unit import Unit
from arena.texts import listed

TASKS, HALVES = "(tasks)", "(halves)"
"""Groups with names that no source can have: of what is spawned without a group, and of a parallel sum's upper
halves."""

TRUTHS = {"true": 1, "false": 0}
"""What other languages call the values of comparisons."""

_SHOWN = {TASKS: "spawn without a group", HALVES: "the halves of the psum"}


@dataclass(eq=False)
class Variable:
    """A variable and its register. `group` is the group of its task, if it is or was a task; `kept` says why it can't
    be assigned to, if it can't."""

    name: str
    register: int
    group: int | None = None
    kept: str = ""


@dataclass(frozen=True, eq=False)
class Group:
    """A group and its number, which is its own until its block ends."""

    name: str
    number: int


Meaning = Variable | Group | int
"""What a name may stand for: a variable, a group, or, in an inline function, a number."""


@dataclass
class Scope:
    """The names of a block. Behind a wall (of an inline function) no outer name is seen."""

    is_wall: bool = False
    names: dict[str, Meaning] = field(default_factory=dict)

    def groups(self) -> list[Group]:
        """The groups of the block."""
        return [it for it in self.names.values() if isinstance(it, Group)]


Pending = frozenset[Variable]
"""The tasks that were not waited for."""


class Names:
    """The names that are alive. `around` are the variables of the function around this one, if there is one."""

    def __init__(self, unit: Unit, around: frozenset[str] = frozenset()) -> None:
        self.unit, self.around = unit, around
        self.pending: Pending = frozenset()
        self._scopes = [Scope()]

    def open(self, is_wall: bool = False) -> None:
        """Begins a block."""
        self._scopes.append(Scope(is_wall))

    def close(self, end: Place, is_left: bool) -> list[Group]:
        """Ends a block, and returns its groups. A task of its own must have been waited for, unless the block's end is
        not reached."""
        own = [it for it in self._scopes[-1].names.values() if isinstance(it, Variable) and it in self.pending]
        if own and not is_left:
            name = own[0].name
            raise end.fault(f"the task {name} is not waited for in its block: write `wait {name}` or `sync` before "
                            "this brace, or spawn it into a group")
        self.pending -= set(own)
        return self._scopes.pop().groups()

    def depth(self) -> int:
        """How many blocks are open."""
        return len(self._scopes)

    def groups_within(self, depth: int) -> list[Group]:
        """The groups of the blocks that were opened since so many were open."""
        return [group for scope in self._scopes[depth:] for group in scope.groups()]

    def declare(self, name: str, meaning: Meaning, place: Place) -> None:
        """Makes a name mean a variable, a group or a number, until its block ends."""
        self.unit.check_variable(name, place)
        match self._scopes[-1].names.get(name), meaning:
            case None, _:
                self._scopes[-1].names[name] = meaning
            case Variable() | int(), Variable() | int():
                raise place.fault(f"{name} is there already in this block: write `{name} = ..` to change it, or choose "
                                  "another name")
            case Group(), Group():
                raise place.fault(f"the group {name} is there already: leave this line out, or choose another name")
            case before, _:
                raise place.fault(f"{name} is a {'group' if isinstance(before, Group) else 'variable'} of this block "
                                  "already: choose another name")

    def found(self, name: str) -> Meaning | None:
        """What a name means here."""
        for scope in reversed(self._scopes):
            if name in scope.names:
                return scope.names[name]
            if scope.is_wall:
                break
        return None

    def is_further_out(self, name: str) -> bool:
        """Whether a name is that of a variable of a block around the innermost one."""
        return name not in self._scopes[-1].names and (isinstance(self.found(name), Variable) or name in self.around)

    def variables(self) -> frozenset[str]:
        """The names of the variables that are alive, and of those further out."""
        return frozenset(it for it in self._alive_names() if isinstance(self.found(it), Variable)) | self.around

    def declare_in_spite(self, name: str, meaning: Variable | Group) -> None:
        """Declares a variable or a group whose own declaration has a fault."""
        self._scopes[-1].names.setdefault(name, meaning)

    def cut(self, depth: int) -> None:
        """Leaves blocks until so many are open."""
        del self._scopes[depth:]

    def constant(self, name: str) -> int | None:
        """The number that a name always means here."""
        found = self.found(name)
        if found is None:
            return self.unit.constants.get(name)
        return found if isinstance(found, int) else None

    def variable(self, name: str, place: Place) -> Variable:
        """The variable that a name means."""
        found = self.found(name)
        if isinstance(found, Variable):
            return found
        if isinstance(found, Group):
            raise place.fault(f"{name} is a group: write `wait {name}` for its total")
        if name in self.unit.cells:
            raise place.fault(f"{name} is a cell: write {name}.local, {name}.sum or {name}.count")
        if name in TRUTHS:
            raise place.fault(f"there is no {name}: write {TRUTHS[name]}")
        raise place.fault(f"{name} is not known here{self._similar(name)}; {self._alive()}")

    def readable(self, name: str, place: Place) -> Variable:
        """The variable that a name means, which is no task that was not waited for."""
        variable = self.variable(name, place)
        if variable in self.pending:
            raise place.fault(f"{name} is a task that was not waited for: write `wait {name}`, or `sync` before this "
                              "line")
        return variable

    def assignable(self, name: str, place: Place) -> Variable:
        """The variable that a name means, which may be assigned to."""
        if name in self.unit.constants and self.found(name) is None:
            raise place.fault(f"{name} is a constant: declare a variable by `let`")
        variable = self.variable(name, place)
        if variable in self.pending:
            raise place.fault(f"{name} is a task that was not waited for: write `wait {name}` before this line")
        if variable.kept:
            raise place.fault(f"{name} {variable.kept}: work on a copy, `let my_{name} = {name}`")
        return variable

    def task(self, name: str, register: int, place: Place) -> Variable:
        """Declares a task, which has a group of its own until it is waited for."""
        variable = Variable(name, register, self.free_group(place, f"the task {name}"))
        self.declare(name, variable, place)
        self.pending |= {variable}
        return variable

    def settle(self, variable: Variable) -> None:
        """Notes that a task was waited for."""
        self.pending -= {variable}

    def refuse_waited(self, before: Pending, place: Place, where: str) -> None:
        """Refuses that tasks which were pending before were waited for at a place that is reached more or less than
        once."""
        waited = sorted(it.name for it in before - self.pending)
        if waited:
            raise place.fault(f"the task {waited[0]} is waited for {where}: write `wait {waited[0]}` before this line")

    def pending_tasks(self) -> list[Variable]:
        """The tasks that were not waited for, by their groups."""
        return sorted(self.pending, key=lambda it: it.group or 0)

    def free_group(self, place: Place, user: str) -> int:
        """The lowest group that no name has."""
        groups, tasks = self.groups_within(0), self.pending_tasks()
        taken = {*(it.number for it in groups), *(it.group for it in tasks)}
        free = [group for group in range(GROUPS) if group not in taken]
        if not free:
            names = [*(_SHOWN.get(it.name, it.name) for it in groups), *(it.name for it in tasks)]
            raise place.fault(f"no group is left for {user}: a procedure has {GROUPS}, and they are taken by "
                              f"{listed(names)}; spawn several tasks into one group, or wait for one first")
        return free[0]

    def declare_group(self, name: str, place: Place) -> None:
        """Declares a group, until its block ends."""
        self.declare(name, Group(name, self.free_group(place, _SHOWN.get(name, f"the group {name}"))), place)

    def spawn_group(self, name: str | None, place: Place) -> int:
        """The group that a spawn names, or that of a spawn without a name."""
        found = self.found(name or TASKS)
        if isinstance(found, Group):
            return found.number
        if found is not None:
            raise self._no_group(name or TASKS, found, place)
        raise place.fault(f"there is no group {name}: write `group {name}` above this line, in this block or one around it")

    def unnamed_group(self) -> int | None:
        """The group of what is spawned without a name, if the function does so."""
        found = self.found(TASKS)
        return found.number if isinstance(found, Group) else None

    def group_or_task(self, name: str, place: Place) -> Variable | int:
        """The task, waited for or not, or the number of the group that a name means."""
        found = self.found(name)
        if isinstance(found, Group):
            return found.number
        if isinstance(found, Variable) and found.group is not None:
            return found
        raise self._no_group(name, found, place)

    def _no_group(self, name: str, found: Meaning | None, place: Place) -> Exception:
        """The fault that a name is no group, nor a task."""
        if found is not None:
            return place.fault(f"{name} is a variable here, and no group or task: give one of them another name")
        alive = [it for it in self._alive_names() if self._is_waited_for(it)]
        shown = f": there is {listed(alive)}" if alive else ""
        return place.fault(f"{name} is no group and no task{shown}; write `group {name}`, or `let {name} = spawn ..`, "
                           "above this line")

    def _is_waited_for(self, name: str) -> bool:
        found = self.found(name)
        return isinstance(found, Group) or (isinstance(found, Variable) and found.group is not None)

    def _alive_names(self) -> list[str]:
        names: dict[str, None] = {}
        for scope in reversed(self._scopes):
            names |= dict.fromkeys(it for it in scope.names if it.isidentifier())
            if scope.is_wall:
                break
        return sorted(names)

    def _alive(self) -> str:
        names = [*(it for it in self._alive_names() if not isinstance(self.found(it), Group)), *sorted(self.unit.constants)]
        return f"alive are {listed(names)}" if names else "no name is alive"

    def _similar(self, name: str) -> str:
        close = get_close_matches(name, [*self._alive_names(), *self.unit.constants], 1)
        return f", did you mean {close[0]}?" if close else ": declare it by `let`"

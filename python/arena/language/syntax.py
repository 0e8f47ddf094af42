"""The syntax tree. Every node knows its place; nodes are compared by identity."""
from collections.abc import Mapping
from dataclasses import dataclass, field
from enum import Enum

from arena.language.faults import Place


@dataclass(frozen=True, eq=False)
class Node:
    """A part of the tree."""

    place: Place


# Expressions


@dataclass(frozen=True, eq=False)
class Number(Node):
    """A number of 64 bits."""

    value: int


@dataclass(frozen=True, eq=False)
class Name(Node):
    """A variable, constant or parameter, read."""

    name: str


@dataclass(frozen=True, eq=False)
class Binary(Node):
    """Two operands with an operator between them."""

    operator: str
    left: "Expression"
    right: "Expression"


@dataclass(frozen=True, eq=False)
class Not(Node):
    """`!operand`: 1 if it is 0, else 0."""

    operand: "Expression"


@dataclass(frozen=True, eq=False)
class Application(Node):
    """`name(arguments)`: of an inline function or a built-in one as an expression; of a function after `spawn`,
    `call`, `isolate` and `post`."""

    name: str
    arguments: tuple["Expression", ...]


@dataclass(frozen=True, eq=False)
class Extreme(Node):
    """The least or the greatest of some operands: `min(..)` and `max(..)`, if the source has no such functions itself."""

    is_least: bool
    operands: tuple["Expression", ...]


@dataclass(frozen=True, eq=False)
class Wait(Node):
    """`wait name`: the value of a task, or the total of a group."""

    name: str


@dataclass(frozen=True, eq=False)
class Isolate(Node):
    """`isolate f(..)`: runs f as a region on this slot."""

    target: Application


@dataclass(frozen=True, eq=False)
class Call(Node):
    """`call f(..)`: spawns f and waits for it at once."""

    target: Application


class CellPart(Enum):
    """What of a cell is read; the values are the names of the instructions."""

    LOCAL = "load"
    SUM = "sum"
    COUNT = "count"


@dataclass(frozen=True, eq=False)
class ReadCell(Node):
    """`cell.local`, `cell.sum` or `cell.count`."""

    cell: str
    part: CellPart


class Gathers(Enum):
    """What is made of the values that the body of a parallel sum gives; the values are the words of the language."""

    SUM = "psum"
    LEAST = "pmin"
    GREATEST = "pmax"


@dataclass(frozen=True, eq=False)
class ParallelSum(Node):
    """`psum index in low..high step s grain n { .. give e .. }`, `pmin` or `pmax`; `bits` is the index's width, if it has
    one."""

    gathers: Gathers
    index: str
    bits: int | None
    low: "Expression"
    high: "Expression"
    step: "Expression"
    grain: "Expression"
    body: "Block"


@dataclass(frozen=True, eq=False)
class Held(Node):
    """What a register holds already; made by the compiler alone."""

    register: int


Expression = Number | Name | Binary | Not | Application | Extreme | Wait | Isolate | Call | ReadCell | ParallelSum | Held


# Statements


@dataclass(frozen=True, eq=False)
class Let(Node):
    """`let name = value`."""

    name: str
    value: Expression


@dataclass(frozen=True, eq=False)
class LetTask(Node):
    """`let name = spawn f(..)`."""

    name: str
    target: Application


@dataclass(frozen=True, eq=False)
class LetBoth(Node):
    """`let total, status = wait group`."""

    total: str
    status: str
    group: str


@dataclass(frozen=True, eq=False)
class Assign(Node):
    """`name = value`, and `name += value` and the like with the operation in the value."""

    name: str
    value: Expression


@dataclass(frozen=True, eq=False)
class StoreCell(Node):
    """`cell.local = value`."""

    cell: str
    value: Expression


@dataclass(frozen=True, eq=False)
class Evaluate(Node):
    """An expression as a statement; its value is dropped."""

    value: Expression


@dataclass(frozen=True, eq=False)
class DeclareGroup(Node):
    """`group name`."""

    name: str


@dataclass(frozen=True, eq=False)
class Spawn(Node):
    """`spawn f(..)` or `spawn group: f(..)`."""

    group: str | None
    target: Application


@dataclass(frozen=True, eq=False)
class Post(Node):
    """`post f(..)`."""

    target: Application


@dataclass(frozen=True, eq=False)
class Sync(Node):
    """`sync`: waits for all tasks, and for what was spawned without a group."""


@dataclass(frozen=True, eq=False)
class Cancel(Node):
    """`cancel name`: of a group or a task."""

    name: str


@dataclass(frozen=True, eq=False)
class Return(Node):
    """`return value`, or `return` alone for 0."""

    value: Expression


@dataclass(frozen=True, eq=False)
class Give(Node):
    """`give value`: the term of one index of a parallel sum."""

    value: Expression


@dataclass(frozen=True, eq=False)
class Break(Node):
    """`break`."""


@dataclass(frozen=True, eq=False)
class Continue(Node):
    """`continue`."""


@dataclass(frozen=True, eq=False)
class While(Node):
    """`while condition { .. }`."""

    condition: Expression
    body: "Block"


@dataclass(frozen=True, eq=False)
class For(Node):
    """`for index in low..high step s { .. }`."""

    index: str
    low: Expression
    high: Expression
    step: Expression
    body: "Block"


@dataclass(frozen=True, eq=False)
class If(Node):
    """`if condition { .. } else { .. }`; without `else` the other block is empty."""

    condition: Expression
    then: "Block"
    otherwise: "Block"


Statement = (Let | LetTask | LetBoth | Assign | StoreCell | Evaluate | DeclareGroup | Spawn | Post | Sync | Cancel
             | Return | Give | Break | Continue | While | For | If)


@dataclass(frozen=True, eq=False)
class Block(Node):
    """Statements in braces; `end` is where the closing brace is."""

    statements: tuple["Statement | SumLoop", ...]
    end: Place


@dataclass(frozen=True, eq=False)
class SumLoop(Node):
    """The loop of one task of a parallel sum over its range, with the terms of the body; the index is kept from being
    assigned. It is made by the compiler alone."""

    gathers: Gathers
    step: int
    index: str
    end: str
    body: Block


# Items


@dataclass(frozen=True, eq=False)
class Constant(Node):
    """`const name = value`, or `param name = value`, which the command line may override."""

    name: str
    value: Expression
    is_parameter: bool


@dataclass(frozen=True, eq=False)
class CellName(Node):
    """`cell name`, or `cell name @ key`."""

    name: str
    key: int | None


@dataclass(frozen=True, eq=False)
class Parameter(Node):
    """A parameter of a function; `bits` is its width if it is packed, as in `lo: u20`. `kept` says why it can't be
    assigned to, if it can't."""

    name: str
    bits: int | None = None
    kept: str = ""


@dataclass(frozen=True, eq=False)
class Inline(Node):
    """`inline fn name(..) = value`."""

    name: str
    parameters: tuple[Parameter, ...]
    value: Expression


@dataclass(frozen=True, eq=False)
class Function(Node):
    """`fn name(..) { .. }`: a procedure of the job. `numbers` are names that stand for numbers in it, of the inline
    function that a parallel sum is in; `shown` is what messages say of it if its name is not in the source, and
    `around` are the variables of the function that a parallel sum is in."""

    name: str
    parameters: tuple[Parameter, ...]
    body: Block
    numbers: Mapping[str, int] = field(default_factory=dict)
    shown: str = ""
    around: frozenset[str] = frozenset()

    @property
    def title(self) -> str:
        """What messages call it."""
        return self.shown or self.name


Item = Constant | CellName | Inline | Function

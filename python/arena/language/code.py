"""Code with unlimited registers: what is made of a function before its registers are chosen."""
from dataclasses import dataclass

from arena.language.faults import Place

LABEL, MOVE, ARGUMENT, LOOP = "label", "move", "argument", "loop"
"""The steps that are no instructions: a place to jump to, a copy, a register that holds an argument at the start, and
the place just before a loop."""

GROUP_END, GROUP_LEFT = "group end", "group left"
"""The marks of where the block of a group ends, and of where it is left by a jump. They are gone before anything else is
made of the code."""

NO_OPERATION = (LABEL, LOOP)
OPERATIONS = frozenset({"add", "sub", "mul", "div", "rem", "lt", "le", "eq", "and", "or", "xor", "shl", "shr"})
"""The instructions that make a number of two others."""

DIVISIONS = frozenset({"div", "rem"})
"""Those that have fault 1 for a second operand of 0."""

PURE = frozenset({"set", "slot", "width", MOVE, *(OPERATIONS - DIVISIONS)})
"""The steps that do nothing but give their register a value: they may be dropped if nothing reads it."""


@dataclass(frozen=True, eq=False)
class Step:
    """An instruction over unlimited registers, or one of the four steps above.

    `place` is that of the source which it is made of; `caller` is where the inline function is used that this is in, if
    it is in one. `target` is the label that is jumped to or placed, or the name of the group that ends; `number` is a
    number to set, or the number of an argument; `depth` is how many loops are around.
    """

    name: str
    place: Place
    defines: tuple[int, ...] = ()
    uses: tuple[int, ...] = ()
    number: int = 0
    target: str = ""
    group: int = 0
    procedure: str = ""
    key: int = 0
    depth: int = 0
    caller: Place | None = None


Code = list[Step]


class Registers:
    """Unlimited registers, numbered from 1, with the names of the variables in them. `fixed` are those that must be a
    given register: the arguments."""

    def __init__(self) -> None:
        self.count = 0
        self.names: dict[int, str] = {}
        self.fixed: dict[int, int] = {}

    def new(self, name: str = "") -> int:
        """A register that nothing uses yet."""
        self.count += 1
        if name:
            self.names[self.count] = name
        return self.count

    def name(self, register: int) -> str:
        """The variable in a register, or the number that is set to it, or `_` for neither."""
        return self.names.get(register, "_")


def weight(depth: int) -> int:
    """How often code at a depth of loops is taken to run."""
    return int(10 ** min(depth, 6))

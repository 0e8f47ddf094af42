"""Draws sources as texts, with blocks in blocks: loops, branches, groups, tasks and sums in each other, names that hide others,
and ways out of several of them at once. They have no effects, so no schedule changes their values."""
import random
from collections.abc import Callable
from dataclasses import dataclass, replace

NUMBERS = ("0", "1", "2", "3", "5", "7", "64", "-1", "-3", "1_000", "0xff", "0x7fffffffffffffff", "9223372036854775808",
           "18446744073709551615", "K", "L")
SIGNS = ("+", "+", "-", "*", "&", "|", "^", "<<", ">>", "<", "<=", ">", ">=", "==", "!=", "&&", "||")
ASSIGN = ("=", "+=", "-=", "*=", "&=", "|=", "^=", ">>=")
MOST_VARIABLES = 4


@dataclass(frozen=True)
class Room:
    """What may stand at a place: names that can be read, and assigned to; functions that can be called; how deep blocks and
    expressions may still nest; and which ways out there are."""

    reads: tuple[str, ...]
    writes: tuple[str, ...]
    calls: tuple[str, ...]
    depth: int
    ways: tuple[str, ...] = ("return",)
    inlines: tuple[str, ...] = ("mix", "far")

    def inside(self, *names: str, ways: tuple[str, ...] | None = None, kept: tuple[str, ...] = ()) -> "Room":
        """The room of a block in it, with more names."""
        return replace(self.plus(*names, kept=kept), depth=self.depth - 1, ways=self.ways if ways is None else ways)

    def plus(self, *names: str, kept: tuple[str, ...] = ()) -> "Room":
        """The same with more names."""
        def joined(before: tuple[str, ...], more: tuple[str, ...]) -> tuple[str, ...]:
            """Names without those that are hidden now."""
            return (*(it for it in before if it not in more), *more)
        writes = tuple(it for it in self.writes if it not in kept)
        return replace(self, reads=joined(self.reads, (*names, *kept)), writes=joined(writes, names))


class Nest:
    """Draws one source after another."""

    def __init__(self, draws: random.Random) -> None:
        self.draws, self.count = draws, 0

    def chance(self, share: float) -> bool:
        """Whether something happens that does so in that share."""
        return self.draws.random() < share

    def new(self, letter: str) -> str:
        """A name that is new."""
        self.count += 1
        return f"{letter}{self.count}"

    # expressions

    def expression(self, room: Room, deep: int = 2) -> str:
        """An expression, in parentheses if it is more than an operand."""
        pick = self.draws.random()
        if deep == 0 or pick < 0.25:
            return self.draws.choice((*room.reads, *room.reads, self.draws.choice(NUMBERS)))
        if pick < 0.33:
            operand = self.expression(room, deep - 1)
            return f"{self.draws.choice('-!~')}{f'({operand})' if operand[0].isdigit() else operand}"
        if pick < 0.41:
            name = self.draws.choice(("min", "max", *room.inlines))
            return f"{name}({self.expression(room, deep - 1)}, {self.expression(room, deep - 1)})"
        if pick < 0.46 and room.calls:
            return f"({self.draws.choice(('call', 'isolate'))} {self.target(room, deep - 1)})"
        if pick < 0.52:
            divisor = self.expression(room, deep - 1)
            divisor = divisor if self.chance(0.15) else f"({divisor} | 1)"
            return f"({self.expression(room, deep - 1)} {self.draws.choice('/%')} {divisor})"
        sign, brk = self.draws.choice(SIGNS), "\n" if self.chance(0.03) else " "
        return f"({self.expression(room, deep - 1)} {sign}{brk}{self.expression(room, deep - 1)})"

    def target(self, room: Room, deep: int) -> str:
        """A call of a function; the last ones have parameters of their own kinds."""
        name = self.draws.choice(room.calls)
        if name == "down":
            return f"down({self.draws.randint(-1, 3)}, {self.expression(room, deep)})"
        if name == "wide":
            return f"wide({self.expression(room, deep)} & 15, {self.expression(room, deep)}, {self.expression(room, deep)} & 255)"
        return f"{name}({self.expression(room, deep)}, {self.expression(room, deep)})"

    def gathered(self, room: Room) -> str:
        """A sum over a range, with a block of its own."""
        index = self.new("i")
        captured = self.draws.choice(room.reads) if room.reads and self.chance(0.4) else None
        low, high = self.draws.randint(0, 3), self.draws.randint(0, 7)
        ends = f"{low}..{high}" if captured or self.chance(0.6) else f"({self.expression(room, 1)} & 3)..{high}"
        step = f" step {self.draws.randint(1, 3)}" if self.chance(0.3) else ""
        inner = Room((index, *([captured] if captured else [])), (), room.calls[:1], min(room.depth - 1, 1), ("give",))
        body = self.block(inner, last=f"give {self.expression(inner)}" if self.chance(0.8) else "")
        word = self.draws.choice(("psum", "psum", "pmin", "pmax"))
        return f"{word} {index}{': u12' if captured else ''} in {ends}{step} grain {self.draws.randint(1, 4)} {body}"

    # statements: each gives its lines, and the names that it declares

    def block(self, room: Room, most: int = 3, last: str = "", first: str = "") -> str:
        """A block in braces."""
        lines = [first] if first else []
        for _ in range(self.draws.randint(1, most)):
            statement, names = self.statement(room)
            lines.append(statement)
            room = room.plus(*names)
        lines += [last] if last else []
        return "{ " + "; ".join(lines) + " }" if self.chance(0.2) else "{\n" + "\n".join(lines) + "\n}"

    def statement(self, room: Room) -> tuple[str, tuple[str, ...]]:
        """A statement."""
        kinds: list[Callable[[Room], tuple[str, tuple[str, ...]]]] = [self.leaving]
        kinds += [self.assignment] * 3 if room.writes else []
        if len(room.reads) < MOST_VARIABLES:
            kinds += [self.let] * 2 + ([self.task, self.group] if room.calls else [])
            kinds += [self.sum] * 2 if room.depth > 0 else []
        kinds += [self.branch, self.branch, self.loop, self.loop] if room.depth > 0 else []
        return self.draws.choice(kinds)(room)

    def let(self, room: Room) -> tuple[str, tuple[str, ...]]:
        name = self.new("v")
        return f"let {name} = {self.expression(room)}", (name,)

    def sum(self, room: Room) -> tuple[str, tuple[str, ...]]:
        name = self.new("s")
        return f"let {name} = {self.gathered(room)}", (name,)

    def assignment(self, room: Room) -> tuple[str, tuple[str, ...]]:
        return f"{self.draws.choice(room.writes)} {self.draws.choice(ASSIGN)} {self.expression(room)}", ()

    def leaving(self, room: Room) -> tuple[str, tuple[str, ...]]:
        way = self.draws.choice(room.ways)
        value = f" {self.expression(room, 1)}" if way in ("return", "give") else ""
        return f"if {self.expression(room)} {{ {way}{value} }}", ()

    def branch(self, room: Room) -> tuple[str, tuple[str, ...]]:
        inner = room.inside()
        text = f"if {self.expression(room)} {self.hiding(room, inner)}"
        if self.chance(0.4):
            text += f" else if {self.expression(room)} {self.block(inner)}"
        return f"{text} else {self.block(inner)}" if self.chance(0.5) else text, ()

    def hiding(self, room: Room, inner: Room) -> str:
        """A block that hides a name of one around it now and then."""
        if not room.writes or self.chance(0.7):
            return self.block(inner)
        name = self.draws.choice(room.writes)
        return self.block(inner, first=f"let {name} = {self.expression(room)}")

    def loop(self, room: Room) -> tuple[str, tuple[str, ...]]:
        index, few = self.new("k"), self.draws.randint(1, 3)
        inner = room.inside(kept=(index,), ways=(*(it for it in room.ways if it not in ("break", "continue")), "break", "continue"))
        if self.chance(0.4) and len(room.reads) < MOST_VARIABLES:
            test = self.draws.choice((f"{index} < {few}", f"{few} > {index}", f"{index} != {few}", f"!({index} >= {few})",
                                      f"{index} <= {few} && {self.expression(room, 1)}"))
            return f"let {index} = 0\nwhile {test} {self.block(inner, first=f'{index} += 1')}", ()
        step = self.draws.choice(("", "", " step 2", " step -1"))
        ends = f"{few}..-1" if "-" in step else f"{self.draws.randint(-1, 2)}..{few}"
        if self.chance(0.3) and "-" not in step:
            ends = f"({self.expression(room, 1)} & 1)..({self.expression(room, 1)} & 3)"
        return f"for {index} in {ends}{step} {self.block(inner)}", ()

    def task(self, room: Room) -> tuple[str, tuple[str, ...]]:
        name = self.new("t")
        full = replace(room, reads=(*room.reads, *room.reads[:1] * MOST_VARIABLES))  # so that none is declared between
        between = f"{self.statement(full)[0]}\n" if room.reads and self.chance(0.5) else ""
        wait = self.draws.choice((f"wait {name}", "sync"))
        return f"let {name} = spawn {self.target(room, 1)}\n{between}{wait}", (name,)

    def group(self, room: Room) -> tuple[str, tuple[str, ...]]:
        group, index, total = self.new("g"), self.new("j"), self.new("w")
        spawns = [f"spawn {group}: {self.target(room, 1)}" for _ in range(self.draws.randint(1, 2))]
        if self.chance(0.5):
            inner = room.plus(kept=(index,))
            spawns.append(f"for {index} in 0..{self.draws.randint(0, 3)} {{ spawn {group}: {self.target(inner, 1)} }}")
        if self.chance(0.2):
            spawns.append(f"spawn {self.target(room, 1)}")
        end = self.draws.choice((f"let {total} = wait {group}", f"let {total} = wait {group} * 3 + wait {group}",
                                 f"let {total}, z{total} = wait {group}"))
        return "\n".join([f"group {group}", *spawns, end]), (total,)

    # the whole

    def source(self) -> str:
        """A source whose `main` has two parameters."""
        room = Room(("x", "y"), ("x", "y"), (), 1)
        pair = Room(("a", "b"), (), (), 0, inlines=())
        calls = tuple(self.draws.sample(("leaf", "down", "wide"), self.draws.choice((1, 1, 2))))
        main = Room(("x", "y"), ("x", "y"), calls, self.draws.choice((1, 2, 2, 3)))
        items = [
            f"const K = {self.draws.choice(('3 * 5 - 1', 'min(9, 4) << 2', '~7 & 63'))}", "param L = K / 2 # a constant",
            f"inline fn mix(a, b) = {self.expression(pair)}", "inline fn far(a, b) = a > b || mix(b, a) == 1",
            f"fn main(x, y) {self.block(main, 3, last=self.last(main))}", *(self.function(it, room) for it in calls)]
        return "\n".join(items) + "\n"

    def function(self, name: str, room: Room) -> str:
        """One of the functions that tasks run."""
        if name == "leaf":
            return f"fn leaf(x, y) {self.block(room, 2, last=self.last(room))}"
        if name == "wide":
            packed = replace(room, reads=("p", "x", "q"), writes=("x",))
            return f"fn wide(p: u4, x, q: u8) {self.block(packed, 1, last='return p * 300 + q ^ x')}"
        return ("fn down(n, x) {\nif n <= 0 { return x }\nlet u = spawn down(n - 1, x + 1)\n"
                "return call down(n - 2, x) - wait u\n}")

    def last(self, room: Room) -> str:
        """A return that depends on what can be assigned."""
        return f"return x * 31 - y ^ {self.expression(room, 1)}"

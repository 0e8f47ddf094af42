"""What is measured beside what, in each folder: the script that takes the times, where its lines have the ratio, and the
runs by which callgrind counts the instructions of both."""
import pathlib
import re
from collections.abc import Callable
from dataclasses import dataclass

from programs import Programs

from callgrind import Run, count
from fixed import READER, by_words, private_job, private_run, printed, readings
from server_runs import a_leaf, a_step, an_entry

# The numbers of each line that a script printed, by the words before them.
Table = dict[str, list[float]]
Counted = Callable[[Programs], float]

LEAVES = ("pool", "pool_region", "contexts", "regions", "nests", "groups", "cells")


@dataclass(frozen=True)
class Pair:
    """Something beside something else: its time as a share of the other's, and the instructions of both."""
    what: str
    beside: str
    time: Callable[[Table], float] | None = None
    ours: Counted | None = None
    theirs: Counted | None = None


@dataclass(frozen=True)
class Bench:
    """A folder: its script, and what that is given in a short run and in a long one (@NAME stands for the program of that
    crate); the pairs; the tools and the crates' programs that are needed, how often a short run makes each of its own, and
    how many cells of a line name it."""
    name: str
    command: tuple[str, ...]
    short: tuple[str, ...]
    long: tuple[str, ...]
    pairs: tuple[Pair, ...]
    tools: tuple[str, ...] = ()
    crates: tuple[str, ...] = ("benchmarks",)
    repeats: int = 3
    keys: int = 1

    def table(self, text: str) -> Table:
        """The numbers of each line, by its first cells; cells are divided by tabs, bars or a colon."""
        rows: Table = {}
        for line in text.splitlines():
            cells = [cell.strip() for cell in re.split(r"\t|\||: ", line.strip().strip("|"))]
            rest = " ".join(cells[self.keys:]).replace(",", "")
            rows[", ".join(cells[:self.keys])] = [float(it) for it in re.findall(r"[0-9]+(?:\.[0-9]+)?", rest)]
        return rows


def over(above: str, below: str, cell: int = -1, other: int | None = None) -> Callable[[Table], float]:
    """One number of the table divided by another."""
    return lambda table: table[above][cell] / table[below][cell if other is None else other]


def of(crate: str, measure: Callable[..., float]) -> Counted:
    """A count by the program of a crate, or by a twin."""
    return lambda programs: measure(programs.built(crate))


def words(long: str, short: str, unit: str) -> Counted:
    """The instructions of a unit, by two runs of `benchmarks`."""
    return of("benchmarks", by_words(long, short, printed(unit)))


def leaf(name: str, rows: int) -> Counted:
    return words(f"leaves {name} {rows} 5000", f"leaves {name} {rows} 0", ", # rounds")


def made(words_of_one: str, words_of_many: str) -> Callable[..., float]:
    """The instructions of one more arena; a job of a single step is in them."""
    return by_words(words_of_many, words_of_one, printed(": # jobs"))


def c_leaf(program: pathlib.Path) -> float:
    """The instructions of one private run of the C switch, of the leaf of the Fibonacci job."""
    return count(Run(program, (), private_job("leaf", 1), ("run",))).a_call


def json_alone(program: pathlib.Path) -> float:
    """The instructions of a line read by `serde_json` alone: all but what reading it as a request takes."""
    both, request = (by_words("reading 256 1000", "reading 256 100", readings, *it)(program) for it in ((), (READER,)))
    return both - request


STEP = words("arena fib 20 1 0", "arena fib 1 1 0", "# steps")
ARENA = Bench("arena", ("sh", "arena/run.sh"), ("1",), ("1",), (
    Pair("a step", "plain Rust", over("fib, alone", "fib, plain Rust"), STEP,
         of("plain", by_words("20 1", "1 1", printed("# steps")))),
    Pair("a step beside 4,000 rows that wait", "a step alone", over("fib, beside 4000 rows", "fib, alone"),
         words("arena fib 20 1 4000", "arena fib 1 1 4000", "# steps"), STEP),
    Pair("a step, recorded", "a step", over("fib, recorded", "fib, alone"),
         words("arena recorded 20 1", "arena recorded 1 1", "# steps"), STEP),
    Pair("making an arena of the largest limits", "plain Rust",
         over("microseconds to make an arena", "microseconds to make the plain one"),
         of("benchmarks", made("arena fib 1 1 0", "arena fib 1 21 0")), of("plain", made("1 1", "1 21"))),
), ("rustc",), repeats=5)

CHECK = Bench("check", ("python3", "check/run.py", "@script_program"), ("150000",), ("150000", "1000000"), (
    Pair("`check` of 150,000 entries", "`own`, which answers them", over("150000 entries", "150000 entries", 1, 0)),
), crates=("script_program",))

HOST = Bench("host", ("python3", "host/run.py"), ("0.5", "2", "@server_program", "@host_program"),
             ("2", "5", "@server_program", "@host_program"), tuple(
    Pair(f"{what}, {connections}", "the server", over(f"{what}, {connections}", f"{what}, {connections}", 0, 1))
    for what, connections in (("`arena`, one after another", 1), ("`arena`, one after another", 64),
                              ("a small job, executed", 1))), ("cc",), ("host_program", "server_program"), keys=2)

LEAF_ROUNDS = Bench("leaves", ("sh", "leaves/run.sh"), ("200000",), ("2000000",), tuple(
    Pair(f"a round of `{name}`, 4,096 rows", "16 rows", over(name, name, 2, 0), leaf(name, 4096), leaf(name, 16))
    for name in LEAVES))

LOCK = Bench("lock", ("sh", "lock/run.sh"), ("200000",), ("1000000",), (
    Pair("an event, four threads at one tenant", "one thread", over("4, 1", "1, 1"), None,
         words("locks steps 20000 1 1", "locks steps 1000 1 1", "# events")),
    Pair("an event, four at a tenant each", "one thread", over("4, 4", "1, 1")),
), keys=2)

PRIVATE_RUN = Bench("private_run", ("sh", "private_run/run.sh"), ("20000000",), ("100000000",), (
    Pair("an instruction of the counting loop", "a C switch", over("counting", "counting", 0, 1),
         of("benchmarks", private_run("counting", 200_000, "private_run")), of("switch", private_run("counting", 200_000))),
    Pair("an instruction of the loop of eight", "a C switch", over("mixed", "mixed", 0, 1),
         of("benchmarks", private_run("mixed", 100_000, "private_run")), of("switch", private_run("mixed", 100_000))),
    Pair("the private run of a Fibonacci leaf, three instructions", "a C switch", None,
         of("server_program", a_leaf), of("switch", c_leaf)),
), ("cc",), ("benchmarks", "server_program"))

READING = Bench("reading", ("sh", "reading/run.sh"), ("20000",), ("100000",), (
    Pair("a request, 256 bytes at a call", "`serde_json` alone", lambda table: table["256"][2] / 100,
         of("benchmarks", by_words("reading 256 1000", "reading 256 100", readings, READER)), of("benchmarks", json_alone)),
))

SERVER = Bench("server", ("python3", "server/run.py"), ("0.5", "@server_program"), ("2", "@server_program"), (
    Pair("`arena`, 1 connection", "an echo server in C", over("the echo server, 1", "`arena`, one tenant, 1", 0)),
    Pair("`arena`, 64 connections", "an echo server in C", over("the echo server, 64", "`arena`, one tenant, 64", 0)),
    Pair("`arena`, 1 connection", "a plain server in Rust", over("the plain server, 1", "`arena`, one tenant, 1", 0)),
    Pair("`arena`, 64 connections", "a plain server in Rust", over("the plain server, 64", "`arena`, one tenant, 64", 0)),
    Pair("`arena` sent ahead, 16 at a time, 1 connection", "a plain server in Rust",
         over("the plain server, 16 together", "`arena`, one tenant, 16 together", 0)),
    Pair("an entry, by jobs that their own session executes", "", None, of("server_program", an_entry)),
    Pair("a step of such a job, by view and advance", "", None, of("server_program", a_step)),
), ("cc", "rustc"), ("server_program",), keys=2)

BENCHES = (ARENA, CHECK, HOST, LEAF_ROUNDS, LOCK, PRIVATE_RUN, READING, SERVER)

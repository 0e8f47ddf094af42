"""The fixed runs whose instructions are counted. What a program does before and after the part that counts is taken off by a
shorter run of the same program."""
import json
import pathlib
import re
from collections.abc import Callable
from dataclasses import dataclass

from callgrind import Count, Failed, Run, count
from server_runs import a_step, an_entry

READER = "benchmarks::reading::readings::requests_in"
JOBS = pathlib.Path(__file__).resolve().parents[2] / "benches" / "private_run"

# Units are what a count is divided by: steps, say.
Units = Callable[[Run, Count], int]


@dataclass(frozen=True)
class Fixed:
    """A fixed run: what it is called, what one of its units is, the crate of its program, and how many instructions such a
    unit takes, by that program. A count that is greater than the kept one by more than this share of it is refused."""
    name: str
    unit: str
    crate: str
    measure: Callable[[pathlib.Path], float]
    bound: float = 0.03


def printed(what: str) -> Units:
    """The number that a run printed before or behind some words; # stands for it."""
    def units(run: Run, counted: Count) -> int:
        found = re.search(what.replace("#", "([0-9]+)"), counted.printed)
        if found is None:
            raise Failed(f"{' '.join(run.words)} printed {counted.printed!r}")
        return int(found[1])
    return units


def readings(run: Run, _: Count) -> int:
    """How often lines are read: as many lines as the last word says, five times."""
    return 5 * int(run.words[-1])


def difference(long: Run, short: Run, units: Units) -> float:
    """The instructions of a unit, by two runs that differ in nothing but how many units they have."""
    more, fewer = count(long), count(short)
    return (more.instructions - fewer.instructions) / (units(long, more) - units(short, fewer))


def by_words(long: str, short: str, units: Units, *within: str) -> Callable[[pathlib.Path], float]:
    """Two runs by words, of which those functions count, or all."""
    def measure(program: pathlib.Path) -> float:
        more, fewer = (Run(program, tuple(words.split()), within=within) for words in (long, short))
        return difference(more, fewer, units)
    return measure


def private_job(name: str, argument: int) -> str:
    """The line of a job of benches/private_run, with its first argument."""
    job = json.loads((JOBS / f"{name}.json").read_text())
    return json.dumps({**job, "args": [argument, 0]}, separators=(",", ":")) + "\n"


def private_run(name: str, turns: int, *words: str) -> Callable[[pathlib.Path], float]:
    """Two private runs of a loop, by how many turns it makes."""
    def measure(program: pathlib.Path) -> float:
        long, short = (Run(program, words, private_job(name, it)) for it in (turns, 1_000))
        return difference(long, short, printed("^# "))
    return measure


FIXED = (
    Fixed("step", "a step of an arena", "benchmarks", by_words("arena fib 20 1 0", "arena fib 1 1 0", printed("# steps"))),
    Fixed("recorded_step", "a step of a tenant's cell, recorded", "benchmarks",
          by_words("arena recorded 20 1", "arena recorded 1 1", printed("# steps"))),
    Fixed("server_step", "a step of the server, by view and advance", "server_program", a_step),
    Fixed("locked_event", "a poll at a tenant's lock, recorded", "benchmarks",
          by_words("locks steps 20000 1 1", "locks steps 1000 1 1", printed("# events"))),
    Fixed("request_read", "a small request read, 64 bytes at a call", "benchmarks",
          by_words("reading 64 1000", "reading 64 100", readings, READER)),
    Fixed("private_run", "an instruction of the counting loop", "benchmarks", private_run("counting", 200_000, "private_run")),
    Fixed("private_run_mixed", "an instruction of the loop of eight", "benchmarks",
          private_run("mixed", 100_000, "private_run")),
    Fixed("server_entry", "an entry of the server, by jobs that their own session executes", "server_program", an_entry),
)

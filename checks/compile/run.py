#!/usr/bin/env python3
"""Compares arena-compile with the compiler in Python, and both with the interpreter of checks/python, which was written from
docs/LANGUAGE.md alone, on drawn sources, and on some with numbers, bits, loops that count, constants, calls, tasks, groups, cells,
inline functions, parallel loops, calls inside values, widths, broken lines, `min`, `max` and `abs`, statuses, names that hide others,
params that are given numbers, and tasks without a name, at their edges: what both make is rehearsed on drawn schedules, and what `arena-compile --serial` prints must
be the line of the interpreter's value. Of the examples in examples/jobs those that it takes must give what they say. Sources with
faults must be refused at the first one. The last line says how many.

usage: checks/compile/run.py [SEED [PROGRAMS]], at the top of the repository; the seed is 1, and 400 programs are drawn, if none
is said. It runs what `rt ci` or `rt run` left in crates/compile_program, or else builds arena-compile without proofs.
"""
import json
import pathlib
import random
import re
import subprocess
import sys
from collections import Counter
from collections.abc import Mapping, Sequence
from dataclasses import dataclass
from types import MappingProxyType

TOP = pathlib.Path(__file__).resolve().parents[2]
sys.path[:0] = [str(TOP / "checks" / "python"), str(TOP / "checks" / "build"), str(TOP / "python")]

from asking_sources import ASKING  # noqa: E402
from bit_sources import BITS  # noqa: E402
from broken_sources import BROKEN, FURTHER, broken  # noqa: E402
from built_in_sources import BUILT_IN  # noqa: E402
from calling_sources import CALLING  # noqa: E402
from core_sources import Sources  # noqa: E402
from counting_sources import COUNTING  # noqa: E402
from arena.assembler import assemble  # noqa: E402
from arena.jobs import Job  # noqa: E402
from arena.language import SourceFault, compile_source  # noqa: E402
from arena.language.examples import examples_of, unit_of  # noqa: E402
from arena.replies import Complete, Fault, FaultCode  # noqa: E402
from arena.trace.rehearsal import rehearse  # noqa: E402
from fitting_sources import CROWDED, FITTING  # noqa: E402
from giving_sources import GIVING, given_in, given_to  # noqa: E402
from group_sources import GROUPS  # noqa: E402
from hiding_sources import HIDING  # noqa: E402
from inline_sources import INLINES  # noqa: E402
from long_sources import LONG  # noqa: E402
from nameless_sources import NAMELESS  # noqa: E402
from parallel_sources import PARALLEL  # noqa: E402
from reference import TooLong, interpreted  # noqa: E402
from refused_places import REFUSED  # noqa: E402
from sharing_sources import SHARING  # noqa: E402
from status_sources import CANCELED, STATUSES  # noqa: E402
from unproved import built  # noqa: E402
from waiting_sources import WAITING  # noqa: E402
from width_sources import PACKED, WIDTHS, drawn_source  # noqa: E402

CROWD = "{} needs more than 8 registers, and there is no memory to put one into; at once alive are {}: let another fn do a part, or compute a value where it is needed"
"""What is said of a function that needs more registers than there are: what it is called, and what is alive."""

LIMITS = {CROWD.format(r"(\w+|this p(sum|min|max))", r"[\w, ]+"): "registers", "this function is too long for a procedure": "instructions"}
"""What arena-compile says of a function that can't be compiled, as patterns, and what it has too many of."""

PYTHON_LIMITS = {"needs more than 8 registers": "registers", "a procedure has at most": "instructions"}
"""The same of the compiler in Python, where it is a part of what is said."""

TOO_LONG = ": what begins here is too long, or nested too deep\n"

REPLIES = (
    ("fn main(n) { return n * n }\n", ("--serial", 12), 0, ('{"job":1,"status":"complete","value":144}\n', "")),
    ("fn main(a, b) { return a - b }\n", ("--serial", 1, 3), 0, ('{"job":1,"status":"complete","value":-2}\n', "")),
    ("fn main(n) { for i in 0..n { n += i }; return n }\n", ("--serial", 5), 0, ('{"job":1,"status":"complete","value":15}\n', "")),
    ("fn main(n) { for i in 0..9 { if i < n { continue }; return i } }\n", ("--serial", 3), 0, ('{"job":1,"status":"complete","value":3}\n', "")),
    ("const N = -7\nparam M = N\nfn main(n) { return n * M }\n", ("--serial", 6), 0, ('{"job":1,"status":"complete","value":-42}\n', "")),
    ("fn main(n) { return call f(n, 3) }\nfn f(a, b) { return a - b }\n", ("--serial", 5), 0, ('{"job":1,"status":"complete","value":2}\n', "")),
    ("fn main(n) { call f(n); return 3 }\nfn f(n) { return 1 / n }\n", ("--serial",), 0, ('{"fault":1,"job":1,"status":"fault"}\n', "")),
    ("fn fib(n) { if n < 2 { return n }; let a = spawn fib(n - 1); let b = spawn fib(n - 2); sync; return a + b }\n", ("--serial", 10), 0, ('{"job":1,"status":"complete","value":55}\n', "")),
    ("fn main() { while 1 { } }\n", ("--serial",), 0, ('{"fault":2,"job":1,"status":"fault"}\n', "")),
    ("fn main(n) { return isolate f(n, 3) }\nfn f(a, b) { return a - b }\n", ("--serial", 5), 0, ('{"job":1,"status":"complete","value":2}\n', "")),
    ("cell c\nfn main(n) { return n }\n", ("--serial", 5), 0, ('{"job":1,"status":"complete","value":5}\n', "")),
    ("cell c\nfn main(n) { c.local = n }\n", ("--serial", 5), 1, ("", "1:1")),
    ("fn main(n) { post f() }\nfn f() { }\n", ("--serial", 5), 1, ("", "1:1")),
    ("fn main() { return cancelled() }\n", ("--serial",), 1, ("", "1:1")),
    ("fn main() { return slot() }\n", ("--serial",), 1, ("", "1:1")),
    ("fn main(n) { return m }\n", ("--serial", 12), 1, ("", "1:21")),
    ("fn main(n) { return n }\n", ("--serial", 1, 2, 3), 2, ("", "arena-compile")),
    ("fn main(n) { return n }\n", (12, "--serial"), 2, ("", "arena-compile")),
    ("param N = 3\nfn main(n) { return n * N }\n", ("--serial", "-D", "N=-7", 6), 0, ('{"job":1,"status":"complete","value":-42}\n', "")),
    ("param N = 3\nfn main(n) { return n * N }\n", ("--serial", 6, "-D", "N=4", "-D", "N=5"), 0, ('{"job":1,"status":"complete","value":30}\n', "")),
    ("param N = 3\nfn main(n) { return N }\n", ("--serial", "-D", "N=-9223372036854775808"), 0, ('{"job":1,"status":"complete","value":-9223372036854775808}\n', "")),
    ("# no\nparam N = 3\nconst M = 1\nfn main(n) { return N }\n", ("-D", "M=4"), 1, ("", "2:1")),
    ("param N = 3\nfn main(n) { return N }\n", ("-D", "N=4", "-D", "n=4"), 1, ("", "1:1")),
    ("param N = 3\nfn main(n) { return N }\n", ("-D", "NN=4"), 1, ("", "1:1")),
    ("param N = M\nfn main(n) { return N }\n", ("-D", "N=4"), 1, ("", "1:11")),
    ("fn main(n) { return n }\nparam N = 3\n", ("-D", "N=4"), 1, ("", "2:1")),
    ("param N = 3\nfn main(n) { return N }\n", ("-D", "N=x"), 2, ("", "arena-compile")),
    ("param N = 3\nfn main(n) { return N }\n", ("-D", "N=9223372036854775808"), 2, ("", "arena-compile")),
    ("param N = 3\nfn main(n) { return N }\n", ("-D", "N"), 2, ("", "arena-compile")),
    ("param N = 3\nfn main(n) { return N }\n", ("-D", "=4"), 2, ("", "arena-compile")),
    ("param N = 3\nfn main(n) { return N }\n", (1, "-D"), 2, ("", "arena-compile")),
)
"""Sources, the words for arena-compile, its status, its output, and standard error up to a colon and a space."""

STACK = "1024"
"""How many kilobytes of stack arena-compile has for the longest sources: it must not take some for each byte or line."""

TAKEN = {"divisors.job", "fib.job", "hash.job", "keeper.job", "longest.job", "patient.job", "posted.job", "primes.job", "queens.job", "search.job",
         "serial.job", "sum.job"}
"""The examples that arena-compile takes."""

MOST_FUEL = 1.25
"""How many times the fuel of the job by the compiler in Python one by arena-compile may use, for the examples, on one slot."""

HEAD = re.compile(r"^fn |\bp(?:sum|min|max) ")
"""Where a function begins that becomes a procedure."""

CANCELS = re.compile(r"\bcancel \w+;?")
"""Statements that the interpreter leaves out: what the sources cancel decides none of their values."""

FEWEST = {"complete": 0.4, "fault": 0.01}
"""Which share of the programs is at least so."""

BREAKING = 0.3
"""Of which share of the programs some lines are broken."""

GIVEN = 0.5
"""In which share of the programs params are given numbers."""

LISTED = 0.2
"""Of which share of the programs a listing is looked at."""

PROC = re.compile(r"^proc \S+    ; \d+$", re.MULTILINE)
"""The line of a procedure in a listing."""

MOST_CROWDED = 0.03
"""Which share of the programs may be refused for registers."""


def compiled(program: str, source: str, *words: object, stack: str = "") -> tuple[int, str, str]:
    """What arena-compile says of a source, with these words: its status, its output, and standard error. Its stack may be limited
    to so many kilobytes."""
    limited = ["sh", "-c", 'ulimit -s "$0" && exec "$@"', stack] if stack else []
    done = subprocess.run([*limited, program, *map(str, words)], input=source, capture_output=True, text=True, timeout=60)
    return done.returncode, done.stdout, done.stderr


def reply_of(value: int | None) -> str:
    """The line that a tenant replies when its first job is complete with a value, or has fault 1."""
    if value is None:
        return '{"fault":1,"job":1,"status":"fault"}\n'
    return f'{{"job":1,"status":"complete","value":{value}}}\n'


@dataclass(frozen=True)
class Ended:
    """What a job gives: its value, or None for fault 1, and without a fault what the cells sum up to, by their keys, but for 0."""

    value: object
    cells: Mapping[int, int]


def ended(job: object, draws: random.Random) -> Ended:
    """What a job gives on a drawn schedule."""
    found = rehearse(job, draws.randint(1, 4), draws)
    cells = {key: total for key, total in found.cells.items() if total}
    match found.outcome:
        case Complete(value=value):
            return Ended(value, cells)
        case Fault(code=FaultCode.DIVISION):
            return Ended(None, {})
        case other:
            return Ended(str(other), cells)


def of_python(source: str, arguments: tuple[int, int], draws: random.Random, givens: Mapping[str, int] = MappingProxyType({})) -> Ended | str:
    """What the job of the compiler in Python gives, or that it needs too many registers."""
    try:
        return ended(compile_source(source, parameters=givens, args=arguments).job.to_value(), draws)
    except SourceFault as fault:
        return next((kind for words, kind in PYTHON_LIMITS.items() if words in fault.message), f"refused: {fault}")


def difference(program: str, source: str, arguments: tuple[int, int], draws: random.Random, seen: Counter[str],
               cells: Mapping[int, int] | None = None, givens: Mapping[str, int] = MappingProxyType({})) -> str:
    """What is wrong with a source whose params are given these numbers, if something is. What the cells sum up to in the end is
    compared with these, or else with what they do by the compiler in Python."""
    try:
        wanted = interpreted(CANCELS.sub("", given_in(source, givens)), arguments)
    except TooLong:
        seen["too long"] += 1
        return ""
    words = [*(word for name, number in givens.items() for word in ("-D", f"{name}={number}")), *arguments]
    status, output, said = compiled(program, source, *words)
    heads = [f"{number}:{it.start() + 1}" for number, line in enumerate(source.splitlines(), 1) for it in HEAD.finditer(line)]
    limit = next((kind for head in heads for words, kind in LIMITS.items() if status == 1 and re.fullmatch(f"{head}: {words}\n", said)), "")
    if status == 1 and "inline fn" in source and said.endswith(TOO_LONG):
        limit = "operators"
    if limit:
        seen[limit] += 1
        return ""
    if status != 0:
        return f"status {status}: {said}, of {words}:\n{source}"
    found, python = ended(json.loads(output), draws), of_python(source, arguments, draws, givens)
    seen["fault" if wanted is None else "complete"] += 1
    if cells is None:
        cells = python.cells if isinstance(python, Ended) else found.cells
    if found != Ended(wanted, cells) or python not in (found, *PYTHON_LIMITS.values()):
        return f"{found}, in Python {python}, and not {wanted} with {cells}, of {words}:\n{source}"
    return serial_difference(program, source, words, reply_of(wanted) if Job.from_value(json.loads(output)).is_serial() else "")


def serial_difference(program: str, source: str, words: Sequence[object], wanted: str) -> str:
    """What is wrong with what --serial prints, if something is. Without a line that is wanted the source is refused."""
    status, output, said = compiled(program, source, "--serial", *words)
    if (status, output, said.split(": ")[0]) != ((0, wanted, "") if wanted else (1, "", "1:1")):
        return f"status {status}, {said or output} for --serial, and not {wanted}, of {words}:\n{source}"
    return ""


def fitting_difference(program: str, source: str, arguments: tuple[int, int], draws: random.Random) -> str:
    """What is wrong with a source that may not be refused, if something is."""
    seen = Counter[str]()
    said = difference(program, source, arguments, draws, seen)
    return said or (f"refused, of arguments {arguments}:\n{source}" if not seen["complete"] else "")


def crowded_difference(program: str, source: str, place: str, title: str, alive: str) -> str:
    """What is wrong with what is said of a source whose function needs a register more than there are, if something is."""
    said, wanted = compiled(program, source), f"{place}: {CROWD.format(title, alive)}\n"
    return "" if said == (1, "", wanted) else f"{said}, and not {wanted}:\n{source}"


def packed_difference(program: str, source: str, arguments: tuple[int, int], draws: random.Random) -> str:
    """What is wrong with a source that only the compiler in Python knows the value of, if something is."""
    status, output, said = compiled(program, source, *arguments)
    found, python = said if status else ended(json.loads(output), draws), of_python(source, arguments, draws)
    return "" if found == python else f"{found}, and in Python {python}, of arguments {arguments}:\n{source}"


def listing_difference(program: str, source: str, draws: random.Random) -> str:
    """What is wrong with a listing, if something is: assembled it has to be the same program, by the names that the compiler in
    Python gives the procedures if it takes the source; `draws` say which sources are listed."""
    if draws.random() > LISTED:
        return ""
    status, output, _ = compiled(program, source)
    if status:
        return ""
    status, listing, said = compiled(program, source, "--listing", 1)
    job = Job.from_value(json.loads(output))
    if status or assemble(listing).procedures != job.procedures:
        return f"status {status}, {said or listing}, and not the listing of {output}:\n{source}"
    if (first := listing.splitlines()[0]) != f"; {'a' if job.is_serial() else 'not a'} serial job":
        return f"{first}, of\n{source}"
    try:
        names, wanted = PROC.findall(listing), PROC.findall(compile_source(source).listing())
    except SourceFault:  # it needs too many registers there
        return ""
    return "" if names == wanted else f"procedures {names}, and not {wanted}, of\n{source}"


def example_differences(program: str, draws: random.Random) -> list[str]:
    """What is wrong with the examples that it takes: what they give, and which they are."""
    found, taken = [], set()
    for file in sorted((TOP / "examples" / "jobs").glob("*.job")):
        source = file.read_text()
        for example in examples_of(source):
            givens = [word for name, number in example.parameters.items() for word in ("-D", f"{name}={number}")]
            status, output, _ = compiled(program, source, *givens, *example.args)
            if status:
                continue
            taken.add(file.name)
            keys = unit_of(source).cells
            given = ended(json.loads(output), draws)
            sums = {cell: given.cells.get(keys[cell], 0) for cell in example.cells}
            if (given.value, sums) != (example.value, example.cells):
                found.append(f"{file.name}: {given} and not as in {example.text}")
            found += too_much_fuel(file.name, json.loads(output), compile_source(source, parameters=example.parameters, args=example.args).job)
    return [*found, *(f"{it} is taken, or not any more" for it in sorted(taken ^ TAKEN))]


def too_much_fuel(name: str, job: Mapping[str, object], other: Job) -> list[str]:
    """What is wrong with the fuel that a job uses beside the same one by the compiler in Python, if something is."""
    used, most = rehearse(job).fuel, MOST_FUEL * rehearse(other.to_value()).fuel
    return [f"{name}: {used} instructions, and not {most:.0f} at most"] if used > most else []


def refused_difference(program: str, source: str, place: str) -> str:
    """What is wrong with a source that has its first fault there, if something is."""
    status, output, said = compiled(program, source)
    if (status, output, said.split(": ")[0]) != (1, "", place):
        return f"status {status}, {said or output}, and not at {place}:\n{source}"
    return ""


def wrong_replies(program: str) -> list[str]:
    """What is wrong with the replies to some sources, with their words."""
    said = [(source, words, status, output, compiled(program, source, *words)) for source, words, status, output in REPLIES]
    said += [(source, words, status, output, compiled(program, source, *words, stack=STACK)) for source, words, status, output in LONG]
    return [f"{found} for {words}, and not {(status, output)}:\n{source[:2_000]}" for source, words, status, output, found in said
            if (*found[:2], found[2].split(": ")[0]) != (status, *output)]


def main(seed: int = 1, programs: int = 400) -> list[str]:
    """Compares programs, and returns what differs."""
    proved = TOP / "crates" / "compile_program" / "out" / "compile_program"
    program = str(proved if proved.exists() else built("arena-compile"))
    draws, listed, seen, found = random.Random(seed), random.Random(seed), Counter[str](), []
    sources = Sources(draws)
    for _ in range(programs):
        source = sources.source()
        source, arguments = broken(source, draws) if draws.random() < BREAKING else source, (draws.randint(-5, 9), draws.randint(-5, 9))
        givens = given_to(source, draws) if draws.random() < GIVEN else {}
        said = difference(program, source, arguments, draws, seen, givens=givens)
        said = said or listing_difference(program, source, listed)
        found += [said] if said else []
    found += [said for source, arguments in (*BITS, *COUNTING, *CALLING, *WAITING, *GROUPS, *INLINES, *PARALLEL, *ASKING, *WIDTHS, *BROKEN, *BUILT_IN, *STATUSES, *HIDING) if (said := difference(program, source, arguments, draws, Counter()))]
    shared = [drawn_source(draws) for _ in range(max(1, programs // 8))]
    found += [said for source, arguments in shared if (said := difference(program, source, arguments, draws, Counter()))]
    found += [said for source, arguments in (*PACKED, *FURTHER, *CANCELED) if (said := packed_difference(program, source, arguments, draws))]
    found += [said for source, arguments, givens in GIVING if (said := difference(program, source, arguments, draws, Counter(), givens=givens))]
    found += [said for source, arguments, cells in (*SHARING, *NAMELESS) if (said := difference(program, source, arguments, draws, Counter(), cells))]
    found += [said for source, arguments in FITTING if (said := fitting_difference(program, source, arguments, draws))]
    found += [said for crowded in CROWDED if (said := crowded_difference(program, *crowded))]
    found += example_differences(program, draws)
    found += [said for source, place in REFUSED if (said := refused_difference(program, source, place))]
    found += wrong_replies(program)
    for it in found[:3]:
        print(it)
    rare = [it for it, share in FEWEST.items() if seen[it] < share * programs]
    if rare:
        print(f"too few programs are {', '.join(rare)}")
    if seen["registers"] > MOST_CROWDED * programs:
        rare.append("registers")
        print(f"too many programs are refused for registers: {seen['registers']}")
    shown = ", ".join(f"{count} {kind}" for kind, count in sorted(seen.items()))
    print(f"{programs} sources by two compilers ({shown}), {len(BITS)} with bits, {len(COUNTING)} that count, {len(CALLING)} that call, "
          f"{len(WAITING)} that wait, {len(GROUPS)} with groups, {len(INLINES)} with inline functions, {len(PARALLEL)} with parallel loops, {len(ASKING)} with calls and the like inside values, {len(WIDTHS) + len(PACKED) + len(shared)} with widths, {len(BROKEN) + len(FURTHER)} with broken lines, {len(BUILT_IN)} with min, max and abs, {len(STATUSES) + len(CANCELED)} with statuses, {len(HIDING)} that hide names, {len(GIVING)} whose params are given numbers, {len(NAMELESS)} with tasks without a name, {len(SHARING)} that share, {len(FITTING)} that just fit, {len(CROWDED)} that do not, {len(TAKEN)} of the examples, {len(LONG)} of the greatest length, {len(REFUSED)} refused: {len(found)} differences")
    return found or rare


if __name__ == "__main__":
    sys.exit(bool(main(*map(int, sys.argv[1:]))))

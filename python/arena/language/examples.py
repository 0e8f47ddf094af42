"""The examples in a source's comments, `# test 10 0 -> 55`, and whether its job gives what they say.

Before `->` stand the arguments of the root, and values for parameters of the source, as in `N=8`. After it stands the value,
or a fault: `fault 1`. What the job leaves in cells may follow: `# test 5 -> 5, noted.sum = 10`.
"""
import random
import re
from collections.abc import Iterator, Mapping
from dataclasses import dataclass, field

from arena.language.arithmetic import wrapped
from arena.language.compiler import compile_source
from arena.language.faults import Notes, Place
from arena.language.parser import parse
from arena.language.unit import Unit
from arena.replies import Complete, Fault, FaultCode
from arena.texts import lines_of
from arena.trace.rehearsal import MOST_SLOTS, Rehearsed, rehearse

_TEST = re.compile(r"[ \t]*(?:#|//)[ \t]*test\b(?P<given>[^\n]*?)->(?P<wanted>[^\n]*)")
_NUMBER = r"-?(?:0x[0-9a-fA-F][0-9a-fA-F_]*|[0-9][0-9_]*)"
_GIVEN = re.compile(rf"(?:(?P<name>[A-Za-z_][A-Za-z_0-9]*)=)?(?P<number>{_NUMBER})")
_WANTED = re.compile(rf"(?:fault[ \t]+(?P<fault>[1-5])|(?P<value>{_NUMBER}))")
_CELL = re.compile(rf"(?P<cell>[A-Za-z_][A-Za-z_0-9]*)\.sum[ \t]*=[ \t]*(?P<sum>{_NUMBER})")
FORM = "an example is `# test 10 0 -> 55`, or `# test N=8 -> fault 1, seen.sum = 3`"


@dataclass(frozen=True)
class Example:
    """An example: its text and line, what is given, and what is wanted: a value, or else a fault, and sums of cells."""

    text: str
    line: int
    args: tuple[int, ...]
    parameters: Mapping[str, int]
    value: int | None
    fault: FaultCode | None
    cells: Mapping[str, int] = field(default_factory=dict)


@dataclass(frozen=True)
class Difference:
    """That an example gave something else: what, and on how many slots."""

    found: str
    slots: int


def examples_of(text: str) -> list[Example]:
    """The examples in the comments of a source, in their order. Raises `SourceFault` for one that can't be read."""
    found = []
    for number, line in enumerate(lines_of(text), 1):
        match = _TEST.match(line)
        if match:
            found.append(_example(match, number))
    return found


def _example(match: re.Match[str], line: int) -> Example:
    place = Place(line, match.start("given") + 1)
    args, parameters = [], {}
    for word in match["given"].split():
        given = _GIVEN.fullmatch(word)
        if not given:
            raise place.fault(f"`{word}` is no number and no NAME=NUMBER: {FORM}")
        if given["name"]:
            parameters[given["name"]] = _number(given["number"])
        else:
            args.append(_number(given["number"]))
    first, *others = (it.strip() for it in match["wanted"].split(","))
    wanted, cells = _WANTED.fullmatch(first), [_CELL.fullmatch(it) for it in others]
    if not wanted or not all(cells):
        raise place.fault(f"`{match['wanted'].strip()}` is no value and no fault: {FORM}")
    sums = {it["cell"]: _number(it["sum"]) for it in cells if it}
    value = _number(wanted["value"]) if wanted["value"] else None
    fault = FaultCode(int(wanted["fault"])) if wanted["fault"] else None
    return Example(match[0].strip(), line, tuple(args), parameters, value, fault, sums)


def _number(text: str) -> int:
    digits = text.replace("_", "").lstrip("-")
    size = int(digits, 16 if digits.startswith("0x") else 10)
    return wrapped(-size if text.startswith("-") else size)


def differences(source: str, example: Example, draws: random.Random, schedules: int, file: str) -> Iterator[Difference]:
    """Compiles a source for an example, and rehearses it on drawn schedules, the first on one slot. Yields what differs.
    Raises `SourceFault` for a source, ValueError for arguments that do not fit."""
    job = compile_source(source, parameters=example.parameters, args=example.args, file=file).job.to_value()
    keys = unit_of(source).cells
    for number in range(schedules):
        slots = 1 if number == 0 else draws.randint(2, MOST_SLOTS)
        found = rehearse(job, slots, draws)
        said = _differs(example, found, keys)
        if said:
            yield Difference(said, slots)


def _differs(example: Example, found: Rehearsed, keys: Mapping[str, int]) -> str:
    """What came of an example, if it is not what is wanted."""
    match found.outcome:
        case Complete(value=value) if value != example.value:
            return str(value)
        case Fault(code=code) if code is not example.fault:
            return f"fault {code.value}, {code.text}"
    for cell, wanted in example.cells.items():
        total = wrapped(found.cells.get(keys[cell], 0)) if cell in keys else None
        if total != wanted:
            return f"{cell}.sum = {total}" if cell in keys else f"no cell {cell}"
    return ""


def unit_of(source: str) -> Unit:
    """The items of a source by their names. Raises `SourceFault`."""
    notes = Notes()
    unit = Unit(parse(source, notes), {}, notes)
    notes.refuse()
    return unit

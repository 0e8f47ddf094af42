"""The first fault of a job or a configuration, in words, by the rules of docs/PROTOCOL.md and in their order.

A value is what `read_value` makes of a text. A job or a configuration without a fault is one that the programs accept.
"""
import json
import math
import re
from collections.abc import Iterator
from dataclasses import dataclass
from typing import Any

from arena.jobs import (ARGUMENTS, GREATEST_FUEL, GREATEST_NUMBER, GROUPS, INSTRUCTIONS, INSTRUCTIONS_OF_A_PROCEDURE,
                        KEYS, LAST_INSTRUCTIONS, LEAST_NUMBER, PROCEDURES, REGISTERS, Operand)
from arena.texts import counted, listed

GREATEST_NESTING = 127
"""How deep lists and objects may nest in a line."""

TOO_DEEP = f"the value is nested more than {GREATEST_NESTING} deep"
MOST_DIGITS = 100

TENANTS, WORKERS = 64, 32
NAME = re.compile(r"[a-z0-9-]{1,32}")
PRIORITIES, ISOLATIONS = ("low", "normal", "high"), ("exact", "within")
GREATEST_SLOTS, GREATEST_ROWS, GREATEST_STEPS = 16, 4_096, 1_048_576
GREATEST_CONFIG = 1_048_576
"""How many bytes the file of a configuration may have."""

TENANT_MEMBERS = ("name", "priority", "reserved", "rows", "slots", "steps")
OPTIONAL_TENANT_MEMBER = "isolation"


@dataclass(frozen=True)
class Place:
    """Where a value has its first fault, and what is wrong there.

    `path` is as in JavaScript, `procs[0][1]`, and empty for the value as a whole. `procedure` and `instruction` are set
    if the fault is that of an instruction; they count from 0.
    """

    path: str
    message: str
    procedure: int | None = None
    instruction: int | None = None

    def __str__(self) -> str:
        return f"{self.path}: {self.message}" if self.path else self.message


def read_value(text: str) -> object:
    """The value of a JSON text, as the programs read it: with `-0` as no integer, without NaN and the infinities, and
    not nested too deep. Raises ValueError; a `json.JSONDecodeError`, which is one, has a line and a column."""
    try:
        value = json.loads(text, parse_int=_integer, parse_float=_float, parse_constant=_refuse)
    except RecursionError:
        raise ValueError(TOO_DEEP) from None
    if _nesting(value) > GREATEST_NESTING:
        raise ValueError(TOO_DEEP)
    if half := next(_half_surrogates(value, ""), None):
        raise ValueError(str(half))
    return value


def _half_surrogates(value: object, path: str) -> Iterator[Place]:
    """The texts in which half of a surrogate pair stands, which no UTF-8 has."""
    match value:
        case str() if any(0xD800 <= ord(it) < 0xE000 for it in value):
            yield Place(path, f"{shown(value)} has half of a surrogate pair, which is no text")
        case list():
            for index, part in enumerate(value):
                yield from _half_surrogates(part, f"{path}[{index}]")
        case dict():
            for name, part in value.items():
                yield from _half_surrogates(name, path)
                yield from _half_surrogates(part, f"{path}.{name}" if path else name)


def _integer(digits: str) -> int | float:
    """The number in some digits. `-0` is no integer, nor is one that is far from 64 bits."""
    return _float(digits) if digits == "-0" or len(digits) > MOST_DIGITS else int(digits)


def _float(digits: str) -> float:
    """A number with a point or an exponent, or of many digits; the programs read none that is infinite."""
    number = float(digits)
    if math.isinf(number):
        raise ValueError(f"{digits[:20]}.. is too great a number")
    return number


def _refuse(word: str) -> object:
    raise ValueError(f"{word} is no JSON")


def _nesting(value: object) -> int:
    """How deep lists and objects nest."""
    depth, level = 0, [value]
    while inner := [it for it in level if isinstance(it, list | dict)]:
        depth += 1
        level = [part for it in inner for part in (it.values() if isinstance(it, dict) else it)]
    return depth


def first_fault_of_job(value: object) -> Place | None:
    """The place of the first fault of a JOB, or None if it is valid."""
    return next(_faults_of_job(value), None)


def first_fault_of_config(value: object) -> Place | None:
    """The place of the first fault of a configuration, or None if it is valid."""
    return next(_faults_of_config(value), None)


def first_fault_of_tenant(value: object) -> Place | None:
    """The place of the first fault of a TENANT, or None if it is valid."""
    return next(_faults_of_tenant(value, ""), None)


def shown(value: object) -> str:
    """A value as messages show it: compact JSON, at most 60 characters."""
    text = re.sub(r"-0\.0(?![0-9])", "-0", json.dumps(value, separators=(",", ":")))
    return text if len(text) <= 60 else f"{text[:57]}..."


def _is_integer(value: object, least: int, greatest: int) -> bool:
    return isinstance(value, int) and not isinstance(value, bool) and least <= value <= greatest


def _members(value: object, path: str, names: tuple[str, ...], optional: tuple[str, ...] = ()) -> Iterator[Place]:
    """The fault of what is no object, or not one with these members."""
    what = f"an object with the members {listed(names)}"
    if not isinstance(value, dict):
        yield Place(path, f"{what}, not {shown(value)}")
        return
    missing = [name for name in names if name not in value]
    more = [name for name in value if name not in (*names, *optional)]
    if missing:
        yield Place(path, f"{what}; {listed(missing)} {'is' if len(missing) == 1 else 'are'} missing")
    if more:
        yield Place(path, f"{what}; {shown(more[0])} is none of them")


def _faults_of_job(value: Any) -> Iterator[Place]:
    """The faults of a job, the first one first; after one of its form there is no other."""
    form = list(_faults_of_form(value))
    yield from form
    if not form:
        for number, procedure in enumerate(value["procs"]):
            for index in range(len(procedure)):
                yield from _faults_of_instruction(value["procs"], number, index)


def _faults_of_form(value: Any) -> Iterator[Place]:
    if place := next(_members(value, "", ("args", "fuel", "procs")), None):
        yield place
        return
    args, fuel, procs = value["args"], value["fuel"], value["procs"]
    if not isinstance(args, list) or len(args) != ARGUMENTS or not all(map(_is_number, args)):
        yield Place("args", f"a list of two integers from {LEAST_NUMBER} to {GREATEST_NUMBER}, not {shown(args)}")
    if not _is_integer(fuel, 1, GREATEST_FUEL):
        yield Place("fuel", f"an integer from 1 to {GREATEST_FUEL}, not {shown(fuel)}")
    if not isinstance(procs, list) or not 1 <= len(procs) <= PROCEDURES:
        found = counted(len(procs), "procedure") if isinstance(procs, list) else shown(procs)
        yield Place("procs", f"a list of 1 to {PROCEDURES} procedures, not {found}")
        return
    for number, procedure in enumerate(procs):
        if not isinstance(procedure, list) or not 1 <= len(procedure) <= INSTRUCTIONS_OF_A_PROCEDURE:
            found = counted(len(procedure), "instruction") if isinstance(procedure, list) else shown(procedure)
            yield Place(f"procs[{number}]", f"a list of 1 to {INSTRUCTIONS_OF_A_PROCEDURE} instructions, not {found}")


def _is_number(value: object) -> bool:
    return _is_integer(value, LEAST_NUMBER, GREATEST_NUMBER)


def _faults_of_instruction(procs: list[Any], number: int, index: int) -> Iterator[Place]:
    """The faults of an instruction of a job whose form is right."""
    it, place = procs[number][index], f"procs[{number}][{index}]"

    def fault(message: str) -> Place:
        """The place of this instruction, with a message."""
        return Place(place, f"{message}: {shown(it)}", number, index)

    if not isinstance(it, list) or not it or not isinstance(it[0], str):
        yield fault("an instruction is a list of its name and its operands")
        return
    name, *operands = it
    if name not in INSTRUCTIONS:
        yield fault(f"there is no instruction {shown(name)}")
        return
    kinds = INSTRUCTIONS[name]
    if len(operands) != len(kinds):
        yield fault(f"{name} takes {counted(len(kinds), 'operand')}")
        return
    for at, (kind, operand) in enumerate(zip(kinds, operands), 1):
        least, greatest = _bounds(kind, len(procs), len(procs[number]))
        if not _is_integer(operand, least, greatest):
            yield fault(f"operand {at} of {name} is {kind.noun}, {least} to {greatest}")
    if index == len(procs[number]) - 1 and name not in LAST_INSTRUCTIONS:
        yield fault(f"the last instruction of a procedure is {' or '.join(LAST_INSTRUCTIONS)}")


def _bounds(kind: Operand, procedures: int, instructions: int) -> tuple[int, int]:
    """The least and the greatest value of an operand."""
    if kind is Operand.NUMBER:
        return LEAST_NUMBER, GREATEST_NUMBER
    counts = {Operand.TARGET: instructions, Operand.GROUP: GROUPS, Operand.PROCEDURE: procedures, Operand.KEY: KEYS}
    return 0, counts.get(kind, REGISTERS) - 1


def _faults_of_config(value: Any) -> Iterator[Place]:
    if place := next(_members(value, "", ("tenants", "workers")), None):
        yield place
        return
    tenants, workers = value["tenants"], value["workers"]
    if not _is_integer(workers, 1, WORKERS):
        yield Place("workers", f"an integer from 1 to {WORKERS}, not {shown(workers)}")
    if not isinstance(tenants, list) or not 1 <= len(tenants) <= TENANTS:
        found = counted(len(tenants), "tenant") if isinstance(tenants, list) else shown(tenants)
        yield Place("tenants", f"a list of 1 to {TENANTS} tenants, not {found}")
        return
    first: dict[str, int] = {}
    for number, tenant in enumerate(tenants):
        path = f"tenants[{number}]"
        faults = list(_faults_of_tenant(tenant, path))
        yield from faults
        if not faults:
            name = tenant["name"]
            if name in first:
                yield Place(f"{path}.name", f"tenants[{first[name]}] has the name {shown(name)}, too")
            first.setdefault(name, number)


def _faults_of_tenant(value: Any, path: str) -> Iterator[Place]:
    if place := next(_members(value, path, TENANT_MEMBERS, (OPTIONAL_TENANT_MEMBER,)), None):
        yield place
        return
    dot = f"{path}." if path else ""
    name, slots = value["name"], value["slots"]
    if not isinstance(name, str) or not NAME.fullmatch(name):
        yield Place(f"{dot}name", f"1 to 32 of a to z, 0 to 9 and -, not {shown(name)}")
    if value["priority"] not in PRIORITIES:
        yield Place(f"{dot}priority", f"one of {listed(PRIORITIES)}, not {shown(value['priority'])}")
    if value.get(OPTIONAL_TENANT_MEMBER, ISOLATIONS[0]) not in ISOLATIONS:
        yield Place(f"{dot}isolation", f"one of {listed(ISOLATIONS)}, not {shown(value[OPTIONAL_TENANT_MEMBER])}")
    greatest_reserved = slots if _is_integer(slots, 1, GREATEST_SLOTS) else GREATEST_SLOTS
    for member, least, greatest in (("slots", 1, GREATEST_SLOTS), ("reserved", 0, greatest_reserved),
                                    ("rows", 1, GREATEST_ROWS), ("steps", 1, GREATEST_STEPS)):
        if not _is_integer(value[member], least, greatest):
            more = ", the tenant's slots" if member == "reserved" else ""
            yield Place(f"{dot}{member}", f"an integer from {least} to {greatest}{more}, not {shown(value[member])}")

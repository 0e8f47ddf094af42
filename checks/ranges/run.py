#!/usr/bin/env python3
"""Gives `arena-script`, as `rt ci` or `make build` built it, values at the two ends of each range that
docs/PROTOCOL.md states, and just beyond them: jobs (whose serial values are worked out by hand), tenants and
configurations. It builds the program first if a source is newer than it. The last line says how many values
were accepted and refused as they should be.
"""
import json
import pathlib
import subprocess
import sys
from collections.abc import Iterable, Iterator, Sequence

sys.path.append(str(pathlib.Path(__file__).resolve().parents[1] / "scripts"))

from script import PATIENCE, PROGRAM, build

LEAST, GREATEST = -(2**63), 2**63 - 1
NONE = {"serial": "none"}
BAD = {"code": 4, "error": "bad_program"}
RETURN = ["ret", 0]
# The instructions that make a number of two.
OF_TWO = ["add", "sub", "mul", "div", "rem", "and", "or", "xor", "shl", "shr", "lt", "le", "eq"]


def job(procs: list | None = None, args: Sequence[object] = (0, 0), fuel: object = 1, **more: object) -> str:
    """A job as a text."""
    return json.dumps({"args": args, "fuel": fuel, "procs": procs or [[RETURN]], **more})


def procedure(*instructions: object) -> str:
    """A job of one procedure."""
    return job(procs=[list(instructions)])


def of_two(name: str, a: int, b: int) -> str:
    """A job of one instruction that makes a number of two numbers."""
    return job(procs=[[[name, 7, 0, 1], ["ret", 7]]], args=(a, b), fuel=2)


# Each job with what `arena-script serial` answers. `ret` alone executes one instruction.
JOBS = [
    (job(fuel=1), {"serial": 0}),
    (job(fuel=1_000_000), {"serial": 0}),
    (job(fuel=0), BAD),
    (job(fuel=1_000_001), BAD),
    (job(fuel=1.0), BAD),
    ('{"args":[0,0],"fuel":1e0,"procs":[[["ret",0]]]}', BAD),
    (job(args=(LEAST, GREATEST)), {"serial": LEAST}),
    (job(args=(GREATEST, LEAST)), {"serial": GREATEST}),
    (job(args=(LEAST - 1, 0)), BAD),
    (job(args=(0, GREATEST + 1)), BAD),
    (job(args=(0,)), BAD),
    (job(args=(0, 0, 0)), BAD),
    (job(args=(0, "0")), BAD),
    ('{"args":[0],"args":[4,0],"fuel":0,"fuel":1,"procs":[[["ret",0]]]}', {"serial": 4}),
    ('{"args":[0,0],"fuel":1}', BAD),
    ('{"args":[0,0],"fuel":1,"proc":[[["ret",0]]]}', BAD),
    (job(rows=1), BAD),
    ("[0,0]", BAD),
    ("5", BAD),
    ('{"args":[0,0],"fuel":1,"procs":[]}', BAD),
    ('{"args":[0,0],"fuel":1,"procs":{}}', BAD),
    (job(procs=[[]]), BAD),
    (job(procs=[[RETURN], 5]), BAD),
    (job(procs=[[RETURN]] * 16), {"serial": 0}),
    (job(procs=[[RETURN]] * 17), BAD),
    (job(procs=[[RETURN] * 256]), {"serial": 0}),
    (job(procs=[[RETURN] * 257]), BAD),
    # registers: 0 to 7
    (procedure(["ret", 7]), {"serial": 0}),
    (procedure(["ret", 8]), BAD),
    (procedure(["ret", -1]), BAD),
    # numbers: 64 bits with a sign
    (job(procs=[[["set", 0, LEAST], RETURN]], fuel=2), {"serial": LEAST}),
    (job(procs=[[["set", 0, GREATEST], RETURN]], fuel=2), {"serial": GREATEST}),
    (procedure(["set", 0, LEAST - 1], RETURN), BAD),
    (procedure(["set", 0, GREATEST + 1], RETURN), BAD),
    (procedure(["set", 0, 1.0], RETURN), BAD),
    # targets: an instruction of the same procedure
    (procedure(["jmp", 0]), NONE),
    (procedure(["jmp", 1]), BAD),
    (procedure(["jmp", -1]), BAD),
    (job(procs=[[["jz", 0, 1], RETURN]], fuel=2), {"serial": 0}),
    (procedure(["jz", 0, 2], RETURN), BAD),
    # procedures: those that are there
    (procedure(["spawn", 0, 0, 0, 0], RETURN), NONE),
    (procedure(["spawn", 0, 1, 0, 0], RETURN), BAD),
    (job(procs=[[RETURN], [["spawn", 0, 2, 0, 0], RETURN]]), BAD),
    (job(procs=[[RETURN], [["isolate", 0, 1, 0, 0], RETURN]]), {"serial": 0}),
    (job(procs=[[RETURN], [["post", 2, 0, 0], RETURN]]), BAD),
    # groups: 0 to 3
    (job(procs=[[["wait", 0, 1, 3], RETURN]], fuel=2), {"serial": 0}),
    (procedure(["wait", 0, 1, 4], RETURN), BAD),
    (procedure(["cancel", 3], RETURN), {"serial": "not_serial"}),
    (procedure(["cancel", 4], RETURN), BAD),
    # keys: 0 to 7
    (procedure(["load", 0, 7], RETURN), {"serial": "not_serial"}),
    (procedure(["load", 0, 8], RETURN), BAD),
    (procedure(["store", 8, 0], RETURN), BAD),
    (procedure(["sum", 0, 8], RETURN), BAD),
    # numbers that are made of two, at the ends of their range; a shift is by the lowest six bits
    (of_two("div", LEAST, -1), {"serial": LEAST}),
    (of_two("rem", LEAST, -1), {"serial": 0}),
    (of_two("rem", LEAST, GREATEST), {"serial": -1}),
    (of_two("rem", GREATEST, LEAST), {"serial": GREATEST}),
    (of_two("rem", LEAST, 10), {"serial": -8}),
    (of_two("rem", GREATEST, -10), {"serial": 7}),
    (of_two("rem", LEAST, 0), NONE),
    (of_two("and", LEAST, GREATEST), {"serial": 0}),
    (of_two("and", LEAST, -1), {"serial": LEAST}),
    (of_two("or", LEAST, GREATEST), {"serial": -1}),
    (of_two("or", LEAST, 1), {"serial": LEAST + 1}),
    (of_two("xor", LEAST, GREATEST), {"serial": -1}),
    (of_two("xor", LEAST, -1), {"serial": GREATEST}),
    (of_two("shl", 1, 63), {"serial": LEAST}),
    (of_two("shl", 2, 63), {"serial": 0}),
    (of_two("shl", 1, 64), {"serial": 1}),
    (of_two("shl", 1, -1), {"serial": LEAST}),
    (of_two("shl", GREATEST, 1), {"serial": -2}),
    (of_two("shl", 3, LEAST), {"serial": 3}),
    (of_two("shr", LEAST, 63), {"serial": -1}),
    (of_two("shr", LEAST, 64), {"serial": LEAST}),
    (of_two("shr", LEAST, 65), {"serial": -(2**62)}),
    (of_two("shr", GREATEST, 62), {"serial": 1}),
    (of_two("shr", GREATEST, GREATEST), {"serial": 0}),
    (of_two("shr", -1, -1), {"serial": -1}),
    (of_two("lt", LEAST, GREATEST), {"serial": 1}),
    (of_two("lt", LEAST, LEAST), {"serial": 0}),
    (of_two("le", LEAST, LEAST), {"serial": 1}),
    (of_two("le", GREATEST, LEAST), {"serial": 0}),
    (of_two("eq", LEAST, LEAST), {"serial": 1}),
    (of_two("eq", LEAST, GREATEST), {"serial": 0}),
    *((procedure([name, 0, 1, 8], RETURN), BAD) for name in OF_TWO),
    *((procedure([name, 8, 0, 1], RETURN), BAD) for name in OF_TWO),
    *((procedure([name, 0, 1], RETURN), BAD) for name in OF_TWO),
    # instructions: their names, with as many operands as each has; the last is `ret` or `jmp`
    (procedure(["set", 2, 1]), BAD),
    (procedure(["ret"]), BAD),
    (procedure(["ret", 0, 0]), BAD),
    (procedure(["Ret", 0]), BAD),
    (procedure(["not", 0, 0, 1], RETURN), BAD),
    (procedure([0, "ret"]), BAD),
    (procedure([]), BAD),
    (procedure(5), BAD),
]


def tenant(**members: object) -> dict:
    """The smallest tenant, but for these members."""
    return {"name": "a", "priority": "low", "reserved": 0, "rows": 1, "slots": 1, "steps": 1, **members}


def without(name: str) -> dict:
    """That tenant without a member."""
    return {member: value for member, value in tenant().items() if member != name}


TENANTS = [
    (tenant(), True),
    (tenant(name="abcdefghijklmnopqrstuvwxyz-01239", priority="high"), True),
    (tenant(name="abcdefghijklmnopqrstuvwxyz-012399"), False),
    (tenant(name=""), False),
    (tenant(name="Acme"), False),
    (tenant(name=7), False),
    (tenant(priority="normal"), True),
    (tenant(priority="middle"), False),
    (tenant(slots=16, reserved=16, rows=4096, steps=1048576), True),
    (tenant(slots=0), False),
    (tenant(slots=17), False),
    (tenant(slots=257), False),
    (tenant(reserved=1), True),
    (tenant(reserved=2), False),
    (tenant(reserved=-1), False),
    (tenant(rows=0), False),
    (tenant(rows=4097), False),
    (tenant(steps=0), False),
    (tenant(steps=1048577), False),
    (tenant(isolation="exact"), True),
    (tenant(isolation="within"), True),
    (tenant(isolation="none"), False),
    (without("steps"), False),
    (without("name"), False),
    (tenant(x=1), False),
    (None, False),
]


def configuration(count: int, workers: int, last: str | None = None) -> dict:
    """One of so many tenants, the last of which may have a name of its own."""
    names = [str(number) for number in range(count)]
    if last is not None:
        names[-1] = last
    return {"tenants": [tenant(name=name) for name in names], "workers": workers}


CONFIGURATIONS = [
    (configuration(1, 1), True),
    (configuration(64, 32), True),
    (configuration(65, 32), False),
    (configuration(64, 32, last="0"), False),
    (configuration(64, 32, last="62"), False),
    (configuration(0, 1), False),
    (configuration(1, 0), False),
    (configuration(1, 33), False),
    ({"tenants": {}, "workers": 1}, False),
    ({"tenants": [5], "workers": 1}, False),
    ({"workers": 1}, False),
    ([], False),
]


def script(word: str, text: str) -> tuple[int, str, str]:
    """The status of a script, what it prints, and what it says on standard error."""
    run = subprocess.run([PROGRAM, word], input=text + "\n", capture_output=True, text=True, timeout=PATIENCE)
    return run.returncode, run.stdout, run.stderr


def serial_differences() -> Iterator[str]:
    """The jobs that are answered otherwise; each is a line of one script."""
    status, printed, said = script("serial", "\n".join(text for text, _ in JOBS))
    answers = [json.loads(line) for line in printed.splitlines()]
    if status or said or len(answers) != len(JOBS):
        yield f"serial: status {status}, {len(answers)} answers, {said}"
        return
    for (text, expected), answer in zip(JOBS, answers):
        if answer != expected:
            yield f"{text[:200]}: {answer}, not {expected}"


def first_line_differences(word: str, lines: Iterable[tuple[object, bool]]) -> Iterator[str]:
    """The first lines that are not accepted or refused as they should be."""
    for line, is_valid in lines:
        expected = (0, "", "") if is_valid else (2, "", "arena-script: config\n")
        answer = script(word, json.dumps(line))
        if answer != expected:
            yield f"{word} {json.dumps(line)[:200]}: {answer}"


def main() -> None:
    """Compares all values, and says what differs."""
    build()
    tenants = [({"tenant": it}, is_valid) for it, is_valid in TENANTS]
    differences = [
        *serial_differences(),
        *first_line_differences("own", tenants),
        *first_line_differences("run", CONFIGURATIONS),
    ]
    for difference in differences:
        print(difference)
    verdicts = [expected != BAD for _, expected in JOBS] + [it for _, it in TENANTS + CONFIGURATIONS]
    accepted = sum(verdicts)
    print(f"{accepted} values to accept, {len(verdicts) - accepted} to refuse: {len(differences)} differences")
    sys.exit(1 if differences else 0)


if __name__ == "__main__":
    main()

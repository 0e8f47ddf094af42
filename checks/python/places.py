"""Refusals of jobs, configurations and texts, each with the place and the words that `arena.lint` gives. The places
follow from the rules in docs/PROTOCOL.md: the form of the job comes before all instructions, and these in the order of
the text; the last instruction of a procedure is looked at in its place."""
import json
from dataclasses import dataclass


@dataclass(frozen=True)
class Expected:
    """The words of a refusal, and the instruction that it is of, if it is of one."""

    words: str
    procedure: int | None = None
    instruction: int | None = None


def job(procs: object, **more: object) -> str:
    """A job as a text."""
    return json.dumps({"args": [0, 0], "fuel": 10, "procs": procs, **more}, separators=(",", ":"))


def at(procedure: int, instruction: int, words: str) -> Expected:
    """The refusal of an instruction."""
    return Expected(f"procs[{procedure}][{instruction}]: {words}", procedure, instruction)


RETURN = ["ret", 0]
LEAST, GREATEST = -(2**63), 2**63 - 1
MEMBERS = "an object with the members args, fuel and procs"
LAST = "the last instruction of a procedure is ret or jmp"

JOBS = [
    (job([[RETURN]]), None),
    # the form
    ("5", Expected(f"{MEMBERS}, not 5")),
    ('{"args":[0,0],"fuel":1}', Expected(f"{MEMBERS}; procs is missing")),
    (job([[RETURN]], rows=1), Expected(f'{MEMBERS}; "rows" is none of them')),
    (job([[RETURN]], fuel=0), Expected("fuel: an integer from 1 to 1000000, not 0")),
    (job([[RETURN]], fuel=1_000_001), Expected("fuel: an integer from 1 to 1000000, not 1000001")),
    (job([[RETURN]], fuel=1.0), Expected("fuel: an integer from 1 to 1000000, not 1.0")),
    (job([[RETURN]], fuel=True), Expected("fuel: an integer from 1 to 1000000, not true")),
    (job([[RETURN]], args=[0]), Expected(f"args: a list of two integers from {LEAST} to {GREATEST}, not [0]")),
    (job([[RETURN]], args=[0, GREATEST + 1]),
     Expected(f"args: a list of two integers from {LEAST} to {GREATEST}, not [0,{GREATEST + 1}]")),
    ('{"args":[-0,0],"fuel":1,"procs":[[["ret",0]]]}',
     Expected(f"args: a list of two integers from {LEAST} to {GREATEST}, not [-0,0]")),
    (job([]), Expected("procs: a list of 1 to 16 procedures, not 0 procedures")),
    (job({}), Expected("procs: a list of 1 to 16 procedures, not {}")),
    (job([[RETURN]] * 17), Expected("procs: a list of 1 to 16 procedures, not 17 procedures")),
    (job([[RETURN], []]), Expected("procs[1]: a list of 1 to 256 instructions, not 0 instructions")),
    (job([[RETURN] * 257]), Expected("procs[0]: a list of 1 to 256 instructions, not 257 instructions")),
    # the form of a later procedure comes before the instructions of an earlier one
    (job([[["ret", 8]], 5]), Expected("procs[1]: a list of 1 to 256 instructions, not 5")),
    (job([[["ret", 8]]], fuel=0), Expected("fuel: an integer from 1 to 1000000, not 0")),
    # instructions
    (job([[["ret", 8]]]), at(0, 0, 'operand 1 of ret is a register, 0 to 7: ["ret",8]')),
    (job([[["set", 2, 1]]]), at(0, 0, f'{LAST}: ["set",2,1]')),
    (job([[["jmp", 1], ["ret", 9]]]), at(0, 1, 'operand 1 of ret is a register, 0 to 7: ["ret",9]')),
    (job([[["jmp", 1]]]), at(0, 0, 'operand 1 of jmp is an instruction of this procedure, 0 to 0: ["jmp",1]')),
    (job([[["set", 2, 1], ["jz", 2, 9], RETURN]]),
     at(0, 1, 'operand 2 of jz is an instruction of this procedure, 0 to 2: ["jz",2,9]')),
    (job([[RETURN], [["spawn", 0, 2, 0, 0], RETURN]]),
     at(1, 0, 'operand 2 of spawn is a procedure, 0 to 1: ["spawn",0,2,0,0]')),
    (job([[["set", 2, 1.0], RETURN]]), at(0, 0, f'operand 2 of set is a number, {LEAST} to {GREATEST}: ["set",2,1.0]')),
    (job([[["wait", 0, 1, 4], RETURN]]), at(0, 0, 'operand 3 of wait is a group, 0 to 3: ["wait",0,1,4]')),
    (job([[["store", 8, 0], RETURN]]), at(0, 0, 'operand 1 of store is a key, 0 to 7: ["store",8,0]')),
    (job([[["add", 0, 1], RETURN]]), at(0, 0, 'add takes 3 operands: ["add",0,1]')),
    (job([[["Ret", 0]]]), at(0, 0, 'there is no instruction "Ret": ["Ret",0]')),
    (job([[[0, "ret"]]]), at(0, 0, 'an instruction is a list of its name and its operands: [0,"ret"]')),
    (job([[[]]]), at(0, 0, "an instruction is a list of its name and its operands: []")),
    (job([[5]]), at(0, 0, "an instruction is a list of its name and its operands: 5")),
    # of two faults of an instruction its operands come first; of two instructions, the first
    (job([[["set", 8, 1]]]), at(0, 0, 'operand 1 of set is a register, 0 to 7: ["set",8,1]')),
    (job([[RETURN, ["set", 2, 1]], [["ret", 8]]]), at(0, 1, f'{LAST}: ["set",2,1]')),
]


def tenant(**members: object) -> dict:
    """The smallest tenant, but for these members."""
    return {"name": "a", "priority": "low", "reserved": 0, "rows": 1, "slots": 1, "steps": 1, **members}


def config(*tenants: object, workers: int = 1) -> dict:
    """A configuration."""
    return {"tenants": list(tenants), "workers": workers}


TENANT = "an object with the members name, priority, reserved, rows, slots and steps"
NAME = "1 to 32 of a to z, 0 to 9 and -"

CONFIGS = [
    (config(tenant()), None),
    ([], Expected("an object with the members tenants and workers, not []")),
    ({"workers": 1}, Expected("an object with the members tenants and workers; tenants is missing")),
    (config(tenant(), workers=33), Expected("workers: an integer from 1 to 32, not 33")),
    (config(), Expected("tenants: a list of 1 to 64 tenants, not 0 tenants")),
    (config(5), Expected(f"tenants[0]: {TENANT}, not 5")),
    (config(tenant(), tenant(name="b", x=1)), Expected(f'tenants[1]: {TENANT}; "x" is none of them')),
    (config({"name": "a"}), Expected(f"tenants[0]: {TENANT}; priority, reserved, rows, slots and steps are missing")),
    (config(tenant(name="Acme")), Expected(f'tenants[0].name: {NAME}, not "Acme"')),
    (config(tenant(name="a\n")), Expected(f'tenants[0].name: {NAME}, not "a\\n"')),
    (config(tenant(priority="middle")), Expected('tenants[0].priority: one of low, normal and high, not "middle"')),
    (config(tenant(priority=[])), Expected("tenants[0].priority: one of low, normal and high, not []")),
    (config(tenant(isolation="none")), Expected('tenants[0].isolation: one of exact and within, not "none"')),
    (config(tenant(slots=17)), Expected("tenants[0].slots: an integer from 1 to 16, not 17")),
    (config(tenant(reserved=2)), Expected("tenants[0].reserved: an integer from 0 to 1, the tenant's slots, not 2")),
    (config(tenant(rows=0)), Expected("tenants[0].rows: an integer from 1 to 4096, not 0")),
    (config(tenant(steps=1.0)), Expected("tenants[0].steps: an integer from 1 to 1048576, not 1.0")),
    (config(tenant(), tenant(name="b"), tenant()), Expected('tenants[2].name: tenants[0] has the name "a", too')),
]

# Texts, and whether the programs read them as JSON, be it a job or not.
TEXTS = [
    ("[" * 127 + "]" * 127, True),
    ("[" * 128 + "]" * 128, False),
    ("[" * 20_000 + "]" * 20_000, False),
    ("9" * 5_000, False),
    ("9" * 308, True),
    ("9" * 309, False),
    ("-1e999", False),
    ("1e-999", True),
    ('{"a":' * 127 + "0" + "}" * 127, True),
    ('{"a":' * 128 + "0" + "}" * 128, False),
    ("NaN", False),
    ("-Infinity", False),
    ('"\\ud800"', False),
    ('"\\ud83d\\ude00"', True),
    ("[1,]", False),
    ("[1 2]", False),
    ("[01]", False),
    ("[1.]", False),
    ("[+1]", False),
    ("'a'", False),
    ('"\t"', False),
    ('"\\x"', False),
    ("[1]]", False),
]

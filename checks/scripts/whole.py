"""Whole scripts with what they print, how they end, and what is said on standard error."""
import json

from script import (
    ARENA, BAD_JSON, BAD_PROGRAM, BAD_STEP, LINE_TOO_LONG, NOTHING, RAN, advance, arrive, arrived, complete, limits,
    line_of, made, poll, submit, tenant)

MAX_SCRIPT_LINE = 1_048_576

TENANT = tenant(1, 0, rows=8, steps=100) + "\n"

SEVEN = {"args": [7, 0], "fuel": 10, "procs": [[["ret", 0]]]}

# A job that returns its first argument, from its submission to its outcome.
STEPS = "".join(it + "\n" for it in (submit(SEVEN), arrive(0), advance(0), poll(1)))
ANSWERS = "".join(it + "\n" for it in (made(1), arrived(1), RAN, complete(1, 7)))

DONE, BAD_LINE = (0, ""), (2, "")
WORDS, CONFIG = (2, "arena-script: words\n"), (2, "arena-script: config\n")

# A job whose tasks nest nine deep: it counts its first argument down and gives its second.
NESTING = line_of({"args": [8, 7], "fuel": 100, "procs": [[
    ["jz", 0, 6], ["set", 2, 1], ["sub", 3, 0, 2], ["spawn", 0, 0, 3, 1], ["wait", 4, 5, 0], ["ret", 4], ["ret", 1]]]})


def padded(text):
    """The line at its end, after as many spaces as make it as long as a script's line may be."""
    return " " * (MAX_SCRIPT_LINE - len(text)) + text


NO_TENANTS = [
    "\n \n",
    "tenant\n",
    "[]\n",
    "{}\n",
    line_of(json.loads(TENANT)["tenant"]) + "\n",
    line_of({**json.loads(TENANT), "x": 1}) + "\n",
    tenant(0, 0) + "\n",
    " " + padded(TENANT.rstrip()) + "\n",
]

NO_STEPS = [
    "step",
    "[]",
    "{}",
    '{"step":"ask"}',
    '{"request":{"op":"arena"}}',
    '{"request":{"op":"arena"},"step":"ask","x":1}',
    '{"request":{"op":"arena"},"step":"Ask"}',
    '{"request":{"op":"arena"},"step":7}',
    '{"slot":0,"step":"jump"}',
    '{"slot":0,"step":"ask"}',
    '{"slot":1,"step":"arrive"}',
    '{"slot":1,"step":"advance"}',
    '{"slot":256,"step":"arrive"}',
    '{"slot":18446744073709551615,"step":"advance"}',
    '{"slot":18446744073709551616,"step":"advance"}',
    '{"slot":-1,"step":"advance"}',
    '{"slot":0.0,"step":"advance"}',
    '{"slot":"0","step":"arrive"}',
    " " + padded(arrive(0)),
]

NOT_SERIAL, NONE = (line_of({"serial": it}) + "\n" for it in ("not_serial", "none"))

# Words, a text, what is printed, and the end.
SCRIPTS = [
    ([], TENANT + STEPS, ANSWERS, DONE),
    (["own"], TENANT + STEPS, ANSWERS, DONE),
    ([], TENANT + STEPS.rstrip(), ANSWERS, DONE),
    ([], "\n \t\r\n" + TENANT + "\n\n" + STEPS.rstrip() + "\n \n", ANSWERS, DONE),
    *((words, TENANT + STEPS, "", WORDS) for words in (["--help"], ["Own"], [""], ["own", "own"], ["\udcff"])),
    ([], "", "", CONFIG),
    *(([], line + STEPS, "", CONFIG) for line in NO_TENANTS),
    *(([], TENANT + line + "\n" + STEPS, BAD_STEP + "\n" + ANSWERS, DONE) for line in NO_STEPS),
    ([], TENANT + padded(arrive(0)) + "\n", NOTHING + "\n", DONE),
    ([], TENANT.replace("normal", "low") + ARENA + "\n", limits("low", 0, 1) + "\n", DONE),
    (["serial"], "", "", DONE),
    (["serial"], "\n \t\r\n", "", DONE),
    (["serial"], NESTING + "\n", '{"serial":7}\n', DONE),
    (["serial"], padded(NESTING) + "\n", '{"serial":7}\n', DONE),
    (["serial"], " " + padded(NESTING) + "\n", LINE_TOO_LONG + "\n", DONE),
    (["serial"], '{"args":[7,0]\n', BAD_JSON + "\n", DONE),
    (["serial"], "7\n", BAD_PROGRAM + "\n", DONE),
    (["serial"], line_of({**SEVEN, "fuel": 0}) + "\n", BAD_PROGRAM + "\n", DONE),
    (["serial"], line_of({**SEVEN, "procs": [[["slot", 0], ["jmp", 2]]]}) + "\n", BAD_PROGRAM + "\n", DONE),
    (["serial"], line_of({**SEVEN, "procs": [[["slot", 0], ["ret", 0]]]}), NOT_SERIAL, DONE),
    (["serial"], line_of({**SEVEN, "procs": [[["isolate", 2, 1, 0, 1], ["ret", 2]], [["ret", 0]]]}), '{"serial":7}\n', DONE),
]

#!/usr/bin/env python3
"""What it takes to answer a long script of one tenant, and to check its history: Fibonacci jobs on one reserved
slot, with a task for each smaller number, in histories of 150,000 and of 1,000,000 entries. `arena-script own`
answers the steps; what it answers, put beside the steps, is the dump that `arena-script check` is given, and it
must say `yes`. The program is the one that `make build` or `rt ci` built. Each is done three times, and the
fastest counts.

usage: benches/check/run.py [PROGRAM [ENTRIES..]]
"""
import json
import pathlib
import subprocess
import sys
import time

BUILT = pathlib.Path(__file__).resolve().parents[2] / "crates/script_program/out/script_program"
PROGRAM = pathlib.Path(sys.argv[1]) if len(sys.argv) > 1 else BUILT
ENTRIES = [int(word) for word in sys.argv[2:]] or [150_000, 1_000_000]
TENANT = {"name": "acme", "priority": "normal", "reserved": 1, "rows": 4096, "slots": 1, "steps": 1048576}
FIBONACCI = [[
    ["set", 2, 2], ["lt", 3, 0, 2], ["jz", 3, 4], ["ret", 0], ["set", 2, 1], ["sub", 3, 0, 2], ["spawn", 0, 0, 3, 1],
    ["sub", 3, 3, 2], ["spawn", 0, 0, 3, 1], ["wait", 4, 5, 0], ["ret", 4]]]
ADVANCE = '{"slot":0,"step":"advance"}'


def compact(value):
    return json.dumps(value, separators=(",", ":"))


def entries_of(number):
    """How many entries a job of the Nth number makes: its leaves take two steps each and the others five, its root
    is started by the request, which is an entry itself."""
    leaf, other = 1, 1
    for _ in range(number - 1):
        leaf, other = leaf + other, leaf
    return 7 * leaf - 5


def steps(entries):
    """Steps that make exactly that number of entries, the longest jobs first."""
    for number in range(23, 0, -1):
        while entries_of(number) <= entries:
            entries -= entries_of(number)
            job = {"args": [number, 0], "fuel": 1000000, "procs": FIBONACCI}
            yield compact({"request": {"job": job, "op": "execute"}, "step": "ask"})
            yield from [ADVANCE] * (entries_of(number) - 1)
    assert entries == 0


def entry(step, answer):
    """The line of a dump for a step and its answer, both of which end with a brace."""
    if step == ADVANCE:
        return answer[:-1] + ',"slot":0,"step":"advance"}'
    return '{"reply":' + answer + "," + step[1:]


def run(word, text):
    """What the program prints, and the least of the seconds that three runs take."""
    seconds = []
    for _ in range(3):
        begun = time.monotonic()
        done = subprocess.run([PROGRAM, word], input=text, capture_output=True, text=True, check=True)
        seconds.append(time.monotonic() - begun)
    return done.stdout, min(seconds)


def main():
    if not PROGRAM.exists():
        sys.exit("make build comes first")
    tenant = compact({"tenant": TENANT})
    for entries in ENTRIES:
        script = list(steps(entries))
        printed, own = run("own", "\n".join([tenant, *script, ""]))
        dump = [entry(*pair) for pair in zip(script, printed.splitlines())]
        assert len(dump) == entries
        verdict, check = run("check", "\n".join([tenant, *dump, ""]))
        assert verdict == "yes\n", verdict
        print(f"{entries} entries: own {own:.2f} s, check {check:.2f} s", flush=True)


main()

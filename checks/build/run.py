#!/usr/bin/env python3
"""Proves the crates that arena-compile, arena-script, arena-server and arena-host stand on, from the lowest up, and builds
these into out/.

usage: checks/build/run.py, at the top of the repository. It prints a line before and after each crate,
with the minutes since the start; a crate that has not changed since its last proof takes seconds. A program that `rt ci` or
`rt run` proved and built, and of which no file has changed since, is taken as it is.
"""
import os
import pathlib
import shutil
import subprocess
import sys
import time

from crates import below, read_crates
from kit import functions_in, is_proved

PROGRAMS = {"compile_program": "arena-compile", "script_program": "arena-script", "server_program": "arena-server",
            "host_program": "arena-host"}
START = time.monotonic()


def say(text: str) -> None:
    """Prints a line with the minutes since the start."""
    print(f"{(time.monotonic() - START) / 60:5.1f} min  {text}", flush=True)


def prove(name: str, command: list[str]) -> None:
    """Proves a crate by a command of `rt`, and ends the script if that fails. A program is also run, on no input; what
    it then says does not matter."""
    say(f"{name} ..")
    with open(f"out/{name}.log", "w+") as log:
        status = subprocess.run(command, cwd=f"crates/{name}", stdin=subprocess.DEVNULL, stdout=log, stderr=log).returncode
        log.seek(0)
        text = log.read()
    if not is_proved(text, status, name in PROGRAMS):
        sys.exit(f"{''.join(text.splitlines(True)[-40:])}{name} is not proved (out/{name}.log)")
    functions = functions_in(text)
    say(f"{name} proved{f', {functions} functions' if functions else ''}")


def is_built(crates: dict[str, list[str]], name: str) -> bool:
    """Whether a program was proved and built after the last change of what it is made of."""
    made = pathlib.Path("crates", name, "out", name)
    parts = (pathlib.Path("crates", crate, part) for crate in (*below(crates, name), name) for part in ("src", "specs", "proofs"))
    files = [file for part in parts for file in part.rglob("*") if file.is_file()]
    return made.exists() and all(file.stat().st_mtime <= made.stat().st_mtime for file in files)


def main() -> None:
    """Proves all, and leaves the programs in out/."""
    os.makedirs("out", exist_ok=True)
    crates = read_crates()
    missing = [program for program in PROGRAMS if not is_built(crates, program)]
    order = list(dict.fromkeys(name for program in missing for name in [*below(crates, program), program]))
    if order:
        say(f"proving {len(order)} crates; from scratch this takes a quarter of an hour or more")
    for name in order:
        prove(name, ["rt", "run" if name in PROGRAMS else "lib"])
    for name, program in PROGRAMS.items():
        shutil.copy(f"crates/{name}/out/{name}", f"out/{program}")
        say(f"out/{program} is built")


main()

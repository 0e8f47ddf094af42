"""The programs of the house that the command calls: arena-script, which checks dumps, and arena-host."""
import os
import shutil
import subprocess

from arena.command.call import Call
from arena.command.words import Completes, option

SCRIPT = option("--script", "--program", metavar="PATH", completes=Completes.FILE, help="the program arena-script; "
                "else ARENA_SCRIPT, else the one on the PATH, else out/arena-script")


class ProgramFault(Exception):
    """One of the programs is not there, or failed."""


def script_of(call: Call) -> str:
    """The program arena-script: --script, ARENA_SCRIPT, one on the PATH, or out/arena-script. Raises ProgramFault."""
    return program_named("arena-script", "--script", call.words.script, "ARENA_SCRIPT")


def program_named(name: str, option: str, said: str | None, variable: str) -> str:
    """A program of the house: the one that the option says, else the variable of the environment, else the one on the PATH, else
    the one in out. Raises ProgramFault."""
    made = f"out/{name}"
    found = said or os.environ.get(variable) or shutil.which(name) or (os.path.abspath(made) if os.path.exists(made) else None)
    if not found:
        raise ProgramFault(f"no {name} on the PATH; name it by {option} or {variable} (`make build` proves and makes {made}, "
                           f"which takes long; `checks/build/unproved.py {name}` makes out/unproved/{name}, which is not "
                           "proved, within a minute or two)")
    return found


def verdict_of(script: str, path: str) -> str:
    """What `arena-script check` says of a dump: `yes`, `no at step k` or `bad line n`. Raises OSError if the dump can't
    be read, and ProgramFault."""
    with open(path, "rb") as dump:
        try:
            done = subprocess.run([script, "check"], stdin=dump, capture_output=True, text=True)
        except OSError as fault:
            raise ProgramFault(f"{script}: {fault.strerror}") from None
    verdict = done.stdout.strip()
    if done.returncode not in (0, 2) or not verdict:
        raise ProgramFault(f"{script} check: {done.stderr.strip() or f'status {done.returncode}'}")
    return verdict

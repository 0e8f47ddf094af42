"""The proved compiler, arena-compile, where it is there: the program that ARENA_COMPILE names, or the one on the PATH."""
import os
import shutil
import subprocess
from collections.abc import Iterable, Sequence
from dataclasses import dataclass


@dataclass(frozen=True)
class Proved:
    """What arena-compile said of a source: the line of its job or the listing, or why there is none."""

    program: str
    text: str | None
    fault: str

    def told(self, path: str) -> str:
        """Which compiler made the job of a file, in words."""
        if self.text is not None:
            return f"{path}: compiled by {self.program}"
        return f"{path}: compiled in Python, since {self.program} says {self.fault}"


def proved(text: str, args: Sequence[int], parameters: Iterable[tuple[str, int]] = (), lists: bool = False) -> Proved | None:
    """What the proved compiler makes of a source whose params are given these numbers, its job or, if asked for, the listing of
    that; None if it is not there."""
    program = os.environ.get("ARENA_COMPILE") or shutil.which("arena-compile")
    if not program:
        return None
    words = ["--listing"] if lists else []
    words += [word for name, number in parameters for word in ("-D", f"{name}={number}")]
    try:
        done = subprocess.run([program, *words, *map(str, args)], input=text.encode(), capture_output=True)
    except OSError as fault:
        return Proved(program, None, str(fault.strerror))
    said = done.stderr.decode(errors="replace").strip() or f"status {done.returncode}"
    return Proved(program, done.stdout.decode().strip(), "") if done.returncode == 0 else Proved(program, None, said)

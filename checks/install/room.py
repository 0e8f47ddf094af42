"""What the checks of installations share: the programs that are there, a folder to work in, and commands."""
import os
import pathlib
import shutil
import subprocess
import sys
from collections.abc import Callable
from dataclasses import dataclass

TOP = pathlib.Path(__file__).resolve().parents[2]
sys.path[:0] = [str(TOP / "packaging"), str(TOP / "checks/build")]
sys.dont_write_bytecode = True

from layout import PROGRAMS
from unproved import CRATES

# How long, in seconds, a command may take that is to end by itself.
PATIENCE = 300
# Variables of the Makefile and of packing, which a caller may have set for another purpose.
OUR_WORDS = ("DESTDIR", "PREFIX", "SYSCONFDIR", "PYTHON", "PROGRAMS", "SOURCE_DATE_EPOCH", "MFLAGS", "PYTHONDONTWRITEBYTECODE")


class Skipped(Exception):
    """Something that a check needs is not there."""


def found(name: str) -> pathlib.Path | None:
    """A program as the gate built it, or `make build`, or `checks/build/unproved.py`."""
    crate = CRATES.get(name)
    places = [TOP / f"crates/{crate}/out/{crate}"] if crate else []
    return next((it for it in (*places, TOP / "out" / name, TOP / "out/unproved" / name) if it.is_file()), None)


@dataclass
class Room:
    """A folder for one check, and the folder with all programs that are built."""

    folder: pathlib.Path
    programs: pathlib.Path

    def at(self, name: str) -> pathlib.Path:
        """A path in the room."""
        return self.folder / name

    def make(self, target: str, status: int = 0, **values: object) -> str:
        """Runs a target of the Makefile, which must end with a status. Returns what it printed."""
        given = {"PROGRAMS": self.programs, **values}
        return run("make", "--no-print-directory", target, *(f"{name}={it}" for name, it in given.items()), status=status)


def stage(folder: pathlib.Path) -> pathlib.Path:
    """Makes a folder with the programs that are built, under the names by which they are installed."""
    folder.mkdir()
    for name in PROGRAMS:
        path = found(name)
        if path:
            shutil.copy(path, folder / name)
    return folder


def run(*words: object, status: int = 0, cwd: pathlib.Path = TOP, **environment: str) -> str:
    """Runs a command, which must end with a status. Returns all that it printed."""
    done = subprocess.run([str(it) for it in words], cwd=cwd, stdin=subprocess.DEVNULL, stdout=subprocess.PIPE,
                          stderr=subprocess.STDOUT, text=True, timeout=PATIENCE, env={**clean(), **environment})
    if done.returncode != status:
        raise AssertionError(f"{' '.join(map(str, words))}: status {done.returncode}, not {status}\n{done.stdout}")
    return done.stdout


def clean() -> dict[str, str]:
    """The environment without what changes where things go, how old they are or which server is asked."""
    return {name: it for name, it in os.environ.items()
            if not name.startswith(("ARENA_", "MAKE")) and name not in OUR_WORDS}


def need(tool: str) -> None:
    """Skips the check if a command is not installed."""
    if not shutil.which(tool):
        raise Skipped(f"{tool} is not installed")


def need_built(room: Room, *names: str) -> None:
    """Skips the check if a program is not built."""
    for name in names:
        if not (room.programs / name).exists():
            raise Skipped(f"{name} is not built")


Check = Callable[[Room], None]

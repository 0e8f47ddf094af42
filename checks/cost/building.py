"""The programs whose instructions are counted, where `rt ci` or `rt run` leaves them."""
import pathlib
import subprocess
import sys
from collections.abc import Iterable

from callgrind import Failed

sys.path.append(str(pathlib.Path(__file__).resolve().parents[1] / "build"))

from kit import is_proved


def program(top: pathlib.Path, crate: str) -> pathlib.Path:
    """Where the program of a crate is, in a checkout."""
    return (top / "crates" / crate / "out" / crate).resolve()


def unbuilt(top: pathlib.Path, crates: Iterable[str]) -> list[str]:
    """The crates whose programs are missing, or older than a source."""
    newest = max(it.stat().st_mtime for it in top.glob("crates/*/src/**/*.rt"))
    programs = {crate: program(top, crate) for crate in crates}
    return [crate for crate, path in programs.items() if not path.exists() or path.stat().st_mtime < newest]


def build(top: pathlib.Path, crates: Iterable[str]) -> None:
    """Proves and builds the programs that are missing or older than a source; `rt run` also runs each on its few lines."""
    for crate in unbuilt(top, crates):
        print(f"proving and building {crate}: minutes, or seconds if nothing has changed", file=sys.stderr)
        folder = top / "crates" / crate
        few = (folder / "stdin").read_text() if (folder / "stdin").exists() else ""
        how = {"cwd": folder, "input": few, "stdout": subprocess.PIPE, "stderr": subprocess.STDOUT, "text": True}
        run = subprocess.run(["rt", "run"], **how)
        if not is_proved(run.stdout, run.returncode, True) or not program(top, crate).exists():
            raise Failed(f"{run.stdout[-4000:]}{crate} is not built")


def found(top: pathlib.Path, crates: Iterable[str]) -> None:
    """Fails unless a checkout has all the programs, however old they are."""
    lacking = [crate for crate in crates if not program(top, crate).exists()]
    if lacking:
        raise Failed(f"not built in {top}: {', '.join(lacking)}")

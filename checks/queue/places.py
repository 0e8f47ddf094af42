"""Where things are: the package that is tried, and the host as it was built."""
import os
import pathlib
import subprocess
import sys

TOP = pathlib.Path(__file__).resolve().parents[2]
PACKAGE = os.environ.get("ARENA_PYTHON", str(TOP / "python"))
"""The package; the check that plants a fault has a copy of it elsewhere."""
sys.path[:0] = [PACKAGE, str(TOP / "python")]

PROGRAMS = ("crates/host_program/out/host_program", "out/arena-host", "out/unproved/arena-host")
"""Where a built host may be: the proved one, or one that was built without proofs."""


INTERPRETERS = (sys.executable, "/usr/bin/python3")
"""The one that runs the checks, and the one for which Debian installs its packages."""


def python_with(*modules: str) -> str | None:
    """An interpreter that has some modules, if there is one."""
    words = ["-c", f"import {', '.join(modules)}"]
    return next((it for it in INTERPRETERS if os.path.exists(it) and not subprocess.run([it, *words], capture_output=True).returncode),
                None)


def host_program() -> pathlib.Path | None:
    """The host as it was built, if it is."""
    return next((TOP / it for it in PROGRAMS if (TOP / it).exists()), None)

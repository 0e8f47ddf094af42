"""Counts the instructions that a program executes, by callgrind. Such a count does not depend on how fast or how busy the
machine is."""
import os
import pathlib
import shutil
import subprocess
import tempfile
from collections.abc import Iterator
from contextlib import contextmanager
from dataclasses import dataclass
from fnmatch import fnmatchcase


# How long a run may take at most under callgrind, in seconds.
PATIENCE = 300


class Failed(Exception):
    """A run that could not be counted, and why."""


@dataclass(frozen=True)
class Run:
    """A run of a program: the words after its name, what it reads, and the functions to which the count is restricted, with
    all that they call (none: the whole run). None of these calls another one; * stands for any part of a name."""
    program: pathlib.Path
    words: tuple[str, ...] = ()
    stdin: str = ""
    within: tuple[str, ...] = ()


@dataclass(frozen=True)
class Count:
    """How many instructions a run took, on all of its threads, what it printed, and how often the last function to which
    the count is restricted was called (0 if it is not restricted)."""
    instructions: int
    printed: str
    calls: int = 0

    @property
    def a_call(self) -> float:
        """The instructions for each such call."""
        if self.calls == 0:
            raise Failed("a function to which a count is restricted was never called")
        return self.instructions / self.calls


def has_avx2() -> bool:
    """Whether the processor has AVX2; the C library has other ways to copy memory without it, of other counts."""
    with open("/proc/cpuinfo") as it:
        return any("avx2" in line.split() for line in it if line.startswith("flags"))


def version() -> str | None:
    """What valgrind calls itself; None if it is not installed, or its counts would not be those that are kept."""
    if shutil.which("valgrind") is None or not has_avx2():
        return None
    return subprocess.run(["valgrind", "--version"], check=True, capture_output=True, text=True).stdout.strip()


def command(run: Run, out: pathlib.Path) -> list[str]:
    """The words that run the program under callgrind, which writes its counts to a file as the program ends."""
    restricted = [f"--toggle-collect={name}" for name in run.within]
    tool = ["valgrind", "-q", "--tool=callgrind", f"--callgrind-out-file={out}", "--compress-strings=no", *restricted]
    return [*tool, str(run.program), *run.words]


def environment() -> dict[str, str]:
    """The variables that a counted program has: few, so that they are the same everywhere. The C library sets and copies
    memory without `rep`, of which callgrind counts each byte as an instruction, and which not every processor is given."""
    own = {name: os.environ[name] for name in ("PATH", "TMPDIR") if name in os.environ}
    return {**own, "GLIBC_TUNABLES": "glibc.cpu.hwcaps=-ERMS,-FSRM"}


@contextmanager
def counts_file() -> Iterator[pathlib.Path]:
    """A place for callgrind's counts, until they were read."""
    with tempfile.TemporaryDirectory() as folder:
        yield pathlib.Path(folder) / "counts"


def count_in(out: pathlib.Path, run: Run, printed: str) -> Count:
    """What callgrind wrote of a run."""
    lines = out.read_text().splitlines() if out.exists() else []
    sums = [int(line.split()[1]) for line in lines if line.startswith(("summary:", "totals:"))]
    if not sums or sums[0] == 0:
        raise Failed(f"callgrind counted nothing of {run.program.name} {' '.join([*run.words, *run.within])}")
    # The line after that of a called function says how often one caller called it.
    calls = [int(after.split()[0].removeprefix("calls=")) for line, after in zip(lines, lines[1:])
             if run.within and fnmatchcase(line, f"cfn={run.within[-1]}")]
    return Count(sums[0], printed, sum(calls))


def count(run: Run) -> Count:
    """Runs a program to its end, which must be a success, and counts its instructions."""
    with counts_file() as out:
        how = {"input": run.stdin, "capture_output": True, "text": True, "env": environment(), "timeout": PATIENCE}
        try:
            done = subprocess.run(command(run, out), **how)
        except subprocess.TimeoutExpired:
            raise Failed(f"{run.program} {' '.join(run.words)}: not over after {PATIENCE} seconds") from None
        if done.returncode:
            raise Failed(f"{run.program} {' '.join(run.words)}: status {done.returncode}\n{done.stderr[-2000:]}")
        return count_in(out, run, done.stdout)

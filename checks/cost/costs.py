"""Counts the fixed runs and judges the counts by the numbers that are kept."""
import datetime
import os
import pathlib
import re
import subprocess
from collections.abc import Sequence
from concurrent.futures import ThreadPoolExecutor
from dataclasses import dataclass

from building import program
from fixed import FIXED, Fixed
from kept import Kept, Verdict, verdict, write

SKIPPED = "cost: skipped, valgrind is not installed, or the processor lacks AVX2, by which the numbers are kept"


@dataclass(frozen=True)
class Cost:
    """What a unit of a fixed run takes now, what is kept of it, and what follows."""
    fixed: Fixed
    kept: float | None
    now: float
    verdict: Verdict

    def line(self) -> str:
        change = f"{100 * (self.now / self.kept - 1):+.1f} %" if self.kept else ""
        before = f"{self.kept:,.1f}" if self.kept else "none"
        return f"{self.fixed.name:18} {self.now:10,.1f} {before:>10} {change:>8}  {self.verdict.value}"


def counted(top: pathlib.Path, kept: Kept, fixed: Sequence[Fixed] = FIXED) -> list[Cost]:
    """Counts all fixed runs, two at a time: counts do not depend on what else the machine does."""
    def cost(it: Fixed) -> Cost:
        now, before = round(it.measure(program(top, it.crate)), 2), kept.instructions.get(it.name)
        return Cost(it, before, now, verdict(before, now, it.bound))
    with ThreadPoolExecutor(min(2, os.cpu_count() or 1)) as pool:
        return list(pool.map(cost, fixed))


def compared(top: pathlib.Path, kept: Kept, valgrind: str, fixed: Sequence[Fixed]) -> list[Cost]:
    """Prints each count beside its kept number."""
    print(f"kept: {kept.commit}, {kept.date}, {kept.valgrind}, {kept.processor}; now: {valgrind}, {processor()}")
    print(f"{'instructions':18} {'now':>10} {'kept':>10}", flush=True)
    costs = counted(top, kept, fixed)
    print(*(cost.line() for cost in costs), sep="\n")
    return costs


def judged(top: pathlib.Path, kept: Kept, valgrind: str | None, fixed: Sequence[Fixed] = FIXED) -> int:
    """Compares, and returns the status: 0 if no count is refused, or if there is no valgrind."""
    if valgrind is None:
        print(SKIPPED)
        return 0
    costs = compared(top, kept, valgrind, fixed)
    refused = sum(cost.verdict.is_refused for cost in costs)
    print(f"{len(costs)} fixed runs counted: {refused} refused")
    return int(refused > 0)


def renewed(top: pathlib.Path, kept: Kept, valgrind: str | None) -> int:
    """Compares, keeps the new numbers with the commit from which the programs were built, and returns the status."""
    if valgrind is None:
        print(f"{SKIPPED}; nothing is kept")
        return 1
    costs = compared(top, kept, valgrind, FIXED)
    numbers = {cost.fixed.name: cost.now for cost in costs}
    write(Kept(commit_of(top), datetime.date.today().isoformat(), valgrind, processor(), numbers))
    print(f"{len(costs)} numbers are kept")
    return 0


def commit_of(top: pathlib.Path) -> str:
    """The commit that is checked out in a folder."""
    head = ["git", "-C", str(top), "rev-parse", "--short", "HEAD"]
    return subprocess.run(head, check=True, capture_output=True, text=True).stdout.strip()


def processor() -> str:
    """The name of the machine's processor; callgrind shows a program what that processor can do."""
    with open("/proc/cpuinfo") as it:
        found = re.search(r"^model name\s*:\s*(.*)$", it.read(), re.M)
    return found[1] if found else "unknown"

#!/usr/bin/env python3
"""Runs `rt ci`, passes its lines on as they come, each with the minutes since the start, and prints at the end how
many processor minutes each crate took, for its proofs, for its tests, and for its must-fail edits, the dearest crate
last, and then once more each line that tells of a fault. The end stays in out/gate.md.

Each check gets one processor (RT_JOBS): on three, a check took an eighth more processor time.

usage: checks/gate/run.py, at the top of the repository. It exits as `rt ci` does.
"""
import os
import re
import subprocess
import sys
import threading
import time
from collections.abc import Iterator

TICKS = os.sysconf("SC_CLK_TCK")


def is_below(process: str, above: str) -> bool:
    """Whether a process was started by another one, or by one that it started."""
    while process not in ("0", above):
        with open(f"/proc/{process}/stat") as it:
            process = it.read().rpartition(")")[2].split()[1]
    return process == above


def checks_now(above: str) -> Iterator[tuple[str, str, str, float]]:
    """Yields (process, crate, kind, processor seconds) for each running check of a crate below a process."""
    for name in os.listdir("/proc"):
        if not name.isdigit():
            continue
        try:
            with open(f"/proc/{name}/cmdline", "rb") as it:
                words = it.read().decode(errors="replace").split("\0")
            if os.path.basename(words[0]) != "rattle" or "--crate-name" not in words:
                continue
            with open(f"/proc/{name}/stat") as it:
                fields = it.read().rpartition(")")[2].split()
            folder = os.readlink(f"/proc/{name}/cwd")
            if not is_below(name, above):
                continue
        except (OSError, IndexError):
            continue
        if "/rt-edit-" in folder:
            kind = "edits"
        else:
            kind = "tests" if "--test" in words else "proofs"
        crate = words[words.index("--crate-name") + 1]
        yield name, crate, kind, (int(fields[11]) + int(fields[12])) / TICKS


def watch(above: str, spent: dict[tuple[str, str, str], float], is_over: threading.Event) -> None:
    """Keeps in `spent` what each check below a process has used of the processors, until the run is over."""
    while not is_over.is_set():
        for process, crate, kind, seconds in checks_now(above):
            spent[process, crate, kind] = seconds
        is_over.wait(0.5)


def table(spent: dict[tuple[str, str, str], float]) -> Iterator[str]:
    """Returns the lines of the table, the dearest crate last."""
    kinds = ("proofs", "tests", "edits")
    sums = {}
    for (_, crate, kind), seconds in spent.items():
        row = sums.setdefault(crate, dict.fromkeys(kinds, 0))
        row[kind] += seconds / 60
    rows = sorted(sums.items(), key=lambda it: sum(it[1].values()))
    total = {kind: sum(row[kind] for _, row in rows) for kind in kinds}
    yield "| Crate | Proofs | Tests | Edits | Processor minutes |"
    yield "|---|---|---|---|---|"
    for crate, row in [*rows, ("all", total)]:
        parts = " | ".join(f"{row[kind]:.1f}" for kind in kinds)
        yield f"| {crate} | {parts} | {sum(row.values()):.1f} |"


def main() -> int:
    """Runs `rt ci`, and returns its status."""
    start, spent, is_over = time.monotonic(), {}, threading.Event()
    processors = len(os.sched_getaffinity(0))
    room = {"RT_JOBS": str(processors), **os.environ}
    last, faults = "", []
    pipes = {"stdout": subprocess.PIPE, "stderr": subprocess.STDOUT, "text": True, "errors": "replace"}
    with subprocess.Popen(["rt", "ci"], env=room, **pipes) as run:
        watcher = threading.Thread(target=watch, args=(str(run.pid), spent, is_over))
        watcher.start()
        for line in run.stdout:
            last = line.rstrip("\n")
            # what a check says of each library and function it reads is left out
            if re.match(r"(rt: |== |\d+ passed|error|note: .*may be false|fn .*no proof)", last):
                print(f"{(time.monotonic() - start) / 60:6.1f}  {last}", flush=True)
            if re.match(r"rt: .*(FAILED|NOT PROVED|NOT REFUSED|NOT TRIED|BAD EDIT)", last):
                faults.append(last)
    is_over.set()
    watcher.join()
    minutes = f"{(time.monotonic() - start) / 60:.1f} minutes on {processors} processors"
    said = "\n".join([*table(spent), "", *faults, minutes, last])
    print(f"\n{said}")
    os.makedirs("out", exist_ok=True)
    with open("out/gate.md", "w") as kept:
        print(said, file=kept)
    return run.returncode


sys.exit(main())

#!/usr/bin/env python3
"""Prints how many bytes a row takes in all tables of an arena: what valgrind's massif finds on the heap of `arena-script
own` with a tenant of 4,096 rows, less that with one of 96, divided by the 4,000 rows between them. It is the same in each
run.

usage: benches/arena/memory.py [PROGRAM]. The program is the one that `make build` or `rt ci` built.
"""
import json
import pathlib
import subprocess
import sys
import tempfile

BUILT = pathlib.Path(__file__).resolve().parents[2] / "crates/script_program/out/script_program"
MOST, FEW = 4_096, 96


def heap(program: pathlib.Path, rows: int) -> int:
    """The most bytes that are on the heap at once while the program makes an arena of so many rows."""
    tenant = {"name": "acme", "priority": "normal", "reserved": 1, "rows": rows, "slots": 2, "steps": 1_048_576}
    with tempfile.TemporaryDirectory() as folder:
        out = pathlib.Path(folder) / "heap"
        words = ["valgrind", "-q", "--tool=massif", f"--massif-out-file={out}", str(program), "own"]
        subprocess.run(words, input=json.dumps({"tenant": tenant}) + "\n", text=True, check=True, capture_output=True)
        lines = out.read_text().splitlines()
    return max(int(line.split("=")[1]) for line in lines if line.startswith("mem_heap_B="))


def bytes_a_row(program: pathlib.Path) -> float:
    return (heap(program, MOST) - heap(program, FEW)) / (MOST - FEW)


if __name__ == "__main__":
    print(f"{bytes_a_row(pathlib.Path(sys.argv[1]) if len(sys.argv) > 1 else BUILT):.1f} bytes a row")

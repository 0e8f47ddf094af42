#!/usr/bin/env python3
"""Submits jobs that square numbers, 20 at a time, until they are refused, and prints the number of each that was acknowledged.

usage: filler.py QUEUE [BYTES], where files may have so many bytes
"""
import resource
import sqlite3
import sys

import places  # noqa: F401  (the package's path)

from arena.queue import NewJob, Program, Store

SQUARE = Program.of([[["mul", 2, 0, 0], ["ret", 2]]])
BATCH, MOST = 20, 100_000


def main(queue: str, limit: str = "") -> None:
    """Submits."""
    if limit:
        resource.setrlimit(resource.RLIMIT_FSIZE, (int(limit), int(limit)))
    with Store(queue) as it:
        for first in range(0, MOST, BATCH):
            try:
                made = it.submit([NewJob("acme", SQUARE, (n % 1000, 0), 100, f"k{n}") for n in range(first, first + BATCH)])
            except sqlite3.OperationalError as fault:
                print(fault, file=sys.stderr)
                return
            print(*(one.job for one in made), flush=True)


if __name__ == "__main__":
    main(*sys.argv[1:])

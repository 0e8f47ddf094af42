#!/usr/bin/env python3
"""Runs a command, and adds a line to a file: how many nanoseconds it took, of the clock or of the processor, all threads
together.

usage: benches/timed.py clock|processor FILE COMMAND..
"""
import os
import subprocess
import sys
import time


def nanoseconds(kind: str, command: list[str]) -> int:
    begun = time.monotonic_ns()
    process = subprocess.Popen(command)
    _, status, used = os.wait4(process.pid, 0)
    took = time.monotonic_ns() - begun
    process.returncode = os.waitstatus_to_exitcode(status)
    if process.returncode:
        sys.exit(process.returncode)
    return took if kind == "clock" else round(1e9 * (used.ru_utime + used.ru_stime))


if __name__ == "__main__":
    spent = nanoseconds(sys.argv[1], sys.argv[3:])
    with open(sys.argv[2], "a") as it:
        print(spent, file=it)

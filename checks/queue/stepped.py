#!/usr/bin/env python3
"""Runs the command `arena` by a clock that is set now and then: by as many seconds as the file CLOCK says, if it is there. The clocks
that nobody sets go on.

usage: stepped.py CLOCK WORD..
"""
import os
import sys
import time


def follow(path: str) -> None:
    """Has the clock be as many seconds ahead as a file says."""
    real = time.time_ns

    def stepped() -> int:
        """The time by the clock that is set."""
        try:
            with open(path) as it:
                return real() + int(it.read() or 0) * 10**9
        except FileNotFoundError:
            return real()
    time.time_ns = stepped
    time.time = lambda: stepped() / 1e9


def set_clock(path: str, seconds: int) -> None:
    """Sets the clock of those who follow it."""
    with open(f"{path}.new", "w") as it:
        it.write(str(seconds))
    os.replace(f"{path}.new", path)


if __name__ == "__main__":
    follow(sys.argv[1])
    import places  # noqa: F401  (the package's path)

    from arena.command import main
    sys.exit(main(sys.argv[2:]))

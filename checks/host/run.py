#!/usr/bin/env python3
"""Runs arena-host as it was built, with clients over its socket, through rotations, stops and kills, and compares what
clients get, what the host prints and shows, and what it leaves.

usage: checks/host/run.py [CHECK..], at the top of the repository, after `rt ci`
"""
import sys
import time

import clients
import crowds
import durable
import ends
import forgetting
import limits
import losses
import reports
import rotations
import sharing
import spelling
import starts
import together

MODULES = (starts, clients, sharing, rotations, losses, reports, forgetting, durable, spelling, together, limits, crowds, ends)
CHECKS = [check for module in MODULES for check in module.CHECKS]


def main() -> None:
    """Runs all checks, or those that are named. The first that finds a fault ends the run."""
    named = {check.__name__: check for check in CHECKS}
    wanted = sys.argv[1:] or list(named)
    if unknown := [name for name in wanted if name not in named]:
        sys.exit(f"no check is called {', '.join(unknown)}")
    for name in wanted:
        began = time.monotonic()
        named[name]()
        print(f"{name}: {time.monotonic() - began:.1f} s", flush=True)
    print(f"{len(wanted)} checks of the host passed")


main()

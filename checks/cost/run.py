#!/usr/bin/env python3
"""Counts the instructions of a few fixed runs (fixed.py) by callgrind, and compares each with the number that kept.json
has of it. A count that is more than 3 % greater is refused; one that is more than 3 % smaller is told, so that somebody
keeps it. Where valgrind is not installed it says that it was skipped. The comparison itself is checked first (planted.py).

usage: checks/cost/run.py [--keep] [--built FOLDER]. The programs are those that `rt ci` left in crates/*/out of this
repository, proved and built again if a source is newer, or those that stand in the checkout in FOLDER. --keep writes the
new numbers, with the commit of that checkout. It exits with 1 if a count is refused or a run can't be counted.
"""
import argparse
import pathlib
import sys

import building
import callgrind
import costs
import fixed
import kept
import planted

TOP = pathlib.Path(__file__).resolve().parents[2]


def read_words() -> argparse.Namespace:
    words = argparse.ArgumentParser(description="counts instructions of fixed runs, and compares them with kept.json")
    words.add_argument("--keep", action="store_true", help="write the new numbers to kept.json")
    words.add_argument("--built", metavar="FOLDER", type=pathlib.Path, default=TOP, help="a checkout whose programs are built")
    return words.parse_args()


def main() -> int:
    words, valgrind = read_words(), callgrind.version()
    faults = list(planted.faults())
    if faults:
        print(*faults, sep="\n")
        return 1
    crates = {it.crate: None for it in fixed.FIXED}
    try:
        if valgrind:
            (building.build if words.built == TOP else building.found)(words.built, crates)
        return (costs.renewed if words.keep else costs.judged)(words.built, kept.read(), valgrind)
    except callgrind.Failed as why:
        print(f"cost: {why}")
        return 1


if __name__ == "__main__":
    sys.exit(main())

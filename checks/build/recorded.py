#!/usr/bin/env python3
"""Compares what `make build` takes from the kit's output with what that output, as recorded, is known to mean.

usage: checks/build/recorded.py. It exits with a status other than 0 if something differs.
"""
import pathlib
import sys

from kit import functions_in, is_proved

RECORDED = pathlib.Path(__file__).parent / "recorded"
# The ends of outputs of `rt run` of a small program with no input, recorded with kit 13f: the status, whether the program
# is proved, and how many functions the kit speaks of. The program's own status counts for nothing, so it is another one in
# the second.
RUNS = {"first": (0, True, 7), "unchanged": (2, True, None), "refused": (1, False, None)}


def main() -> None:
    """Compares, and says what is read otherwise."""
    wrong = []
    for name, (status, proved, functions) in RUNS.items():
        text = (RECORDED / name).read_text()
        if (is_proved(text, status, True), functions_in(text)) != (proved, functions):
            wrong.append(name)
    print(f"{len(RUNS)} recorded outputs: {len(wrong)} read otherwise", *wrong)
    sys.exit(bool(wrong))


main()

#!/usr/bin/env python3
"""Measures everything that the folders here measure, beside its twin, and writes the one table into benches/README.md.
Times are shares of what the other took in the same run; instructions are those of callgrind, where valgrind is installed.
A benchmark whose tools are missing is told as skipped.

usage: benches/bench.py [--long] [--built FOLDER] [NAME..]. Runs are short, minutes in all; --long makes those of each
folder's page. The programs are those of this repository, which are proved and built first if a source is newer, or those
that stand in the checkout in FOLDER. With NAMEs only these folders are measured, and nothing is written.
"""
import argparse
import datetime
import os
import pathlib
import subprocess
import sys
import tempfile
import time
from dataclasses import dataclass

from pairs import BENCHES, Bench, Counted, Pair, Table
from programs import HERE, Programs, building

import callgrind
import costs

TOP = HERE.parent
PAGE = HERE / "README.md"
BEGIN, END = "<!-- The table of `make bench` begins. -->\n", "<!-- The table of `make bench` ends. -->\n"
HEAD = """| Benchmark | What | Beside | Time, to the other's | Instructions | The other's | Instructions, to the other's |
|---|---|---|---|---|---|---|
"""


@dataclass(frozen=True)
class Row:
    """A pair as it was measured; None is what was not."""
    bench: str
    pair: Pair
    time: float | None
    ours: float | None
    theirs: float | None

    def line(self) -> str:
        ratio = self.ours / self.theirs if self.ours is not None and self.theirs else None
        counts = [number(self.ours), number(self.theirs), share(ratio)]
        return f"| {' | '.join([self.bench, self.pair.what, self.pair.beside, share(self.time), *counts])} |"


def share(it: float | None) -> str:
    return "" if it is None else f"{it:.2f}"


def number(it: float | None) -> str:
    digits = 2 if it is not None and it < 100 else 1 if it is not None and it < 10_000 else 0
    return "" if it is None else f"{it:,.{digits}f}"


def read_words() -> argparse.Namespace:
    words = argparse.ArgumentParser(description="measures what benches/ has, and writes the table of benches/README.md")
    words.add_argument("--long", action="store_true", help="runs as long as those of each folder's page")
    words.add_argument("--built", metavar="FOLDER", type=pathlib.Path, default=TOP, help="a checkout whose programs are built")
    words.add_argument("names", metavar="NAME", nargs="*", help="only these folders, and nothing is written")
    return words.parse_args()


def times(bench: Bench, programs: Programs, long: bool) -> Table:
    """Runs the script of a folder, and returns the numbers that it printed."""
    words = [str(programs.built(word[1:])) if word.startswith("@") else word
             for word in (*bench.command, *(bench.long if long else bench.short))]
    repeats = {} if long else {"TIMES": str(bench.repeats)}
    room = {**os.environ, **repeats, "BENCHMARKS": str(programs.built("benchmarks"))}
    done = subprocess.run(words, cwd=HERE, env=room, stdout=subprocess.PIPE, text=True)
    if done.returncode:
        sys.exit(f"benches/{bench.name}: {' '.join(words)} ended with status {done.returncode}")
    return bench.table(done.stdout)


def rows(bench: Bench, programs: Programs, long: bool, counts: bool) -> list[Row]:
    """All pairs of a folder, measured."""
    table = times(bench, programs, long)

    def counted(measure: Counted | None) -> float | None:
        return measure(programs) if measure and counts else None
    return [Row(bench.name, it, time_of(bench, it, table), counted(it.ours), counted(it.theirs)) for it in bench.pairs]


def time_of(bench: Bench, pair: Pair, table: Table) -> float | None:
    """The ratio of a pair's times; None, and a line on standard error, if the script printed no number of it."""
    try:
        return pair.time(table) if pair.time else None
    except (LookupError, ZeroDivisionError):
        print(f"{bench.name}: no time of {pair.what}", file=sys.stderr)
        return None


def lines(words: argparse.Namespace, counts: bool) -> list[str]:
    """The lines of the table."""
    said = []
    with tempfile.TemporaryDirectory() as room:
        programs = Programs(words.built, pathlib.Path(room))
        for bench in BENCHES:
            if words.names and bench.name not in words.names:
                continue
            begun, lacking = time.monotonic(), programs.missing(bench.tools, bench.crates)
            if lacking:
                said.append(f"| {bench.name} | skipped: {', '.join(lacking)} | | | | | |")
            else:
                said += [row.line() for row in rows(bench, programs, words.long, counts)]
            print(f"{bench.name}: {time.monotonic() - begun:.0f} s", file=sys.stderr)
    return said


def heading(words: argparse.Namespace, load: float) -> str:
    """The line above the table: what was measured, when, and where."""
    dirty = subprocess.run(["git", "-C", str(words.built), "diff", "--quiet", "HEAD", "--", "crates"]).returncode
    commit = costs.commit_of(words.built) + (" with changes" if dirty else "")
    runs = "long runs" if words.long else "short runs"
    processors = os.cpu_count() or 1
    busy = ": busy, so times say little, those of the clock least" if load > processors / 2 else ""
    where = f"{costs.processor()}, {processors} processors, a load of {load:.1f} at the start{busy}"
    valgrind = callgrind.version() or "no valgrind, so no instructions"
    return f"Commit {commit}, {datetime.date.today().isoformat()}, {runs}; {valgrind}; {where}.\n\n"


def main() -> None:
    words, load = read_words(), os.getloadavg()[0]
    if words.built == TOP:
        building.build(TOP, dict.fromkeys(crate for it in BENCHES for crate in it.crates))
    table = HEAD + "\n".join(lines(words, callgrind.version() is not None)) + "\n"
    text = heading(words, load) + table
    print(text, end="")
    if words.names:
        return
    before, rest = PAGE.read_text().split(BEGIN)
    PAGE.write_text(before + BEGIN + "\n" + text + "\n" + END + rest.split(END)[1])


if __name__ == "__main__":
    main()

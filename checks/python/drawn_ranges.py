#!/usr/bin/env python3
"""Sums over drawn ranges, of which many end at the limits of 64 bits, are empty, or do not fit their index's width; and
groups in blocks that are left in each way. `arena-script serial` runs what the compiler makes, and its values are compared
with those that docs/LANGUAGE.md gives them. The last line says how many.

usage: checks/python/drawn_ranges.py [SEED], from anywhere.
"""
import random
import sys

import paths  # noqa: F401: it makes the package known
from arena.language import compile_source
from runs import Tenant, serial_values

LEAST, GREATEST = -(2**63), 2**63 - 1
LIMITS = (LEAST, LEAST + 1, LEAST + 40, -41, -1, 0, 1, 15, 16, 17, 40, 2**62, GREATEST - 40, GREATEST - 1, GREATEST)
LONGEST, DRAWN, FUEL = 60, 200, 6_000
NONE = "none"


def wrapped(number: int) -> int:
    """A number as 64 bits hold it."""
    return (number - LEAST) % 2**64 + LEAST


def ends(draws: random.Random) -> tuple[int, int]:
    """The ends of a range that is empty, or short."""
    low = draws.choice(LIMITS) + draws.randint(-2, 2)
    high = draws.choice((low + draws.randint(-3, LONGEST), draws.choice(LIMITS), draws.choice(LIMITS)))
    low, high = (min(max(it, LEAST), GREATEST) for it in (low, high))
    return (low, high) if high - low <= LONGEST else (high, low)


def over_ranges(draws: random.Random) -> list[tuple[str, tuple[int, int], object]]:
    """Sums over ranges without a width: sources, arguments, values."""
    found = []
    for _ in range(DRAWN):
        (low, high), grain = ends(draws), draws.choice((1, 2, 7, 64, 1000))
        shown = draws.choice((("a", "b"), (str(low), "b"), ("a", str(high)), (str(low), str(high))))
        source = f"fn main(a, b) {{ return psum i in {shown[0]}..{shown[1]} grain {grain} {{ give i * i + 1 }} }}"
        found.append((source, (low, high), wrapped(sum(i * i + 1 for i in range(low, high)))))
    return found


def over_widths(draws: random.Random) -> list[tuple[str, tuple[int, int], object]]:
    """Sums over ranges with a width, with a variable from outside and without one, which changes nothing: they are 0 if the
    range is empty, and else a fault if an index does not fit."""
    found = []
    for _ in range(DRAWN // 2):
        low, high = ends(draws)
        bits, grain = draws.choice((1, 4, 5, 20, 30)), draws.choice((1, 3, 64))
        fits = low >= high or (low >= 0 and high <= 2**bits)
        value = 7 * max(high - low, 0) if fits else NONE
        for term in ("7", "m"):
            source = (f"fn main(a, b) {{ let m = 7; return psum i: u{bits} in a..b grain {grain} {{ give {term} }} }}")
            found.append((source, (low, high), value))
    return found


def sum_of(body: str, grain: int) -> str:
    """A source that sums a body over 0 to 4."""
    return f"fn main(n) {{ return psum i in 0..n grain {grain} {{ {body} }} }}\nfn f(x) {{ return x }}\n"


LEAVES = """fn main(n, k) {{
    let t = 0
    for i in 0..n {{
        group g
        spawn g: f(i + 10)
        if i == k {{ {word} }}
        t += wait g
    }}
    group h
    spawn h: f(1)
    return t * 1000 + wait h
}}
fn f(x) {{ return x }}
"""
CANCELS = """fn main(n) {
    if n {
        group g
        cancel g
        spawn g: f(5)
        n = wait g
    }
    group h
    spawn h: f(1)
    return n * 10 + wait h
}
fn f(x) { return x }
"""
IN_LOOP = """fn main(n) {
    let t = 0
    for i in 0..n {
        group g
        spawn g: f(i)
        if i == n - 1 { t = wait g } else { wait g }
    }
    return t
}
fn f(x) { return x }
"""
AROUND_LOOP = "fn main(n) { group g; for i in 0..n { spawn g: f(i) }; return wait g }\nfn f(x) { return x }\n"
BROKEN = """const A =
    3
fn main(n) {
    group g
    spawn g: f(n)
    let t, s =
        wait g
    for i in 0..
        A { t += i }
    return t
}
fn f(x) { return x }
"""

WORKED = [
    (LEAVES.format(word="break"), (5, 2), 21_001), (LEAVES.format(word="continue"), (5, 2), (10 + 11 + 13 + 14) * 1000 + 1),
    (LEAVES.format(word="return t"), (5, 2), 21), (LEAVES.format(word="break"), (2, 5), 21_001),
    *((sum_of("group g; spawn g: f(i); if i == 2 { give 100 }; give wait g", grain), (5, 0), 108) for grain in (1, 2, 3, 5)),
    *((sum_of("group g; spawn g: f(i); if i == 2 { give 0 }; give wait g", grain), (5, 0), 8) for grain in (1, 2, 3, 5)),
    (IN_LOOP, (5, 0), 4), (AROUND_LOOP, (5, 0), 10), (BROKEN, (4, 0), 7),
    ("fn main(x) { return x - 9223372036854775808 }", (5, 0), LEAST + 5),
    ("fn main(x) { return x - 9223372036854775808 }", (-5, 0), GREATEST - 4),
]
NOT_SERIAL = [(CANCELS, (1, 0), 1), (CANCELS, (0, 0), 1)]
"""Jobs that cancel, which are run under a drawn schedule."""


def main(seed: int = 1) -> int:
    draws = random.Random(seed)
    cases = [*over_ranges(draws), *over_widths(draws), *WORKED]
    jobs = [compile_source(source, args=args, fuel=FUEL).job.to_value() for source, args, _ in (*cases, *NOT_SERIAL)]
    values = serial_values(jobs[:len(cases)])
    tenant = Tenant(draws)
    values += [tenant.outcome(job, 50).get("value", NONE) for job in jobs[len(cases):]]
    tenant.close()
    cases += NOT_SERIAL
    differ = 0
    for (source, args, wanted), value in zip(cases, values, strict=True):
        if value != wanted:
            differ += 1
            print(f"{source} with {args}: {value}, and not {wanted}")
    empty = sum(wanted == 0 for _, _, wanted in cases)
    faults = sum(wanted == NONE for _, _, wanted in cases)
    print(f"{len(cases)} sums and groups, {empty} of them 0 and {faults} faults: {differ} differences")
    return differ or min(empty, faults) < 20


if __name__ == "__main__":
    sys.exit(bool(main(*map(int, sys.argv[1:]))))

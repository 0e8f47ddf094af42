"""Ranges with steps, and what is gathered over them, compared with Python's own ranges; many end at the limits of 64 bits."""
import random
import unittest

from arena.language import compile_source
from arena.replies import Complete, Fault, FaultCode, Outcome
from arena.trace.rehearsal import rehearse

LEAST, GREATEST = -(2**63), 2**63 - 1
LIMITS = (LEAST, LEAST + 1, LEAST + 60, -41, -1, 0, 1, 7, 40, 2**62, GREATEST - 60, GREATEST - 1, GREATEST)
TERM = "i * 7919 % 101"
GATHERED = {"psum": lambda terms: sum(terms), "pmin": lambda terms: min(terms, default=GREATEST),
            "pmax": lambda terms: max(terms, default=LEAST)}


def term(index: int) -> int:
    """The value of TERM, whose product wraps."""
    product = (index * 7919 - LEAST) % 2**64 + LEAST
    return abs(product) % 101 * (1 if product >= 0 else -1)


def run(source: str, args: tuple[int, int], draws: random.Random) -> Outcome:
    """The outcome of a source on a drawn schedule."""
    return rehearse(compile_source(source, args=args, fuel=20_000).job.to_value(), draws.randint(1, 4), draws).outcome


def ends(draws: random.Random, step: int) -> tuple[int, int]:
    """The ends of a range of some forty indices at most."""
    low = min(max(draws.choice(LIMITS) + draws.randint(-2, 2), LEAST), GREATEST)
    high = min(max(low + step * draws.randint(-2, 40) + draws.randint(-abs(step), abs(step)), LEAST), GREATEST)
    return low, high


def shown_ends(draws: random.Random, low: int, high: int) -> str:
    """The range in a source, with ends that are known when it is compiled or not."""
    return "..".join((draws.choice(("a", str(low))), draws.choice(("b", str(high)))))


class Ranges(unittest.TestCase):
    """What loops and sums over ranges give."""

    def test_for(self) -> None:
        """Loops up and down: how many turns, and the last index."""
        draws = random.Random(1)
        for _ in range(250):
            step = draws.choice((1, 2, 3, 10, 2**20, 2**62, GREATEST, -1, -2, -7, -(2**62), LEAST))
            low, high = ends(draws, step)
            source = (f"fn main(a, b) {{ let n = 0; let last = 0; for i in {shown_ends(draws, low, high)} step {step} "
                      "{ n += 1; last = i }; return n * 1000003 + last }")
            turns = range(low, high, step)
            wanted = (len(turns) * 1000003 + (turns[-1] if turns else 0) - LEAST) % 2**64 + LEAST
            self.assertEqual(run(source, (low, high), draws), Complete(wanted, 1), f"{source} {low} {high}")

    def test_gathered(self) -> None:
        """Sums, minima and maxima, of which some indices give nothing."""
        draws = random.Random(2)
        for _ in range(250):
            step, grain, word = draws.choice((1, 1, 2, 3, 1000, 2**20)), draws.choice((1, 2, 5, 64)), draws.choice(list(GATHERED))
            low, high = ends(draws, step)
            source = (f"fn main(a, b) {{ return {word} i in {shown_ends(draws, low, high)} step {step} grain {grain} "
                      f"{{ if i % 3 != 0 {{ give {TERM} }} }} }}")
            terms = [term(it) for it in range(low, high, step) if it % 3]
            self.assertEqual(run(source, (low, high), draws), Complete(GATHERED[word](terms), 1), f"{source} {low} {high}")

    def test_captured(self) -> None:
        """A variable from outside, and an index that does not fit its width."""
        draws = random.Random(3)
        source = "fn main(a, b) {{ return {} i: u10 in 0..a step 5 grain 3 {{ give (i ^ b) - b }} }}"
        for word, gathered in GATHERED.items():
            for high in (0, 1, 500, 1024):
                wanted = gathered([(it ^ 77) - 77 for it in range(0, high, 5)])
                self.assertEqual(run(source.format(word), (high, 77), draws), Complete(wanted, 1))
            self.assertEqual(run(source.format(word), (1025, 77), draws), Fault(FaultCode.DIVISION, 1))

    def test_extremes(self) -> None:
        """`min`, `max` and `abs`, of constants and variables; a source may have its own."""
        draws = random.Random(4)
        for _ in range(100):
            a, b = (draws.choice((*LIMITS, draws.randint(-9, 9))) for _ in range(2))
            source = (f"const M = min(3, 5, {a})\nfn main(a, b) {{ let x = a; x = max(b, x, -4); a = min(x, a, b, M)\n"
                      "return a ^ abs(b) }")
            wanted = min(max(a, b, -4), a, b, min(3, 5, a)) ^ (abs(b) if b != LEAST else LEAST)
            self.assertEqual(run(source, (a, b), draws), Complete(wanted, 1), source)
        own = "inline fn max(a, b) = a * 10 + b\nfn main(a, b) { return max(a, b) }"
        self.assertEqual(run(own, (3, 4), draws), Complete(34, 1))

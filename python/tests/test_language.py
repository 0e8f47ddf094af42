"""The job language: values of small sources, by rehearsals, with expected values that are worked out by hand or published."""
import random
import unittest

from arena.language import compile_source
from arena.replies import Complete, Fault, FaultCode, Outcome
from arena.trace.rehearsal import rehearse

XORSHIFT = """
# xorshift64 of Marsaglia, with the shifts 13, 7 and 17: the n-th number from a seed
fn main(seed, n) {
    let x = seed
    for i in 0..n {
        x ^= x << 13
        x ^= (x >> 7) & 0x1ffffffffffffff
        x ^= x << 17
    }
    return x
}
"""
FNV = """
const PRIME = 0x100000001b3
# FNV-1a of the lowest n bytes
fn main(bytes, n) {
    let hash = -3750763034362895579
    for i in 0..n { hash = (hash ^ (bytes >> i * 8 & 0xff)) * PRIME }
    return hash
}
"""
POPCOUNT = "fn main(x) { let n = 0; while x { x &= x - 1; n += 1 }; return n }"


def signed(number: int) -> int:
    """A number of 64 bits as one with a sign."""
    return number - 2**64 if number >= 2**63 else number


def xorshift(seed: int, count: int) -> int:
    """The same by Python's numbers, which have no width."""
    for _ in range(count):
        seed ^= seed << 13 & 2**64 - 1
        seed ^= seed >> 7
        seed ^= seed << 17 & 2**64 - 1
    return seed


def outcome(source: str, *args: int, slots: int = 2) -> Outcome:
    """The outcome of a source."""
    return rehearse(compile_source(source, args=args).job.to_value(), slots, random.Random(1)).outcome


def value(expression: str, *args: int) -> int:
    """The value of an expression over a and b, which are not known when it is compiled."""
    found = outcome(f"fn main(a, b) {{ return {expression} }}", *args)
    assert isinstance(found, Complete), found
    return found.value


class Values(unittest.TestCase):
    """What sources give."""

    def test_published(self) -> None:
        """Vectors of FNV-1a, xorshift64 and counts of bits."""
        for text, wanted in ((b"", 0xcbf29ce484222325), (b"a", 0xaf63dc4c8601ec8c), (b"foobar", 0x85944171f73967e8)):
            self.assertEqual(outcome(FNV, int.from_bytes(text, "little"), len(text)), Complete(signed(wanted), 1))
        self.assertEqual(outcome(XORSHIFT, 88172645463325252, 1), Complete(8748534153485358512, 1))
        for count in (2, 3, 50):
            self.assertEqual(outcome(XORSHIFT, 88172645463325252, count), Complete(signed(xorshift(88172645463325252, count)), 1))
        self.assertEqual(outcome(POPCOUNT, -1), Complete(64, 1))
        self.assertEqual(outcome(POPCOUNT, 0xff00), Complete(8, 1))

    def test_precedence(self) -> None:
        """Operators bind as in Rust."""
        for expression, wanted in (("a & 1 == 1", 1), ("a | 4 ^ 6 & 3", 3 | (4 ^ (6 & 3))), ("1 << a + 1", 16),
                                   ("a << 1 < 6", 0), ("-a >> 1", -2), ("~a & 7", 4), ("!a | 2", 2), ("a ^ b << 1", 3 ^ 10),
                                   ("a + b & 12", 8), ("~a * 2", -8), ("a % 2 << 3", 8), ("a | b && 0", 0)):
            self.assertEqual(value(expression, 3, 5), wanted, expression)

    def test_comparisons(self) -> None:
        """As values, in conditions and in loops."""
        for a, b in ((1, 2), (2, 1), (2, 2), (0, 0), (0, -1), (-(2**63), 2**63 - 1)):
            for sign, wanted in (("<", a < b), ("<=", a <= b), (">", a > b), (">=", a >= b), ("==", a == b), ("!=", a != b)):
                self.assertEqual(value(f"a {sign} b", a, b), wanted)
                self.assertEqual(value(f"!(a {sign} b)", a, b), not wanted)
                branch = f"fn main(a, b) {{ if a {sign} b {{ return 1 }}; return 0 }}"
                self.assertEqual(outcome(branch, a, b), Complete(wanted, 1))
                loop = f"fn main(a, b) {{ let n = 0; while a {sign} b {{ n += 1; if n == 3 {{ break }} }}; return n }}"
                self.assertEqual(outcome(loop, a, b), Complete(3 * wanted, 1))

    def test_one_instruction(self) -> None:
        """Comparisons and remainders are an instruction each."""
        for sign in ("<", "<=", ">", ">=", "==", "%", "&", "|", "^", "<<", ">>"):
            job = compile_source(f"fn main(a, b) {{ return a {sign} b }}").job
            self.assertEqual(len(job.procedures[0]), 2, sign)

    def test_computed_again(self) -> None:
        """More values than registers: those that can be are computed again, each time with what they are made of."""
        def wanted(n: int, turns: int) -> int:
            """The same by Python."""
            parts = [n + 1, n ^ 2, n - 3, n * 4, n & 5, n | 6, n * 128, ~n, n * n]
            total = 0
            for turn in range(turns):
                for at, it in enumerate(parts):
                    total = total * 3 + it * (turn + at)
            return signed(total % 2**64)

        names = "bcdeghijk"
        makes = "; ".join(f"let {name} = {part}" for name, part in zip(names, (
            "n + 1", "n ^ 2", "n - 3", "n * 4", "n & 5", "n | 6", "n << 7", "~n", "n * n")))
        adds = "; ".join(f"total = total * 3 + {name} * (turn + {at})" for at, name in enumerate(names))
        source = f"fn main(n, turns) {{ {makes}; let total = 0; for turn in 0..turns {{ {adds} }}; return total }}"
        for n, turns in ((5, 0), (5, 1), (-7, 3), (2**62, 4)):
            self.assertEqual(outcome(source, n, turns), Complete(wanted(n, turns), 1))

    def test_loop_after_branch(self) -> None:
        """A loop that is jumped to from a branch before it has its constants all the same."""
        source = "fn main(a, b) {{ let n = 0; if a {{ b = 7 }}; {} {{ b += 3; n += b * 3; n -= 100 }}; return n + b * 3 }}"
        for loop in ("while b <= 100", "while !(b > 100)", "while 101 > b", "while b != 103 && b != 100"):
            for a, b in ((0, 4), (1, 5)):
                n, at = 0, 7 if a else b
                while at <= 100 if "&&" not in loop else at not in (100, 103):
                    at, n = at + 3, n + (at + 3) * 3 - 100
                self.assertEqual(outcome(source.format(loop), a, b), Complete(n + at * 3, 1), loop)

    def test_faults(self) -> None:
        """A remainder by 0 is fault 1."""
        for sign in "/%":
            self.assertEqual(outcome(f"fn main(a, b) {{ return a {sign} b }}", 1, 0), Fault(FaultCode.DIVISION, 1))

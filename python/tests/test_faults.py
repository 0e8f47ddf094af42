"""What is said of a source: all faults at once, and warnings."""
import unittest

from arena.language import SourceFault, compile_source


def told(source: str) -> list[str]:
    """All faults of a source, or else its warnings."""
    try:
        return [str(it) for it in compile_source(source, file="a").warnings]
    except SourceFault as fault:
        return [str(it) for it in fault.all()]


def places(source: str) -> list[tuple[int, int]]:
    """Where a source has faults."""
    with_places = [it.split(":") for it in told(source)]
    return [(int(it[1]), int(it[2])) for it in with_places]


class Faults(unittest.TestCase):
    """Sources with several faults."""

    def test_grammar(self) -> None:
        """Each statement and each item with a fault is told, and none is told for another's sake."""
        source = ("fn main(n) {\n    let = 1\n    if n = 1 {\n        return 2\n    }\n    while n { n -= 1 $ 2 }\n"
                  "    return n\n}\nfn (x) { }\nfn g(a) {\n    a b\n}\nconst = 3\n")
        self.assertEqual(places(source), [(2, 9), (3, 10), (6, 22), (9, 4), (11, 5), (13, 7)])
        self.assertEqual(places("fn main(n) {\n  if n {\n    let a =\n"), [(4, 1)])

    def test_names(self) -> None:
        """A name whose declaration has a fault is known all the same."""
        source = ("const A = B\nfn main(n) {\n    let x = y\n    let t = spawn g(1, 2)\n    group h; group h\n"
                  "    for i in 0..x { n += q * A }\n    spawn h: g(x)\n    return x + wait t + wait h\n}\n"
                  "fn g(a) {\n    return b\n}\nfn g(a) { }\n")
        self.assertEqual(places(source), [(1, 11), (3, 13), (4, 19), (5, 14), (6, 26), (11, 12), (13, 1)])

    def test_limits(self) -> None:
        """A limit is told once for a function, and not at each statement behind it."""
        lines = "".join(f"    let a{it} = psum i in 0..n {{ give {it} }}\n" for it in range(20))
        self.assertEqual(len(told(f"fn main(n) {{\n{lines}}}\n")), 1)
        many = "".join(f"    x{it} = 1\n" for it in range(50))
        self.assertEqual(len(told(f"fn main(n) {{\n{many}}}\n")), 20)

    def test_report(self) -> None:
        """The line and a mark below the place."""
        with self.assertRaises(SourceFault) as caught:
            compile_source("fn main(n) {\n\treturn m\n}", file="a.job")
        self.assertEqual(caught.exception.report(), "a.job:2:9: m is not known here: declare it by `let`; alive are n\n"
                         "    \treturn m\n    \t       ^")


class Warnings(unittest.TestCase):
    """Sources that are odd."""

    def test_hiding(self) -> None:
        """A variable with the name of another one around it."""
        for line, column in (("if n { let x = 6; n = x }", 12), ("for x in 0..n { n += x }", 5),
                             ("if n { let x = spawn f(n); n = wait x }", 12), ("n = psum x in 0..3 { give x }", 9),
                             ("n = psum i in 0..3 { let x = i; give x }", 26),
                             ("n = psum i in 0..3 { for x in 0..i { give x } }", 26),
                             ("n = psum i in 0..3 { give psum x in 0..i { give x } }", 31),
                             ("group g; if n { let x, s = wait g; n = x + s }", 21)):
            source = f"fn main(n) {{\n    let x = 5\n    {line}\n    return x + n\n}}\nfn f(x) {{ return x }}\n"
            self.assertEqual(told(source), [f"a:3:{column}: warning: x hides the x of a block around this one: to change that, "
                                            "leave `let` out; else choose another name"])

    def test_division(self) -> None:
        """A division by a constant 0."""
        self.assertEqual(told("const Z = 0\nfn main(n) { return n / Z + n % 0 }"),
                         [f"a:2:{column}: warning: this divides by 0, which ends the job with fault 1" for column in (23, 31)])

    def test_endless(self) -> None:
        """A loop without a way out."""
        for body, is_odd in (("n += 1", 1), ("for i in 0..3 { break }", 1), ("n = psum i in 0..n { give i }", 1),
                             ("break", 0), ("if n { break }", 0), ("for i in 0..3 { return i }", 0)):
            self.assertEqual(len(told(f"fn main(n) {{ while 1 {{ {body} }} }}")), is_odd, body)

    def test_none(self) -> None:
        """What is not odd."""
        self.assertEqual(told("fn main(n) {\n    for i in 0..n { n += i }\n    for i in 0..n { let x = i; n += x }\n"
                              "    let x = 1\n    return n / x\n}\n"), [])


class Arguments(unittest.TestCase):
    """Arguments of `main` with widths."""

    def test_packed(self) -> None:
        """A number for each parameter; what does not fit is refused by name."""
        from arena.trace.rehearsal import rehearse
        job = compile_source("fn main(a: u8, b, c: u8) { return a * 1000000 + b * 1000 + c }").job
        self.assertEqual(getattr(rehearse(job(1, 2, 3).to_value()).outcome, "value"), 1002003)
        for args, words in (((256, 0, 0), "256 does not fit a: u8, which is from 0 to 255"),
                            ((0, 0, -1), "-1 does not fit c: u8, which is from 0 to 255"),
                            ((1, 2, 3, 4), "main has 3 parameters, and here are 4"),
                            ((0, 2**63, 0), "do not fit 64 bits")):
            with self.assertRaisesRegex(ValueError, words):
                job(*args)
        with self.assertRaisesRegex(ValueError, "a job has two arguments, and here are 3"):
            compile_source("fn main(a, b) { return a }").job(1, 2, 3)

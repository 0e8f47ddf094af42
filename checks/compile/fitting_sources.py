"""Sources for which there are just enough registers, if operands come in a good order and each live range has a register of
its own: none may be refused. And some that need a register more, which have to be, and are told what is alive."""

Fitting = tuple[str, tuple[int, int]]


def running_sums(values: int) -> str:
    """A loop over so many variables, each of which adds up the one before it."""
    names = "abcdef"[:values]
    zeros, sums = "; ".join(f"let {it} = 0" for it in names), "; ".join(f"{it} += {of}" for it, of in zip(names, "i" + names))
    return f"fn main(n) {{ {zeros}; for i in 0..n {{ {sums} }}; return {' - '.join(names)} }}\n"


FITTING: tuple[Fitting, ...] = (
    # the right operand is the deep one
    ("fn main(a) { return 1 - (2 - (3 - (4 - (5 - (6 - (7 - (8 - (9 - a)))))))) }\n", (3, 0)),
    ("fn main(a, b) { return a * 2 - (b * 3 - (a * 5 - (b * 7 - (a * 11 - (b * 13 - (a * 17 - (b * 19 - (a - 23 * b)))))))) }\n", (5, -2)),
    ("fn main(a, b) { if 1 << (2 ^ (3 | (4 & (5 - (6 * (7 - (8 ^ (9 - a)))))))) < b { return 1 } }\n", (4, 9)),
    ("fn main(a) { return call f(1 - (2 - (3 - (4 - (5 - a)))), 6 - (7 - (8 - (9 - (10 - (11 - (12 - a))))))) }\nfn f(x, y) { return x * 100 + y }\n", (3, 0)),
    # eight variables are read later at each place, and of the nine each meets each other
    ("fn main(a, b) {\n    let c = a + b\n    let d = a - b\n    let e = a * b\n    let f = a & b\n    let g = a | b\n    let h = a ^ b\n"
     "    let i = a * a\n    a = b * b\n    b = c * c\n    return a - b + d - e + f - g + h - i\n}\n", (7, 3)),
    (running_sums(5), (5, 0)),
    # nine values of n and m, which are computed again
    ("fn main(n, m) {\n    let a = n + 1\n    let b = n - m\n    let c = n * 3\n    let d = n & 5\n    let e = m | 6\n    let f = m ^ 7\n    let g = n << 1\n"
     "    let h = n >> 2\n    let i = ~n\n    return (a * b - c * d) * (e * f - g * h) - i * (a + b + c + d + e + f + g + h)\n}\n", (7, -3)),
    # the end of the loop is n, in whose place n is read
    (running_sums(5).replace(" }\n", " - n }\n"), (5, 0)),
    # one is made of another one, and read in a loop
    ("fn main(n, m) {\n    let a = n * 2\n    let b = a + m\n    let c = b ^ a\n    let d = 0\n    let e = 1\n    let f = 2\n    let g = 3\n    while g < n {\n"
     "        d += e + b\n        e += f - a\n        f += g * c\n        g += 1\n    }\n    return d - e + f - g + a * b - c * m\n}\n", (9, 4)),
)

Crowded = tuple[str, str, str, str]

CROWDED: tuple[Crowded, ...] = (
    # the test of the loop finds no register
    (running_sums(6), "1:1", "main", "a, b, c, d, e, f, i, the end of i and 1 other value"),
    # the number 9 finds none
    ("# a task\nfn main(n) { return call parts(n) }\n  fn parts(n) {\n"
     + "".join(f"    let {it} = n / {by}\n" for it, by in zip("abcdefgh", range(2, 10))) + "    return a - b - c - d - e - f - g - h\n}\n",
     "3:3", "parts", "n, a, b, c, d, e, f, g and 1 other value"),
    # the total is one value that has no name, and the number 7 the other
    ("fn main(n) {\n    return psum i in 0..n {\n" + "".join(f"        let {it} = i / {by}\n" for it, by in zip("abcdef", range(2, 8)))
     + "        give a - b - c - d - e - f\n    }\n}\n", "2:12", "this psum", "i, the end of i, a, b, c, d, e and 2 other values"),
    # x and y are the same variable, and so are p and q
    ("fn main(n, p) { if n < 5 { let x = p / 2; return x }; let y = n / 3\n" + "".join(f"    let {it} = n / {by}\n" for it, by in zip("abcdef", range(4, 10)))
     + "    return y - a - b - c - d - e - f - p - n * 9\n}\n", "1:1", "main", "n, p, x or y, a, b, c, d, e and 1 other value"),
    # tasks and statuses have variables, and groups have none
    ("fn main(n, m) {\n    group g\n    let t = spawn main(n, 0)\n    spawn g: main(m, 0)\n    let s, u = wait g\n"
     + "".join(f"    let {it} = n / {by}\n" for it, by in zip("abc", range(2, 5))) + "    wait t\n    let d = m / 5\n    return t - s - u - a - b - c - d - n - m\n}\n",
     "1:1", "main", "n, m, t, s, u, a, b, c and 1 other value"),
)
"""Sources for which registers are too few, where the function begins, what it is called, and what is alive where they are."""

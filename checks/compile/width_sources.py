"""Sources whose functions have parameters with a width, each with the arguments of the root."""
import random

WIDTHS = (
    ("fn main(a, b) { return call f(a, b) }\nfn f(x: u8, y: u8) { return x * 1000 + y }\n", (7, 255)),
    ("fn main(a, b) { return call f(a, b) }\nfn f(x: u62, y: u1) { return x * 2 - y }\n", (2**62 - 1, 1)),
    ("fn main(a, b) { return call f(a, b) }\nfn f(x: u1, y: u62) { return x - y }\n", (1, 2**62 - 1)),
    ("fn main(a, b) { return call f(a, b) }\nfn f(x: u62, y: u2) { return x - y }\n", (2**62 - 1, 3)),
    ("fn main(a, b) { return call f(a, b) }\nfn f(x: u5, y) { return x - y }\n", (31, -9)),
    ("fn main(a, b) { return call f(a, b) }\nfn f(x, y: u5) { return x - y }\n", (-9, 31)),
    ("fn main(a, b) { return call f(a, b, a) }\nfn f(n, lo: u20, hi: u20) { return n * 3 + hi - lo }\n", (2**20 - 1, 0)),
    ("fn main(a, b) { return call f(a, b, -5) }\nfn f(lo: u20, hi: u20, n) { return n * 3 + hi - lo }\n", (2**20 - 1, 12)),
    ("fn main(a, b) { return call f(a, -5, b) }\nfn f(lo: u20, n, hi: u20) { let x = n * 3; return x + hi - lo }\n", (2**20 - 1, 12)),
    ("fn main(a, b) { return call f(a, b, 3, 4) }\nfn f(w: u31, x: u31, y: u31, z: u31) { return w - x * 2 + y * 3 - z * 5 }\n", (2**31 - 1, 2**31 - 1)),
    ("fn main(a, b) { return call f(a, b, a, b) }\nfn f(w: u40, x: u40, y: u23, z: u23) { return w - x * 2 + y * 3 - z * 5 }\n", (2**23 - 1, 99)),
    ("fn main(a, b) { return call f(1, 2, 3, 4, 5, 6, a, b) }\n"
     "fn f(a: u7, b: u8, c: u9, d: u10, e: u11, f: u12, g: u13, h: u14) { return ((((a * 3 + b) * 3 + c) * 3 + d) * 3 + e) * 9 + f * 3 - g + h }\n",
     (8191, 16383)),
    ("fn main(a) { return call f(a, 1, 0, 1, 1, 0, a, 1, 0, 1, 1, 0, a, 1, 0, 1) }\n"
     "fn f(a: u1, b: u1, c: u1, d: u1, e: u1, f: u1, g: u1, h: u1, i: u1, j: u1, k: u1, l: u1, m: u1, n: u1, o: u1, p: u1) "
     "{ return a + d * 2 + g * 4 + j * 8 + m * 16 + p * 32 }\n", (1, 0)),
    ("fn main(n) { return call f(n, 1, 2) }\nfn f(n, lo: u20, hi: u20) { if n == 0 { return hi * 100 + lo }; return call f(n - 1, hi, (lo + hi) % 97) }\n", (40, 0)),
    ("fn main(n) { let a = spawn f(n, 1, 2); let b = spawn f(n, 3, 4); return wait a * 10 + wait b }\nfn f(a, b: u3, c: u3) { return a + b * c }\n", (5, 0)),
    ("fn main(n) { group g; for i in 0..n { spawn g: f(i, n, i) }; let s = wait g; return s }\nfn f(a: u9, b: u9, c) { return a * b + c }\n", (12, 0)),
    ("fn main(n) { let x = isolate f(n, 1, n); return x + 1 }\nfn f(a: u9, b: u9, c) { return a * b + c }\n", (12, 0)),
    ("fn main(n) { let x = call f(1 / n, 2, 3); return x }\nfn f(a: u9, b: u9, c) { return a * b + c }\n", (0, 0)),
    ("fn main(n) { let x = call f(1, 2, 3 / n); return x }\nfn f(a: u9, b: u9, c: u60) { return a * b + c }\n", (0, 0)),
    ("fn main(n) { let x = call f(n > 3, n == 12); return x }\nfn f(a: u1, b: u1) { return a * 2 + b }\n", (12, 0)),
    ("fn main(n) { let x = call f(cancelled(), n, 3); return x }\nfn f(a: u1, b: u7, c) { return a * 2 + b + c }\n", (12, 0)),
    ("const N = 9\ninline fn twice(x) = x * 2\nfn main(n) { return call f(N, twice(N), n) }\nfn f(a: u4, b: u5, c) { a += b; b = c; return a * 10 + b }\n", (12, 0)),
    ("fn main(n) { let u1 = n; return call u2(u1, u1) }\nfn u2(u3: u4, u5: u6) { let u7 = u3; return u7 * 100 + u5 }\n", (12, 0)),
    ("fn main(n) { return psum i in 0..n { let x = call f(i, 7, 1); give x } }\nfn f(a: u9, b: u9, c: u9) { return a * b + c }\n", (12, 0)),
    ("fn main(n) { return call f(n, 5) }\nfn f(a: u9, n) { let s = psum i in 0..9 { give i }; return s + a * n }\n", (12, 0)),
    ("fn main(n) { return call f(n, 5, 6) }\nfn f(a: u9, b: u9, n) { for i in 0..a { b += i * n; if b > 99 { break } }; return a * 1000 + b }\n", (12, 0)),
)
"""The values fit, as those of any source must: what others do to their neighbours is in PACKED."""

PACKED = (
    ("fn main(a, b) { return call f(a, b) }\nfn f(x: u8, y: u8) { return x * 1000 + y }\n", (-1, 300)),
    ("fn main(a, b) { return call f(a, b) }\nfn f(x: u8, y: u8) { return x * 1000 + y }\n", (1000, -1)),
    ("fn main(a, b) { return call f(a, b, 1) }\nfn f(x: u31, y: u31, z: u1) { return x * 3 - y * 2 + z }\n", (-(2**63), 2**62 + 3)),
    ("fn main(a, b) { return call f(a, b, a, b) }\nfn f(x: u21, y: u21, z: u21, w: u62) { return x * 3 - y * 2 + z - w * 7 }\n", (2**40 + 77, -5)),
    ("fn main(a, b) { return call f(a, b) }\nfn f(x: u10, y) { return x - y }\n", (-77, 2**63 - 1)),
)
"""Arguments that do not fit their widths change their neighbours, as in the compiler in Python; no interpreter knows of that."""

MOST = 63
"""How many bits parameters with a width share in a number."""


def drawn_widths(draws: random.Random) -> list[int]:
    """Widths of parameters for which a task's two numbers have room, in a drawn order; 0 is none."""
    rooms = [[0] if draws.random() < 0.2 else [], []]
    for room in rooms:
        left = 0 if room else MOST
        while left and (not room or draws.random() < 0.7):
            room.append(draws.randint(1, min(left, 62, draws.choice((3, 20, 62)))))
            left -= room[-1]
    widths = rooms[0] + rooms[1] if draws.random() < 0.5 else rooms[1] + rooms[0]
    return widths[:draws.choice((2, 3, 4, 5, 6, 16))]


def drawn_source(draws: random.Random) -> tuple[str, tuple[int, int]]:
    """A source that calls a function with drawn widths, and its arguments: values at the ends of what fits, and between them."""
    widths = drawn_widths(draws)
    numbers = [draws.choice((0, 1, 2**(it or 63) - 1, draws.randrange(2**(it or 63)))) for it in widths]
    given = draws.sample(range(len(widths)), min(2, len(widths)))
    arguments = ["ab"[given.index(at)] if at in given else str(number) for at, number in enumerate(numbers)]
    names = ", ".join(f"p{at}: u{it}" if it else f"p{at}" for at, it in enumerate(widths))
    value = " ^ ".join(f"p{at} * {2 * at + 3}" for at in range(len(widths)))
    source = f"fn main(a, b) {{ return call f({', '.join(arguments)}) }}\nfn f({names}) {{ return {value} }}\n"
    return source, tuple(([numbers[at] for at in given] + [0, 0])[:2])

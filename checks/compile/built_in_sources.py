"""Sources with `min`, `max` and `abs`, each with the arguments of its function."""

LEAST, GREATEST = -2**63, 2**63 - 1

BOTH = "fn main(a, b) { return min(a, b) ^ max(a, b) * 3 }\n"
SIZE = "fn main(a, b) { return abs(a) ^ abs(b - 1) * 3 }\n"
CLIP = "inline fn clip(x, low, high) = min(max(x, low), high)\nfn main(a, b) { return clip(a, 0, b) + clip(5, a, b) * 100 }\n"

BUILT_IN = (
    *((BOTH, (a, b)) for a in (LEAST, -1, 0, 5, GREATEST) for b in (LEAST, 0, 5, GREATEST)),
    *((SIZE, (a, b)) for a, b in ((LEAST, GREATEST), (LEAST + 1, LEAST + 1), (-1, 0), (0, 1), (GREATEST, LEAST))),
    ("fn main(a, b) { return min(a, b, 4) * 100 + max(a, b, 4, -a) }\n", (3, 7)),
    ("fn main(a, b) { return min(a, 5, b, 4, a - b, 9) }\n", (3, 7)),
    ("const N = min(4, -5, 3) + abs(-2)\nconst M = max(N, 1, 0x8000_0000_0000_0000) + abs(0x8000_0000_0000_0000)\nfn main(a, b) { return M - N * 10 + max(N, a) }\n", (-3, 7)),
    ("fn main(min, max) { let abs = min(max, min); return abs(abs) + min }\n", (-3, -7)),
    ("fn main(a, b) { let min = a; min -= max(min, b); return min (min, 2) }\n", (-3, 7)),
    ("inline fn max(x, y) = x\nfn main(a, b) { return max(a, b) * 10 + min(a, b) }\n", (3, 7)),
    ("fn main(a, b) { return call min(a, b) + max(a, b) }\nfn min(x, y) { return x * 100 }\n", (3, 7)),
    (CLIP, (3, 4)),
    (CLIP, (-3, 9)),
    ("fn main(a, b) { let t = spawn f(b); return max(call f(a), wait t) - min(psum i in 0..a { give i }, 2) }\nfn f(n) { return n * n }\n", (3, 4)),
    ("fn main(a, b) { if min(a, b) == a && max(a, b, 5) > 4 { return abs(a - b) }; return -1 }\n", (3, 4)),
    ("fn main(a, b) { while max(a, b) < 100 { a += abs(b) + 1; b = min(a, b + 30) }; return a * 1000 + b }\n", (3, 4)),
    ("fn main(a, b) { return min(a / 2, b % 3, a && b) + -abs(a - b) * ~max(a, 1) }\n", (9, 13)),
    ("fn main(a, b) { for i in min(a, b)..max(a, b) { a += abs(i - 5) }; return a }\n", (3, 9)),
    ("fn main(a, b) { return (min\n(a,\n\n b))\n}\n", (3, 4)),
)

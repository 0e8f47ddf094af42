"""Sources with inline functions, each with the arguments of its function."""

SQUARE = "inline fn square(x) = x * x\n"
NORM = SQUARE + "inline fn norm(x, y) = square(x) + square(y)\n"
BETWEEN = "inline fn between(x, low, high) = low <= x && x < high\n"
QUEENS = ("inline fn attacks(a, b, rows) = a == b || a == b + rows || a + rows == b\n"
          "fn main() { return call place(0, 0) }\n"
          "fn place(board, row) {\n    if row == 4 { return 1 }\n    group ways\n    for column in 0..4 {\n        let rest = board; let back = 1\n"
          "        while back <= row {\n            if attacks(column, rest % 16, back) { break }\n"
          "            rest /= 16; back += 1\n        }\n        if back > row { spawn ways: place(board * 16 + column, row + 1) }\n    }\n"
          "    return wait ways\n}\n")

INLINES = (
    (SQUARE + "fn main(n) { return square(n + 1) }\n", (6, 0)),
    (SQUARE + "fn main(n) { n = square(square(n)) - square(2); return -square(n) }\n", (3, 0)),
    (NORM + "fn main(a, b) { let x = 7; return norm(b, x) * 10 + norm(a, 1) }\n", (3, 4)),
    ("inline fn seven() = 7\nfn main(n) { return seven() - seven() * n }\n", (3, 0)),
    ("inline fn first(x, y) = x\ninline fn second(x, y) = y\nfn main(a, b) { return first(a, b) * 100 + second(a, b) }\n", (3, 4)),
    ("inline fn less(x, y) = x - y\nfn main(a, b) { return less(less(a, b), less(b, a)) }\n", (3, 5)),
    ("inline fn less(b, a) = b - a\nfn main(a, b) { return less(b, a) * 10 + less(a, b) }\n", (3, 5)),
    ("const N = 5\ninline fn above(x) = x > N\nfn main(a, b) { return above(a) * 10 + above(b) }\n", (5, 6)),
    (BETWEEN + "fn main(a, b) { let n = 0; while between(n, a, b) || n < 2 { n += 3 }; if !between(n, 0, 9) { n += 100 }; return n }\n", (0, 8)),
    (BETWEEN + "fn main(a, b) { return between(a, 0, b) + 2 * between(b, 0, a) }\n", (3, 8)),
    (BETWEEN + "fn main(a, b) { let both = between(a, 0, b) && between(b, a + 1, 90); return both }\n", (3, 8)),
    ("inline fn half(x) = x / 2\ninline fn part(x, y) = x / y\nfn main(a, b) { return half(a) * 100 + part(a, b) }\n", (9, 4)),
    ("inline fn part(x, y) = x / y\nfn main(a, b) { return part(a, b) }\n", (9, 0)),
    ("inline fn part(x, y) = x / y\nfn main(a, b) { if b && part(a, b) > 1 { return 1 }; return 2 }\n", (9, 0)),
    ("inline fn safe(x, y) = y && x / y > 1\nfn main(a, b) { if safe(a, b) { return 1 }; if safe(a, 2) { return 3 }; return 2 }\n", (9, 0)),
    ("inline fn drop(x, y) = y\nfn main(a, b) { return drop(a / 7, b % 5 + (a && b)) }\n", (9, 13)),
    ("inline fn max(x, y) = x * (x >= y) + y * (x < y)\nfn main(a, b) { return max(a, b) * 100 + max(b, a) }\n", (9, 13)),
    (SQUARE + "fn main(a, b) { let t = spawn f(square(a), b); return square(wait t) + t }\nfn f(square_root, n) { return square_root - square(n) }\n", (4, 3)),
    ("cell c\n" + SQUARE + "fn main(a, b) { c.local = square(a); c.local += square(b); let x = c.local; return x }\n", (4, 3)),
    (SQUARE + "fn main(a, b) { for i in square(a)..square(b) step 2 { a += square(i) }; return a }\n", (2, 4)),
    ("inline fn f(" + ", ".join(f"p{it}" for it in range(20)) + ") = p19 * 100 + p7\nfn main(a, b) { return f("
     + ", ".join(f"a + {it}" for it in range(20)) + ") }\n", (4, 3)),
    (QUEENS, (0, 0)),
)

"""Sources whose functions call each other, each with the arguments of its function."""

FIB = "fn fib(n) { if n < 2 { return n }; let a = call fib(n - 1); let b = call fib(n - 2); return a + b }\n"

CALLING = (
    (FIB, (9, 0)),
    ("fn main(n) { return call fib(n) }\n" + FIB, (8, 0)),
    ("fn main(n) { return call even(n) }\nfn even(n) { if n == 0 { return 1 }; return call odd(n - 1) }\n"
     "fn odd(n) { if n == 0 { return 0 }; return call even(n - 1) }\n", (7, 0)),
    ("fn main(n, sum) { if n == 0 { return sum }; return call main(n - 1, sum + n) }\n", (9, 0)),
    ("fn main(a, b) { return call minus(a, b) }\nfn minus(a, b) { return a - b }\n", (9, 2)),
    ("fn main(a, b) { let f = call f(b); return f * 10 + a }\nfn f(a) { return -a }\n", (3, 2)),
    ("fn main(f) { f = call f(f + 1); return f }\nfn f(n) { let f = n * 2; return f }\n", (3, 0)),
    ("fn main(a, b) { let n = call nine(); b = call one(n); return a + b }\nfn nine() { return 9 }\nfn one(n) { return n + 1 }\n", (3, 2)),
    ("fn main() { let x = 5; let y = call none(); return x * 10 + y }\nfn none() { let z = 3 }\n", (0, 0)),
    ("fn main() { return call none() }\nfn none() { return 4 }\n", (0, 0)),
    ("fn main(n) { call f(n); return 7 }\nfn f(n) { return 1 / n }\n", (0, 0)),
    ("fn main(n) { call f(n); return 7 }\nfn f(n) { return 1 / n }\n", (1, 0)),
    ("fn main(n) { let x = call f(1 / n); return x }\nfn f(n) { return 5 }\n", (0, 0)),
    ("fn main(n) { let sum = 0; for i in 0..n { if i % 2 == 0 { continue }; let s = call square(i); sum += s }; return sum }\n"
     "fn square(n) { return n * n }\n", (9, 0)),
    ("fn main(n) { while 1 { n = call less(n); if n < 0 { break } }; return n }\nfn less(n) { return n - 3 }\n", (8, 0)),
    ("fn main(n) { if n { return call f(1) } else if n == 0 { return call f(2) } }\nfn f(n) { return n * 11 }\n", (0, 0)),
    ("const N = 6\nparam M = 2\nfn main(n) { n = call f(N, M); return n }\nfn f(a, b) { return a / b + N }\n", (0, 0)),
    ("fn first(n) { return call last(n) }\nfn middle(n) { return 1 }\nfn last(n) { let m = call middle(n); return n + m }\n", (4, 0)),
    ("fn main(a, b) { let c = a + b; for i in 0..2 { let d = c; c = call f(d, i) }; return call f(c, a) }\n"
     "fn f(a, b) { return 10 * a + b }\n", (1, 2)),
)

"""Sources with tasks that have names, each with the arguments of its function."""

FIB = "fn fib(n) { if n < 2 { return n }; let a = spawn fib(n - 1); let b = spawn fib(n - 2); sync; return a + b }\n"
LESS = "fn less(a, b) { return a - b }\n"
PART = "fn part(n) { return 60 / n }\n"

WAITING = (
    (FIB, (9, 0)),
    ("fn main(a, b) { let x = spawn less(a, b); let y = spawn less(b, a); return wait x * 10 + wait y }\n" + LESS, (7, 3)),
    ("fn main(a, b) { let x = spawn less(a, b); let y = spawn less(b, a); wait y; return y * 10 + wait x }\n" + LESS, (7, 3)),
    ("fn main(a, b) { let x = spawn less(a, b); a = 100; let y = wait x; x += a; return x * 10 + y }\n" + LESS, (7, 3)),
    ("fn main(a, b) { let x = spawn less(a, b); b = wait x; b += wait x; return wait x - x + b }\n" + LESS, (7, 3)),
    ("fn main(a, b) { let x = spawn less(a, b); let y = spawn less(wait x, 1); let z = call less(wait y, x); return z }\n" + LESS, (7, 3)),
    ("fn main(a, b) { let x = spawn less(a, b); let y = spawn less(b, a); let z = spawn less(a, 1); wait y; let w = spawn less(9, b); "
     "sync; return ((x * 10 + y) * 10 + z) * 10 + w }\n" + LESS, (7, 3)),
    ("fn main(a, b) { let w = spawn less(a, 1); let x = spawn less(a, b); let y = spawn less(b, a); let z = spawn less(9, b); sync; "
     "return ((w * 10 + x) * 10 + y) * 10 + z }\n" + LESS, (7, 3)),
    ("fn main(a, b) { let w = spawn less(a, 1); let x = spawn less(a, b); let y = spawn less(b, a); let z = spawn less(9, b); a = wait z; "
     "b = call less(a, 1) * 10 + wait w; let v = spawn less(b, a); return wait v * 10 + wait y }\n" + LESS, (7, 3)),
    ("fn main(a, b) { for i in 0..6 { let w = spawn less(i, 1); let x = spawn less(i, b); let y = spawn less(b, i); let z = spawn less(9, i); "
     "if i == 2 { continue }; if i == a { return b * 10 }; b += wait w - wait z + wait x; wait y }; return b }\n" + LESS, (4, 1)),
    ("fn main(a, b) { let x = spawn less(a, b); let y = call less(b, a); let z = spawn less(y, wait x); sync; sync; return z * x }\n" + LESS, (7, 3)),
    ("fn main(a, b) { let x = spawn less(a, b); return call less(a, 1) }\n" + LESS, (7, 3)),
    ("fn main(a, b) { let x = spawn less(a, b); return a == 7 }\n" + LESS, (7, 3)),
    ("fn main(a, b) { let x = spawn less(a, b); let y = spawn less(b, a) }\n" + LESS, (7, 3)),
    ("fn main(a, b) { let x = spawn less(a, b); if wait x < 5 && x < b { return x }; return a }\n" + LESS, (5, 3)),
    ("fn main(a, b) { let x = spawn less(a, b); for i in 0..wait x { a += i }; return a }\n" + LESS, (7, 3)),
    ("fn main(a, b) { let x = spawn less(a, b); if a { let y = spawn less(b, 1); return a }; return wait x }\n" + LESS, (7, 3)),
    ("fn main(a, b) { let x = spawn less(a, b); if b { let y = spawn less(b, 1); a += wait y } else { let z = spawn less(b, 2); b = wait z }; "
     "return a * 100 + b * 10 + wait x }\n" + LESS, (7, 0)),
    ("fn main(a, b) { let sum = 0; for i in 0..6 { let x = spawn less(i, b); if i == 2 { continue }; if i == a { break }; sum += wait x }; "
     "return sum }\n" + LESS, (4, 1)),
    ("fn main(a, b) { let x = spawn less(a, b); while 1 { let y = spawn less(a, 1); if a < 3 { if b { break } else { return 5 } }; "
     "a = wait y }; return wait x * 100 + a }\n" + LESS, (7, 3)),
    ("fn main(a, b) { let x = spawn less(a, b); for i in 0..2 { let y = spawn less(i, a); for j in 0..2 { let z = spawn less(j, i); "
     "if j == 1 { continue }; b += wait z }; b *= wait y }; return wait x + b }\n" + LESS, (7, 3)),
    ("fn main(a, b) { for i in 0..9 { let x = spawn less(a, i); if i == b { return i * 2 }; wait x } }\n" + LESS, (7, 3)),
    ("fn main(a) { let x = spawn part(a); return 5 }\n" + PART, (0, 0)),
    ("fn main(a) { let x = spawn part(a); return 5 }\n" + PART, (3, 0)),
    ("fn main(a) { let x = spawn part(3); return 1 / a }\n" + PART, (0, 0)),
    ("fn main(a) { let x = spawn part(3); return 1 / a + wait x }\n" + PART, (0, 0)),
    ("fn main(a) { let x = spawn part(a); if a { a = 2 } else { return 3 } }\n" + PART, (6, 0)),
    ("fn main(n) { let part = spawn part(n); let other = spawn part(2); return wait part - wait other }\n" + PART, (5, 0)),
)

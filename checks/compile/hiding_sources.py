"""Sources with blocks that declare again a name of a block around them, each with the arguments of its function."""

F = "fn f(x, y) { return x * 10 + y }\n"

HIDING = (
    ("fn main(a, b) { let x = a; if b { let x = x + b; a = x * 10; if a { let x = 5; a += x }; a += x }; return a * 100 + x }\n", (3, 7)),
    ("fn main(a, b) { while a < 20 { let b = a + 1; a = b * 2 }; return a + b }\n", (3, 7)),
    ("fn main(a, b) { if a < b { let a = b; b = a + 1 } else { let b = a; a = b + 2 }; return a * 100 + b }\n", (3, 7)),
    ("fn main(a, b) { if a < b { let a = b; b = a + 1 } else { let b = a; a = b + 2 }; return a * 100 + b }\n", (7, 3)),
    ("fn main(a, b) { let i = 5; for i in 0..b { let i = i * 2; a += i }; return a * 10 + i }\n", (3, 7)),
    ("fn main(a, b) { for a in a..b { for a in a..b { b += a % 2 } }; return a + b }\n", (2, 4)),
    ("fn main(a, b) { let t = spawn f(a, b); if a { let t = 3; a += t }; return wait t + a }\n" + F, (3, 7)),
    ("fn main(a, b) { let t = spawn f(a, b); if a { let t = spawn f(b, a); b = wait t }; return wait t - b }\n" + F, (3, 7)),
    ("fn main(a, b) { let t = 4; if a { let t = spawn f(b, t); b = wait t + t }; return t - b }\n" + F, (3, 7)),
    ("fn main(a, b) { group g; if a { group g; spawn g: f(a, b); a = wait g }; spawn g: f(a, 1); return wait g }\n" + F, (3, 7)),
    ("fn main(a, b) { group g; spawn g: f(a, 1); if a { let g = a; a = g + 1 }; return wait g + a }\n" + F, (3, 7)),
    ("fn main(a, b) { return psum b in 0..a { let c = b; if c { let b = c * c; c = b }; give c + b } }\n", (5, 7)),
    ("fn main(a, b) { if a { let f = 1; let b = call f(f, b); a = b }; return a * 10 + b }\n" + F, (3, 7)),
    ("fn main(a, b) { let min = 3; if a { let min = min(min, a); b = min }; return b * 10 + min }\n", (2, 7)),
)

"""Sources that ask for the status of a group or a task, each with the arguments of its function, and some that cancel what they wait
for, whose status only the compiler in Python knows, too."""

F = "fn f(x, y) { return x * 10 + y }\n"

STATUSES = (
    ("fn main(a, b) { group g; spawn g: f(a, b); spawn g: f(b, a); let x, s = wait g; return x * 10 + s }\n" + F, (3, 7)),
    ("fn main(a, b) { let t = spawn f(a, b); let x, s = wait t; return x * 100 + s * 10 + t - x }\n" + F, (3, 7)),
    ("fn main(a, b) { let t = spawn f(a, b); let u = spawn f(b, a); let x, s = wait u; x += s; let y = wait t; return x * 1000 + y * t + u }\n" + F, (3, 7)),
    ("fn main(a, b) { group g; let x, s = wait g; group h; spawn h: f(a, b); let y, r = wait h; return x + s * 100 + y * 1000 + r }\n" + F, (3, 7)),
    ("fn main(a, b) { let t = spawn f(a, b); let x, s = wait t; t += 1; x = call f(t, x); s = -s; return x + s }\n" + F, (3, 7)),
    ("fn main(a, b) { for i in 0..a { let t = spawn f(i, b); let x, s = wait t; b += x * s }; return b }\n" + F, (3, 7)),
    ("fn main(a, b) { if a { group g; spawn g: f(a, b); let x, s = wait g; a = x - s } else { a = 1 }; return a }\n" + F, (3, 7)),
    ("fn main(a, b) { return psum i in 0..b { group g; spawn g: f(i, 2); let x, s = wait g; give x * s } }\n" + F, (3, 7)),
)

CANCELED = (
    ("fn main(a, b) { group g; spawn g: f(a, b); cancel g; let x, s = wait g; return s }\n" + F, (3, 7)),
    ("fn main(a, b) { let t = spawn f(a, b); cancel t; let x, s = wait t; return s * 10 + (x == t) }\n" + F, (3, 7)),
    ("fn main(a, b) { group g; cancel g; spawn g: f(a, b); let x, s = wait g; group h; let y, r = wait h; return x * 100 + s * 10 + r + y }\n" + F, (3, 7)),
)

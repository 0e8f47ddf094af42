"""Sources with groups of tasks, each with the arguments of its function."""

LESS = "fn less(a, b) { return a - b }\n"
PART = "fn part(n) { return 60 / n }\n"
WAYS = ("fn place(board, row) {\n    if row == 4 { return 1 }\n    group ways\n    for column in 0..4 {\n        let rest = board; let back = 1\n"
        "        while back <= row {\n            let c = rest % 16\n            if column == c || column == c + back || column + back == c { break }\n"
        "            rest /= 16; back += 1\n        }\n        if back > row { spawn ways: place(board * 16 + column, row + 1) }\n    }\n"
        "    return wait ways\n}\n")

GROUPS = (
    ("fn main(n) { group g; for i in 0..n { spawn g: less(i, 1) }; return wait g }\n" + LESS, (6, 0)),
    ("fn main(n) { group g; return wait g }\n", (6, 0)),
    ("fn main(n) { group g; spawn g: less(n, 1); wait g; return n }\n" + LESS, (6, 0)),
    ("fn main(n) { group g; spawn g: less(n, 1); let x = wait g; return x * 10 + n }\n" + LESS, (6, 0)),
    ("fn main(n) { group g; spawn g: less(n, 1); spawn g: less(n, 2); n = wait g; n += 1; return n }\n" + LESS, (6, 0)),
    ("fn main(a, b) { group g; group h; spawn g: less(a, 1); spawn h: less(b, 1); let x = wait h; let y = wait g; return x * 100 + y }\n" + LESS, (6, 2)),
    ("fn main(a, b) { group g; let t = spawn less(a, b); spawn g: less(b, a); sync; a = wait g; return a * 100 + t }\n" + LESS, (6, 2)),
    ("fn main(a, b) { group g; let t = spawn less(a, b); spawn g: less(wait t, a); let x = wait g; return t * 100 + x }\n" + LESS, (6, 2)),
    ("fn main(a, b) { let sum = 0; for i in 0..a { group g; spawn g: less(i, b); spawn g: less(b, 1); if i == 3 { continue }; if i == 5 { break }; "
     "let x = wait g; sum += x }; return sum }\n" + LESS, (7, 2)),
    ("fn main(a, b) { group g; while a > 0 { a -= 1; if a == 3 { spawn g: less(a, 1) } else if a % 2 { spawn g: less(a, b) } }; "
     "let x = wait g; group h; spawn h: less(x, 1); return wait h }\n" + LESS, (9, 4)),
    ("fn main(a, b) { for i in 0..3 { group g; spawn g: less(i, 1); b = wait g; group h; for j in 0..i { spawn h: less(j, b) }; wait h }; return b }\n" + LESS, (9, 4)),
    ("fn main(a, b) { group g; spawn g: less(a, b); return a * b }\n" + LESS, (9, 4)),
    ("fn main(a, b) { group g; spawn g: less(a, b); if a { return 7 } }\n" + LESS, (9, 4)),
    ("fn main(a, b) { group g; spawn g: part(a); return 5 }\n" + PART, (0, 0)),
    ("fn main(a, b) { group g; spawn g: part(a); spawn g: part(3); return 1 / b }\n" + PART, (2, 0)),
    ("fn main(a, b) { group g; group h; group k; spawn h: part(4); let x = wait h; group l; spawn l: part(x); let y = wait l; return x * 100 + y }\n" + PART, (2, 0)),
    ("fn main(a, b) { group g; let x = a; spawn g: part(x); let y = wait g; let z = y + x; return z * 10 }\n" + PART, (2, 0)),
    ("fn main() { return call place(0, 0) }\n" + WAYS, (0, 0)),
    ("fn main(a, b) { group g; group h; group k; group l; for i in 0..a { spawn l: part(i + 1); spawn k: part(i + 2) }; spawn g: part(a); "
     "let s = wait l; s = s * 10 + isolate part(3); s += wait k * 100; spawn h: part(s); return s + wait h + wait g }\n" + PART, (3, 5)),
    ("fn main(a, b) { group g; group h; group k; group l; spawn l: part(a); if a == 3 { let s = isolate part(6); return s * b }; return 1 }\n" + PART, (3, 5)),
    ("fn main(a, b) { group g; spawn g: part(a); cancel g; wait g; return b }\n" + PART, (3, 5)),
    ("fn main(a, b) { let x = spawn part(a); group g; spawn g: part(a); if b { cancel x; cancel g; return b }; wait g; return wait x }\n" + PART, (3, 5)),
    ("fn main(a, b) { let x = spawn part(a); group g; spawn g: part(a); if b { cancel x; cancel g; return b }; let y = wait g; return wait x + y }\n" + PART, (3, 0)),
    ("fn main(a, b) { let found = 0; while a < 9 { let x = spawn part(a); let y = spawn part(a + 1); found = wait x; "
     "if found < 12 { cancel y; break }; found = wait y; a += 2 }; return found }\n" + PART, (2, 5)),
)

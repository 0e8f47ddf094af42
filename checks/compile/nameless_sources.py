"""Sources with tasks that have no name and no group, each with the arguments of its function, and what the cells sum up to in the
end by their keys."""

ADD = "fn add(x) { c.local += x }\n"
F = "fn f(x, y) { return x * 10 + y }\n"

NAMELESS = (
    ("cell c\nfn main(a, b) {\n    for i in a..b { spawn add(i) }\n    sync\n    let x = c.sum\n    spawn add(100)\n    if a { spawn add(x); sync }\n"
     "    return x * 1000 + c.sum\n}\n" + ADD, (3, 7), {0: 136}),
    ("cell c\nfn main(a, b) { spawn add(a); spawn add(b) }\n" + ADD, (3, 7), {0: 10}),
    ("cell c\nfn main(a, b) {\n    spawn add(a)\n    if b > 3 { spawn add(b); return call f(b, a) - 1 }\n    spawn add(100)\n    return 1\n}\n" + ADD + F, (3, 7), {0: 10}),
    ("cell c\nfn main(a, b) {\n    spawn add(a)\n    if b > 3 { spawn add(b); return call f(b, a) - 1 }\n    spawn add(100)\n    return 1\n}\n" + ADD + F, (3, 2), {0: 103}),
    ("cell c\nfn main(a, b) {\n    let t = spawn f(a, b)\n    group g\n    spawn g: f(b, a)\n    spawn add(1)\n    call add(2)\n    spawn g: f(1, 2)\n"
     "    sync\n    let x = c.sum\n    return (x * 1000 + t) * 1000 + wait g\n}\n" + ADD + F, (3, 7), {0: 3}),
    ("cell c\nfn main(a, b) {\n    while 1 {\n        spawn add(a)\n        a += 1\n        if a == 5 { continue }\n        if a > b { break }\n        spawn add(100)\n"
     "    }\n    return a\n}\n" + ADD, (3, 7), {0: 325}),
    ("cell c\nfn main(n) {\n    c.local += n\n    if n > 0 { spawn main(n - 1) }\n    return n\n}\n", (5, 0), {0: 15}),
    ("cell c\nfn main(a, b) {\n    return psum i in a..b grain 1 {\n        spawn add(i)\n        if i % 2 { spawn add(100); give 1 }\n        give i\n    }\n}\n" + ADD, (3, 7), {0: 218}),
    ("fn main(a, b) { spawn f(a); return 3 }\nfn f(x) { return 1 / (x - 3) }\n", (3, 7), {}),
    ("fn main(a, b) { spawn f(a, b); sync; spawn f(b, a); return a + b }\n" + F, (3, 7), {}),
)

"""Sources with lines that are broken, each with the arguments of its function, and drawn ones."""
import random
import re

WIDE = ("const N = 2 *\n    -3\nfn main(a, b) {\n    let sum = a +   # the first\n        b *\n\n        // and twice\n        2\n    sum +=\n        N\n"
        "    sum = sum -\n        1; b =\n        3\n    return sum <<\n        b\n}\n")
GIVEN = ("fn main(a, b) {\n    let x = call f(\n        a,\n        b -\n            1\n    )\n    let t = spawn f(x\n        , (a\n        + b))\n    return (wait t\n"
         "        - x) * (cancelled(\n    ) < 1)\n}\nfn f(x, y) {\n    return x * 10 + y\n}\n")
INSIDE = ("fn main(a, b) {\n    let x = (a + psum i in 0..b grain 2 {\n        let half = (i +\n            1\n        ) / 2\n        if half > 2 {\n            give (\n                half\n"
          "            )\n        }\n        give 1\n    } -\n        7)\n    return x\n}\n")
SKIPPED = "fn main(a, b) {\n    if a < 3 &&\n        b > 3 ||\n        (a ==\n        b) { return 1 } else if (a\n        > b) { return 2 }\n    while (\n        a < 20\n    ) { a +=\n        b }\n    return a\n}\n"
BELOW = ("fn main(a, b) {\n    if a < 3 { b += 1 }\n\n    # or\n    else if a < 5 {\n        if b < 3 { return 1 };\n        else { b += 2 }\n"
         "    }\n    else { if b > 9 { b = 0 }\n\n        b += 3\n    }\n    return b\n}\n")

BROKEN = (
    (WIDE, (3, 7)),
    (GIVEN, (3, 7)),
    (INSIDE, (3, 7)),
    (SKIPPED, (1, 4)),
    (SKIPPED, (5, 5)),
    (SKIPPED, (7, 3)),
    (SKIPPED, (7, 9)),
    ("cell c\nfn main(a, b) {\n    c.local =\n        a\n    c.local +=\n        b; let x =\n        c.local\n    return -\t(\n        x)\n}\n", (3, 7)),
    (BELOW, (2, 1)),
    (BELOW, (4, 2)),
    (BELOW, (4, 5)),
    (BELOW, (9, 12)),
    ("fn main(a, b) {\n    let x = (psum i in 0..a {\n        if i % 2 { give i }\n        else { give\t10 }\n    })\n    if x { return x }\n\n}\n", (3, 7)),
    ("fn main(a, b) {\n    if b < 3 { }\n    # next\n    else if call f(b) > 3 { a = call f(a) }\n    return a\n}\nfn f(x) { return x + 1 }\n", (3, 7)),
    ("inline fn f(x, y) =\n    x -\n    y\nfn main(a, b) { return f(\na,\nb)\n}\n", (3, 7)),
    ("fn main(a, b) {\n    for i in (a\n        )..(\n        b) { a += i }\n    return a\n}\n", (3, 7)),
)

FURTHER = (
    ("fn main(\n    a,\n    b\n) {\n    for i in 0..\n        b step 2 { a += i }\n    return a\n}\n", (3, 7)),
    ("fn main(a, b) {\n    return psum i in\t0..\n        # to here\n        b { give i *\n        3 }\n}\n", (3, 7)),
    ("inline fn f(\n    x,\n    y) = (x\n    * y)\nfn main(a,\n    b) {\n    return f(a, b)\n}\n", (3, 7)),
    ("fn main(a, b) {\n    return call f(a, b)\n}\nfn f(x: u8,\n    y\n    : u9) {\n    return x - y\n}\n", (3, 7)),
)
"""Sources with lines that are broken where the interpreter takes none that is."""

BREAKS = re.compile(r" (?:&&|\|\||[=!<>]=|<|>|(?:[-+*/%&|^]|<<|>>)?=|[-+*/%&|^]|<<|>>) |\(|(?=\))")
"""Behind these a line may be broken, and before `)`."""

ITEMS = ("fn ", "inline ", "const ", "param ", "cell ", "#")


def broken(source: str, draws: random.Random) -> str:
    """The same source, with some lines of its functions broken."""
    def perhaps(found: re.Match[str]) -> str:
        return found.group() + draws.choice(("", "", "", "\n        ", "  # on\n", "\n\n\t"))

    return "".join(line if line.startswith(ITEMS) else BREAKS.sub(perhaps, line) for line in source.splitlines(keepends=True))

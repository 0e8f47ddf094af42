"""Sources whose params are given numbers, each with the arguments of its function and these numbers, and drawn ones."""
import random
import re
from collections.abc import Mapping

NUMBERS = ("0", "1", "-1", "7", "9223372036854775807", "-9223372036854775808")

SCALED = "param N = 4  # how many\nconst M = N + 1\nparam K = M * N\nfn main(a, b) {\n    return a * N + b * M + K\n}\n"
LOOPS = ("param STEP = 1\nparam GRAIN = 4\nfn main(a, b) {\n    let x = 0\n    for i in a..b step STEP { x += i }\n"
         "    return x + psum i in a..b step STEP grain GRAIN { give i * i }\n}\n")
INSERTED = "param N = 2\ninline fn f(x) = x / N\nfn main(a, b) { return call g(b) + f(a) }\nfn g(x: u8) { return x % N }\n"
NAMED = "const n = 1\nparam N = 2; param NN = 3\n\n\nparam\t_n1 = N\nfn main(a, b) {\n    return ((n * 10 + N) * 10 + NN) * 10 + _n1\n}\n"

GIVING = (
    (SCALED, (3, 7), {}),
    (SCALED, (3, 7), {"N": -2}),
    (SCALED, (3, 7), {"K": 5}),
    (SCALED, (3, 7), {"K": 5, "N": 2**63 - 1}),
    (LOOPS, (2, 11), {"STEP": 3}),
    (LOOPS, (2, 11), {"STEP": 2, "GRAIN": 1}),
    (INSERTED, (40, 9), {"N": 5}),
    (NAMED, (0, 0), {"N": 5}),
    (NAMED, (0, 0), {"NN": 6, "_n1": 7}),
    ("param N = 1\nfn main(a, b) {\n    if N { return a }\n    return b\n}\n", (3, 7), {"N": 0}),
    ("param min = 1\nfn main(a, b) { return min(a, b) + min }\n", (3, 7), {"min": 40}),
)

PARAM = re.compile(r"(\bparam[ \t]+(\w+) = )[^\n;#]*")


def given_in(source: str, givens: Mapping[str, int]) -> str:
    """The same source, with these numbers in place of those that its params have in it."""
    return PARAM.sub(lambda it: it[1] + str(givens[it[2]]) if it[2] in givens else it[0], source)


def given_to(source: str, draws: random.Random) -> dict[str, int]:
    """Numbers for some of its params."""
    names = [it[2] for it in PARAM.finditer(source) if draws.random() < 0.7]
    return {it: int(draws.choice((*NUMBERS, str(draws.randint(-9, 9))))) for it in names}

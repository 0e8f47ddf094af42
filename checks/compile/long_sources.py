"""Sources that are nearly as long as one may be, in each of the ways that have the compiler go on and on: with the words for
arena-compile, its status, its output, and standard error up to a colon and a space."""
MOST = 65_536
"""How many bytes a source may have."""

ROOT = "fn main(n) { return n }\n"
FIVE = ('{"job":1,"status":"complete","value":5}\n', "")


def padded(before: str, pad: str, behind: str) -> str:
    """A source that has the pad between these as often as it may be there."""
    return before + pad * ((MOST - len(before) - len(behind)) // len(pad)) + behind


LONG = (
    (padded("", "\n", ROOT), ("--serial", 5), 0, FIVE),
    (padded("", " ", ROOT), ("--serial", 5), 0, FIVE),
    (padded("#", "x", f"\n{ROOT}"), ("--serial", 5), 0, FIVE),
    (padded("fn main(n) { ", ";", "return n }\n"), ("--serial", 5), 0, FIVE),
    (padded("fn main(n) { return n - ", "0", " }\n"), ("--serial", 5), 0, FIVE),
    (padded("".join(f"const C{number} = {number}\n" for number in range(100)), "\n", "fn main(n) { return C99 - n }\n"), ("--serial", 94), 0, FIVE),
    (padded("#", "x", "\nfn main(n) { return q }\n"), (), 1, ("", "2:21")),
    (padded("", "\n", "fn main(n) { return q }\n"), (), 1, ("", f"{MOST - 23}:21")),
    (padded(ROOT, "a ", ""), (), 1, ("", "2:1")),
    (padded("", "fn f() { }\n", ""), (), 1, ("", "2:4")),
    (padded(f"{ROOT}# ", "x", "x"), ("--serial", 5), 0, FIVE),
)

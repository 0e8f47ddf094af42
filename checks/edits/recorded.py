"""What the prover said of functions, as it was printed, and whether each of them is refused for a goal of its own."""
from prover import Said

FILE = "src/nests.rt"
TEXTS = {FILE: "impl Nests {\n    pub fn pop(&mut self) {\n    }\n}\n\nfn highest_task() {\n}\n"}
NOTE = "note: src/nests.rt:{}: it is not proved that what the function ensures holds when it returns (`returns-then-node`)\n"
NAME = "./proofs/nests/highest_task/Answers.antt:23:9: error: `loop-node`: record `After` has no field `if-node`\n"
GOAL = "./proofs/nests/Nests/pop/Answers.antt:7:1: error: `returns-clause-height`: as printed, the two types differ\n"
SEARCHED = "no proof: expected answers in ./proofs/nests/highest_task/Answers.antt; `search` did not prove `returns-then-node`"
CALLS = "it calls `nest_stack::nests::Nests::pop`, which is not proved"
STUB = "it calls `nest_stack::nests::Nests::top`, which is not proved"
HOLE = "depends on a hole in `Rattle.nest_stack.proofs.nests.Nests.top.Proof.top_spec`"
# the function whose wrong body stands beside
OTHERS = ["nests::Nests::pop"]

# what stands before the verdict, the function, its verdict, and whether it is refused
RECORDED = (
    ("", "nests::highest_task", "no holes", False),
    ("", "nests::highest_task", HOLE, False),
    ("", "nests::highest_task", "could not tell", False),
    ("", "nests::highest_task", SEARCHED, True),
    (NAME, "nests::highest_task", "not proved", False),
    (NAME + NOTE.format("6:1"), "nests::highest_task", "not proved", True),
    (NAME + NOTE.format("7:1"), "nests::highest_task", "not proved", True),
    (NAME + NOTE.format("3:5"), "nests::highest_task", "not proved", False),
    (GOAL, "nests::Nests::pop", "not proved", True),
    (GOAL, "nests::highest_task", "not proved", False),
    ("", "nests::highest_task", f"no proof: {CALLS}", False),
    (NOTE.format("6:1"), "nests::highest_task", f"not proved; {CALLS}", True),
    ("", "nests::highest_task", f"{SEARCHED}; {CALLS}", True),
    ("", "nests::highest_task", f"{SEARCHED}; {STUB}", True),
    ("", "nests::highest_task", f"no proof: {STUB}", False),
)
# a verdict, and whether it may be for the other function alone
HIDING = ((f"no proof: {CALLS}", True), (f"no proof: {STUB}", False), (HOLE, False))


def wrong_readings() -> list[str]:
    """Returns the recorded functions that are read otherwise than they were meant."""
    wrong = []
    for before, function, verdict, is_refused in RECORDED:
        if said_of(function, verdict, before).is_refused(FILE, function) != is_refused:
            wrong.append(f"recorded.py: {function}: {verdict}: should be {'' if is_refused else 'not '}refused")
    for verdict, is_hidden in HIDING:
        if said_of("nests::highest_task", verdict).is_hidden("nests::highest_task", OTHERS) != is_hidden:
            wrong.append(f"recorded.py: {verdict}: should {'' if is_hidden else 'not '}be tried again")
    return wrong


def said_of(function: str, verdict: str, before: str = "") -> Said:
    """Returns what was said of one function."""
    return Said("nest_stack", TEXTS, f"{before}fn nest_stack::{function}: {verdict}\nonly=1 holes=0\n")

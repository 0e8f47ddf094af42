"""Jobs that were written by hand as instructions, each with a source of the same work."""
from dataclasses import dataclass

SUM = [[
    ["set", 7, 100], ["sub", 2, 1, 0], ["lt", 3, 7, 2], ["jz", 3, 11],
    ["add", 4, 0, 1], ["set", 5, 2], ["div", 4, 4, 5], ["spawn", 0, 0, 0, 4], ["spawn", 0, 0, 4, 1],
    ["wait", 2, 3, 0], ["ret", 2],
    ["set", 2, 0], ["set", 7, 1],
    ["lt", 3, 0, 1], ["jz", 3, 18], ["add", 2, 2, 0], ["add", 0, 0, 7], ["jmp", 13],
    ["ret", 2],
]]

# place(board, row): the board is in digits of base 8, the newest queen lowest
QUEENS = [[
    ["set", 7, 6], ["sub", 6, 7, 1], ["jz", 6, 38], ["set", 2, 0],
    ["set", 7, 6], ["lt", 6, 2, 7], ["jz", 6, 36], ["set", 7, 0], ["add", 3, 0, 7], ["set", 4, 0],
    ["lt", 6, 4, 1], ["jz", 6, 27], ["set", 7, 1], ["add", 4, 4, 7], ["set", 7, 8], ["div", 6, 3, 7],
    ["mul", 5, 6, 7], ["sub", 5, 3, 5], ["set", 7, 0], ["add", 3, 6, 7], ["sub", 5, 2, 5], ["jz", 5, 33],
    ["sub", 6, 5, 4], ["jz", 6, 33], ["add", 6, 5, 4], ["jz", 6, 33], ["jmp", 10],
    ["set", 7, 8], ["mul", 5, 0, 7], ["add", 5, 5, 2], ["set", 7, 1], ["add", 6, 1, 7], ["spawn", 0, 0, 5, 6],
    ["set", 7, 1], ["add", 2, 2, 7], ["jmp", 4],
    ["wait", 2, 3, 0], ["ret", 2],
    ["set", 2, 1], ["ret", 2],
]]

PRIMES = [[
    ["set", 6, 16], ["sub", 2, 1, 0], ["lt", 3, 6, 2], ["jz", 3, 11],
    ["add", 4, 0, 1], ["set", 5, 2], ["div", 4, 4, 5], ["spawn", 0, 0, 0, 4], ["spawn", 0, 0, 4, 1],
    ["wait", 2, 3, 0], ["ret", 2],
    ["set", 2, 0], ["set", 6, 1],
    ["lt", 4, 0, 1], ["jz", 4, 31], ["lt", 4, 6, 0], ["jz", 4, 29], ["set", 3, 2],
    ["mul", 4, 3, 3], ["lt", 4, 0, 4], ["jz", 4, 22], ["jmp", 28],
    ["div", 4, 0, 3], ["mul", 4, 4, 3], ["sub", 4, 0, 4], ["jz", 4, 29], ["add", 3, 3, 6], ["jmp", 18],
    ["add", 2, 2, 6], ["add", 0, 0, 6], ["jmp", 13],
    ["ret", 2],
]]

# an x with x * x mod 10007 = 4096, by halves in two groups; if the left one has it, the right one is cancelled
SEARCH = [[
    ["set", 6, 32], ["sub", 2, 1, 0], ["lt", 3, 6, 2], ["jz", 3, 16],
    ["add", 4, 0, 1], ["set", 5, 2], ["div", 4, 4, 5], ["spawn", 0, 0, 0, 4], ["spawn", 1, 0, 4, 1],
    ["wait", 2, 3, 0], ["jz", 2, 14], ["cancel", 1], ["wait", 4, 3, 1], ["ret", 2],
    ["wait", 2, 3, 1], ["ret", 2],
    ["ask", 2], ["jz", 2, 19], ["jmp", 31],
    ["set", 6, 1], ["set", 5, 10007], ["set", 7, 4096],
    ["lt", 2, 0, 1], ["jz", 2, 31], ["mul", 2, 0, 0], ["div", 3, 2, 5], ["mul", 3, 3, 5], ["sub", 2, 2, 3],
    ["sub", 2, 2, 7], ["jz", 2, 33], ["jmp", 34],
    ["set", 2, 0], ["ret", 2],
    ["ret", 0],
    ["add", 0, 0, 6], ["jmp", 22],
]]

# a row of a region keeps its argument in its slot's cell while it waits for 8 rows of work
KEEPER = [
    [["isolate", 2, 1, 0, 1], ["ret", 2]],
    [["store", 0, 0], ["set", 2, 8], ["set", 3, 1],
     ["spawn", 0, 2, 0, 2], ["sub", 2, 2, 3], ["jz", 2, 7], ["jmp", 3],
     ["wait", 4, 5, 0], ["load", 6, 0], ["sub", 6, 6, 0], ["jz", 6, 13], ["set", 7, -1], ["ret", 7],
     ["set", 7, 1], ["ret", 7]],
    [["set", 2, 600], ["set", 3, 1], ["sub", 2, 2, 3], ["jz", 2, 5], ["jmp", 2], ["ret", 2]],
]

KEEPER_SOURCE = """
cell mine
fn main(value) { return isolate keep(value) }
fn keep(value) {
    mine.local = value
    group work
    for i in 0..8 { spawn work: turns(600) }
    wait work
    if mine.local == value { return 1 }
    return -1
}
fn turns(n) {
    while n > 0 { n -= 1 }
}
"""


@dataclass(frozen=True)
class ByHand:
    """A job by hand, its arguments and value, and the name of the example, or the source, of the same work."""

    procs: list
    args: tuple[int, int]
    value: int
    example: str = ""
    source: str = ""


BY_HAND = {
    "sum": ByHand(SUM, (0, 10_000), 49_995_000, "sum.job"),
    "queens": ByHand(QUEENS, (0, 0), 4, "queens.job"),
    "primes": ByHand(PRIMES, (0, 2_000), 303, "primes.job"),
    "search": ByHand(SEARCH, (1, 6_000), 64, "search.job"),
    "keeper": ByHand(KEEPER, (77, 0), 1, source=KEEPER_SOURCE),
}

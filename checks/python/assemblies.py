"""Assemblies with their jobs, worked out by the rules in `arena.assembler`, and assemblies that are refused, with what
is said of them."""

ASSEMBLIES = [
    ("proc main\n ret r0", {"args": [0, 0], "fuel": 1_000_000, "procs": [[["ret", 0]]]}),
    ("args -1 9_000\nfuel 7\nproc main ; a comment\n ret r7 # another",
     {"args": [-1, 9000], "fuel": 7, "procs": [[["ret", 7]]]}),
    # a new name takes the lowest register that has no name and is not written by its number
    ("""
N = 6
proc main(x, y)
        set a N
        set r2, 1
        add b a x
        free a
        set c -3
        ret b
""", {"args": [0, 0], "fuel": 1_000_000, "procs": [[
        ["set", 3, 6], ["set", 2, 1], ["add", 4, 3, 0], ["set", 3, -3], ["ret", 4]]]}),
    # without names for the arguments, a new name may take their registers
    ("proc main\nset a 1\nset b 2\nret a", {"args": [0, 0], "fuel": 1_000_000, "procs": [[
        ["set", 0, 1], ["set", 1, 2], ["ret", 0]]]}),
    # labels before an instruction and alone; groups of a procedure, cells of the job, procedures before they are there
    ("""
proc main(n, m)
top:    jz n out
        spawn work other n m
        spawn g1 1 n m
        wait t s work
        store seen t
        jmp top
out:
        load u seen
        ret u
proc other(x)
        spawn extra main x x
        wait v v extra
        sum w k0
        count w here
        ret w
""", {"args": [0, 0], "fuel": 1_000_000, "procs": [
        [["jz", 0, 6], ["spawn", 0, 1, 0, 1], ["spawn", 1, 1, 0, 1], ["wait", 2, 3, 0], ["store", 1, 2], ["jmp", 0],
         ["load", 4, 1], ["ret", 4]],
        [["spawn", 0, 0, 0, 0], ["wait", 1, 1, 0], ["sum", 2, 0], ["count", 2, 2], ["ret", 2]]]}),
]

REFUSALS = [
    ("", "a:1:1: there is no procedure: write `proc main(x, y)` and its instructions"),
    ("ret r0", "a:1:1: `ret` stands before the first procedure: write `proc main(x, y)` above it"),
    ("proc", "a:1:1: expected `proc NAME`, or `proc NAME(x, y)` with names for the two arguments"),
    ("proc a(x, x)\nret x", "a:1:11: a has two arguments x: rename one"),
    ("proc a\nset r0 " + "9" * 5000 + "\nret r0", "a:2:8: the number of `set` is from -9223372036854775808 to "
     "9223372036854775807, not " + "9" * 40 + ".."),
    ("proc a\nset r0 -" + "9" * 5000 + "\nret r0", "a:2:8: the number of `set` is from -9223372036854775808 to "
     "9223372036854775807, not -" + "9" * 39 + ".."),
    ("proc a\nret r\u00b2", "a:2:1: ret takes 1 operand, and here are 2: a register"),
    ("proc a\nspawn g\u0661 a r0 r0\nret r0", "a:2:1: spawn takes 4 operands, and here are 5: a group, a procedure, a "
     "register and a register"),
    ("proc a\nset r0 \u0663\nret r0", "a:2:8: the number of `set` is a number, and `\u0663` is none"),
    ("proc a(x, y, z)\nret x", "a:1:7: expected the names of up to two arguments in parentheses"),
    ("proc a(r1)\nret r1", "a:1:8: r1 is another register than that of this argument, r0"),
    ("proc a\nret r0\nproc a\nret r0", "a:3:6: there is a procedure a already: choose another name"),
    ("\n".join(f"proc a{it}\nret r0" for it in range(17)), "a:33:6: a job has at most 16 procedures"),
    ("proc a\n", "a:1:6: a has 0 instructions, and a procedure has 1 to 256"),
    ("proc a\n" + "ret r0\n" * 257, "a:1:6: a has 257 instructions, and a procedure has 1 to 256"),
    ("proc a\n  set r0 1", "a:2:3: the last instruction of a is ret or jmp, not set: add `ret` of a register"),
    ("proc a\nret r0\nend:", "a:1:6: the label end of a stands before no instruction"),
    ("proc a\njmp there", "a:2:5: there is no label there in a; there is none"),
    ("proc a\nhere: jz r0 there\njmp here", "a:2:13: there is no label there in a; there is here"),
    ("proc a\nhere: here: ret r0", "a:2:7: the label here is there already in a: choose another name"),
    ("proc a\n1: ret r0", "a:2:1: `1` is no name for a label"),
    ("proc a\nmove r0 r1", "a:2:1: there is no instruction move"),
    ("proc a\n ssub r0 r0 r1", "a:2:2: there is no instruction ssub; did you mean sub?"),
    ("proc a\nadd r0 r1", "a:2:1: add takes 3 operands, and here are 2: a register, a register and a register"),
    ("proc a\nret x", "a:2:5: the register x is read before it is written; there is no name yet"),
    ("proc a(p)\nret x", "a:2:5: the register x is read before it is written; there is p"),
    ("proc a\nret r8", "a:2:5: expected a register, r0 to r7 or a name, found `r8`"),
    ("proc a\ncancel 0\nret r0", "a:2:8: expected a group, g0 to g3 or a name, found `0`"),
    ("proc a\n" + "".join(f"set x{it} 0\n" for it in range(9)) + "ret r0",
     "a:9:5: no register is left for x7: there are 8, and names have x0, x1, x2, x3, x4, x5 and x6; end one by `free`, "
     "or reuse one"),
    ("proc a\n" + "".join(f"cancel x{it}\n" for it in range(5)) + "ret r0",
     "a:6:8: no group is left for x4: there are 4, and names have x0, x1, x2 and x3; reuse one"),
    ("proc a\nfree x\nret r0", "a:2:6: no register is called x"),
    ("proc a\nfree\nret r0", "a:2:1: `free` takes the names of registers"),
    ("proc a\nset r0 N\nret r0", "a:2:8: there is no constant N: write `N = 0` above, or a number"),
    ("proc a\nset r0 9223372036854775808\nret r0",
     "a:2:8: the number of `set` is from -9223372036854775808 to 9223372036854775807, not 9223372036854775808"),
    ("proc a\nset r0 :\nret r0", "a:2:8: the number of `set` is a number, and `:` is none"),
    ("N = x\nproc a\nret r0", "a:1:5: a constant is a number, and `x` is none"),
    ("proc a\nspawn g0 b r0 r0\nret r0", "a:2:10: there is no procedure b; there is a"),
    ("proc a\nspawn g0 1 r0 r0\nret r0", "a:2:10: a procedure is from 0 to 0, not 1"),
    ("args 1\nproc a\nret r0", "a:1:1: `args` takes 2 numbers, and here is 1"),
    ("fuel 0\nproc a\nret r0", "a:1:6: `fuel` is from 1 to 1000000, not 0"),
]

"""Sources that are refused, each with what is said of it."""
from dataclasses import dataclass, field


@dataclass(frozen=True)
class Refused:
    """A source, the parameters given with it, and the words of its refusal without the name of the file; `{}` in them is
    any number."""

    source: str
    words: str
    parameters: dict = field(default_factory=dict)


def main(*lines):
    """A source with these lines in its `main(n)`, from line 2 and column 5 on."""
    return "fn main(n) {\n" + "".join(f"    {line}\n" for line in lines) + "}\nfn f(x) { return x }\n"


def doubled(body, count):
    """A source whose inline functions each insert the one before it twice."""
    return "fn main(n) { return g" + f"{count}(n) }}\ninline fn g0(x) = x + 1\n" + "".join(
        f"inline fn g{number}(x) = {body.format(f'g{number - 1}')}\n" for number in range(1, count + 1))


def spawns(count):
    """A line that spawns so many tasks."""
    return "group g; " + "; ".join(["spawn g: f(n)"] * count)


GROUPS_FULL = ("a procedure has 4, and they are taken by a, b, c and d; spawn several tasks into one group, or wait "
               "for one first")
FOUR_TASKS = tuple(f"let {name} = spawn f(n)" for name in "abcd")
ONE_TOO_MANY = "".join(f"fn f{number}() {{ }}\n" for number in range(17))
LONG = "fn main(n) { return n }\n" + "".join(
    f"fn f{number}(n) {{ group g; {'; '.join(['spawn g: main(n)'] * 250)} }}\n" for number in range(15))

INLINED = ("fn main(a, b) {\n    let c = a / b\n    let d = b / a\n    let e = a / c\n    let f = a / d\n    let g = c / d\n"
           "    return far(c, d) + a + b + c + d + e + f + g\n}")

REFUSED = [
    # tokens
    Refused('fn main() { return "a" }', ':1:20: unexpected character `"`: there are no texts, only numbers'),
    Refused("fn main() {\n    return 3x\n}", ":2:12: unexpected character `3`: a number must not end in letters"),
    Refused("fn main() { return 1 ? 2 }", ":1:22: unexpected character `?`: write `if`, as a statement"),
    Refused("fn main() { return 1 $ 2 }", ":1:22: unexpected character `$`: leave it out"),
    Refused("fn main() { return [1] }", ":1:20: unexpected character `[`: there are no lists"),
    Refused("fn main() { return \u0663 }", ":1:20: unexpected character `\u0663`: a number is written with the digits 0 to 9"),
    Refused("fn main(r) { return r\u00b2 }", ":1:22: unexpected character `\u00b2`: a number is written with the digits 0 to 9"),
    # the grammar
    Refused("let x = 1", ":1:1: expected fn, inline fn, const, param or cell, found `let`"),
    Refused("fn main( { }", ":1:10: expected the name of a parameter, found `{`"),
    Refused("fn while() { }", ":1:4: expected the name of a function, found `while`, which is a word of the language "
            "and no name"),
    Refused("fn main()", ":1:10: expected `{`, found the end of the line"),
    Refused("fn main() {\n    return 1\n", ":1:11: this `{` has no `}`"),
    Refused("fn main() { } fn f() { }", ":1:15: expected the end of the line, found `fn`: each fn begins on a line of "
            "its own, outside of all braces"),
    Refused(main("fn g() { }"), ":2:5: expected an expression, found `fn`: each fn begins on a line of its own, outside of "
            "all braces"),
    Refused(main("if n = 1 { return 1 }"), ":2:10: expected `{`, found `=`: to compare, write `==`"),
    Refused(main("return n = 1"), ":2:14: expected the end of the statement, found `=`: to compare, write `==`"),
    Refused(main("n++"), ":2:6: there is no `++`: write `n += 1`"),
    Refused(main("n--"), ":2:6: there is no `--`: write `n -= 1`"),
    Refused(main("return n << << 2"), ":2:17: expected an expression, found `<<`"),
    Refused(main("return 1.5"), ":2:13: expected the end of the statement, found `.`: there are only whole numbers"),
    Refused(main("let x: int = 1"), ":2:10: expected `=`, found `:`: a variable has no type"),
    Refused(main("for i in 0..n step 0 { }"), ":2:24: the step of a `for` is a constant that is not 0"),
    Refused(main("for i in 0..n step n { }"), ":2:24: the step of a `for` is a constant that is not 0"),
    Refused(main("return psum i in 0..n step 0 { give 1 }"), ":2:32: the step of a psum is a constant from 1 to 1048576"),
    Refused(main("return pmin i in 0..n step 1048577 { give 1 }"), ":2:32: the step of a pmin is a constant from 1 to 1048576"),
    Refused(main("return min(n)"), ":2:12: min takes 2 arguments or more, and here is 1"),
    Refused(main("return abs(n, 1)"), ":2:12: abs takes 1 argument, and here are 2"),
    Refused(main("return 'a'"), ":2:12: unexpected character `'`: a character is written as its number, here 97"),
    Refused(main("return 'ab'"), ":2:12: unexpected character `'`: there are no texts, only numbers"),
    Refused(main("return 10ms"), ":2:12: unexpected character `1`: there are no times, only numbers without a unit"),
    Refused(main("if n { return 1 } return 2"), ":2:23: expected the end of the statement, found `return`: begin a new line, "
            "or write `;`"),
    Refused(main("print(n)"), ":2:5: `print` begins no statement: a job prints nothing: `return` what it found"),
    Refused(main("f(n)"), ":2:5: this value goes nowhere: an fn is run by `call f(..)` or `spawn f(..)`, and the value of an "
            "inline fn needs a name, as in `let name = ..`"),
    Refused(main("return true"), ":2:12: there is no true: write 1"),
    Refused(main("return false"), ":2:12: there is no false: write 0"),
    Refused(main("let x 1"), ":2:11: expected `=`, found `1`"),
    Refused(main("return (n"), ":3:1: expected `)`, found `}`"),
    Refused(main("return n n"), ":2:14: expected the end of the statement, found `n`"),
    Refused(main("return n +"), ":3:1: expected an expression, found `}`"),
    Refused(main("return n + ;", "return 1"), ":2:16: expected an expression, found the end of the line"),
    Refused(main("let x = ; 1"), ":2:13: expected an expression, found the end of the line"),
    Refused(main("for i in 1 { }"), ":2:16: expected `..` and the end of the range, found `{`"),
    Refused(main("for i in range(n) { }"), ":2:14: there is no `range(..)`: write both ends, as in `0..n`"),
    Refused(main("return psum i in range(0, n) { give i }"),
            ":2:22: there is no `range(..)`: write both ends, as in `0..n`"),
    Refused(main("return n ** 2"), ":2:14: expected the end of the statement, found `**`: there is no operator for "
            "powers: multiply, as in `n * n`"),
    Refused(main("if n { return 1 } elif n < 2 { return 2 }"),
            ":2:23: expected the end of the statement, found `elif`: write `else if`"),
    Refused(main("if n {", "    return 1", "}", "elif (n < 2) {", "    return 2", "}"),
            ":5:5: `elif` begins no statement: write `else if`"),
    Refused(main("retrun n"), ":2:5: `retrun` begins no statement; did you mean `return`?"),
    Refused(main("total n"), ":2:5: `total` begins no statement: an assignment is `name = value`"),
    Refused(main("n + 1"), ":2:5: this value goes nowhere: write `let name = ..`, or leave it out"),
    Refused(main("return spawn f(n)"), ":2:12: a task is made by `let name = spawn f(..)`, or by `spawn f(..)` as a "
            "statement; for its value at once write `call f(..)`"),
    Refused(main("return 18446744073709551616"),
            ":2:12: the number 18446744073709551616 does not fit 64 bits: it is from -2^63 to 2^64 - 1"),
    Refused(main("return " + "9" * 5000), ":2:12: the number " + "9" * 37 + ".. does not fit 64 bits: it is from -2^63 to 2^64 "
            "- 1"),
    Refused(main("return n * -9223372036854775809"),
            ":2:17: the number -9223372036854775809 does not fit 64 bits: it is from -2^63 to 2^64 - 1"),
    Refused("fn main(x: u63) { }", ":1:12: a width is u1 to u62, found `u63`"),
    Refused("cell c\n" + main("return c.all"), ":3:14: a cell has .local, .sum and .count, not .all"),
    Refused("cell c\n" + main("c.sum = 1"), ":3:7: only c.local can be assigned to"),
    Refused("cell c @ x\n" + main(), ":1:10: expected the number of a key, found `x`"),
    # items
    Refused("const A = 1\nconst A = 2\n" + main(), ":2:1: A is there already, in line 1: choose another name"),
    Refused("fn slot() { }", ":1:1: slot is built in: choose another name"),
    Refused("const A = B\nconst B = 1\n" + main(),
            ":1:11: the value of A is no constant: write it with numbers, operators and the constants above it"),
    Refused("const A = 1 / 0\n" + main(),
            ":1:13: the value of A is no constant: write it with numbers, operators and the constants above it"),
    Refused("param A = 1\n" + main(), ":1:1: A = 9223372036854775808 does not fit 64 bits", {"A": 2**63}),
    Refused("const A = 1\n" + main(), ":1:1: there is no param A in the source: write `param A = ..` with the value that "
            "it has without one", {"A": 1}),
    Refused("const A = 1", ":1:1: there is no fn: write `fn main(x, y) { .. }`"),
    Refused("".join(f"cell c{number}\n" for number in range(9)) + main(),
            ":9:1: there are only 8 cells, and they are c0, c1, c2, c3, c4, c5, c6 and c7: use one for two things"),
    Refused("cell c\n" + "".join(f"cell c{number} @ {number}\n" for number in range(8)) + main(),
            ":1:1: no key is left for c: there are only 8 cells, and those below choose theirs"),
    Refused("cell c @ 8\n" + main(), ":1:1: the key of a cell is from 0 to 7"),
    Refused("cell c @ 3\ncell d @ 3\n" + main(), ":2:1: key 3 is that of the cell c: choose another key, or leave it "
                                                 "out"),
    Refused("fn main(x, x) { }", ":1:12: main has two parameters x: rename one"),
    Refused("const A = 1\nfn main(A) { }", ":2:9: A is a constant already: choose another name"),
    Refused("cell c\nfn main(c) { }", ":2:9: c is a cell already: choose another name"),
    Refused("inline fn g(x: u3) = x\n" + main(), ":1:13: parameters of an inline fn have no width"),
    Refused("fn main(x, y, z) { }", ":1:1: main has 3 parameters, and a task gets two numbers: give small parameters a "
            "width, such as lo: u20, so that they share one"),
    Refused("fn main(x: u40, y: u40, z: u40) { }", ":1:25: the parameters of main with a width need more than 63 bits "
            "for each of the 2 arguments that are left for them: make them narrower"),
    Refused(ONE_TOO_MANY, ":17:1: a job has at most 16 procedures, and here are 17 (each fn and each psum is one): make "
            "some of them inline"),
    # names
    Refused(main("return coutn"), ":2:12: coutn is not known here: declare it by `let`; alive are n"),
    Refused(main("let count = n", "return coutn"), ":3:12: coutn is not known here, did you mean count?; alive are "
                                                   "count and n"),
    Refused("const A = 1\n" + main("return m"), ":3:12: m is not known here: declare it by `let`; alive are n and A"),
    Refused("fn main() { return m }", ":1:20: m is not known here: declare it by `let`; no name is alive"),
    Refused("inline fn g(x) = x + n\n" + main("return g(1)"),
            ":1:22: n is not known here: declare it by `let`; alive are x"),
    Refused(main("if n { let m = 1 }", "return m"), ":3:12: m is not known here: declare it by `let`; alive are n"),
    Refused(main("group g", "return g"), ":3:12: g is a group: write `wait g` for its total"),
    Refused("cell c\n" + main("return c"), ":3:12: c is a cell: write c.local, c.sum or c.count"),
    Refused(main("return c.local"), ":2:12: there is no cell c: write `cell c` outside the functions"),
    Refused("cell mine\n" + main("mien.local = 1"),
            ":3:5: there is no cell mien: write `cell mien` outside the functions; did you mean mine?"),
    Refused(main("let m = 1", "let m = 2"),
            ":3:5: m is there already in this block: write `m = ..` to change it, or choose another name"),
    Refused("const A = 1\n" + main("let A = 2"), ":3:5: A is a constant already: choose another name"),
    Refused("const A = 1\n" + main("A = 2"), ":3:5: A is a constant: declare a variable by `let`"),
    Refused(main("for i in 0..n { i = 2 }"),
            ":2:21: i is counted by the for around this line: work on a copy, `let my_i = i`"),
    Refused(main("return psum i in 0..n { i += 1; give i }"),
            ":2:29: i is counted by the psum around this line: work on a copy, `let my_i = i`"),
    Refused(main("return psum i: u9 in 0..9 { n += 1; give n }"), ":2:33: n is of the function around this psum, which "
            "can't change it: work on a copy, `let my_n = n`"),
    # tasks and groups
    Refused(main("let a = spawn f(n)", "return a + 1"),
            ":3:12: a is a task that was not waited for: write `wait a`, or `sync` before this line"),
    Refused(main("let a = spawn f(n)", "a = 1"), ":3:5: a is a task that was not waited for: write `wait a` before "
                                                 "this line"),
    Refused(main("for i in 0..n {", "    let a = spawn f(i)", "}"), ":4:5: the task a is not waited for in its block: "
            "write `wait a` or `sync` before this brace, or spawn it into a group"),
    Refused(main("let a = spawn f(n)", "if n { sync }", "return a"),
            ":3:5: the task a is waited for in one branch only: wait for it in both, or after the if"),
    Refused(main("let a = spawn f(n)", "while n { n -= wait a }"),
            ":3:5: the task a is waited for in this loop and was made before it: wait for it before the loop"),
    Refused(main("let a = spawn f(n)", "while wait a { n += 1 }"),
            ":3:11: the task a is waited for in the condition of a loop: write `wait a` before this line"),
    Refused(main("let a = spawn f(n)", "if n || wait a { n += 1 }", "return a"),
            ":3:13: the task a is waited for on the right of `||`, which may be skipped: write `wait a` before this "
            "line"),
    Refused(main("let a = spawn f(n)", "let b = n && a + wait a", "return b"),
            ":3:18: a is a task that was not waited for: write `wait a`, or `sync` before this line"),
    Refused(main("let a = spawn f(n)", "while 1 { if wait a { break }; n += 1 }", "return n"),
            ":3:27: the task a was made before the loop, and waited for before this `break`: wait for it before the "
            "loop"),
    Refused(main(*FOUR_TASKS, "let e = spawn f(n)"), f":6:5: no group is left for the task e: {GROUPS_FULL}"),
    Refused(main(*FOUR_TASKS, "return call f(n)"), f":6:17: no group is left for this call of f: {GROUPS_FULL}"),
    Refused(main(*FOUR_TASKS, "group g"), f":6:5: no group is left for the group g: {GROUPS_FULL}"),
    Refused(main("group g", "group g"), ":3:5: the group g is there already: leave this line out, or choose another "
                                        "name"),
    Refused(main("spawn g: f(n)"), ":2:5: there is no group g: write `group g` above this line, in this block or "
            "one around it"),
    Refused(main("if n {", "    group g", "}", "return wait g"), ":5:12: g is no group and no task; write `group g`, or `let g = "
            "spawn ..`, above this line"),
    Refused(main("group g", "for i in 0..n {", "    let g = i", "    spawn g: f(i)", "}", "return wait g"),
            ":5:9: g is a variable here, and no group or task: give one of them another name"),
    Refused(main("group g", "for i in 0..n {", "    let g = i", "    wait g", "}", "return wait g"),
            ":5:9: g is a variable here, and no group or task: give one of them another name"),
    Refused(main("group g", "let g = n"), ":3:5: g is a group of this block already: choose another name"),
    Refused(main("let g = n", "group g"), ":3:5: g is a variable of this block already: choose another name"),
    # groups and their blocks
    Refused(main("for i in 0..n {", "    group g", "    spawn g: f(i)", "    if i == 2 { n = wait g }", "}"),
            ":6:5: the group g may not be waited for in its block: write `wait g` before this brace, or declare it before "
            "the block"),
    Refused(main("return psum i in 0..n {", "    group g", "    spawn g: f(i)", "    if i == 2 { give wait g }", "}"),
            ":6:5: the group g may not be waited for in its block: write `wait g` before this brace, or declare it before "
            "the block"),
    Refused(main("if n {", "    group g", "    while n { spawn g: f(n); n = wait g; spawn g: f(n) }", "}"),
            ":5:5: the group g may not be waited for in its block: write `wait g` before this brace, or declare it before "
            "the block"),
    Refused(main("if n { group g; cancel g }"), ":2:30: the group g may not be waited for in its block: write `wait g` "
            "before this brace, or declare it before the block"),
    Refused(main("return wait g"),
            ":2:12: g is no group and no task; write `group g`, or `let g = spawn ..`, above this line"),
    Refused(main("group h", "let a = spawn f(n)", "cancel g"), ":4:5: g is no group and no task: there is a and h; "
            "write `group g`, or `let g = spawn ..`, above this line"),
    Refused(main("let a = spawn f(n)", "sync", "let b, s = wait a"),
            ":4:5: a was waited for already: its status can be had once, by its first wait"),
    Refused(main("let a = spawn f(n)", "sync", "cancel a"), ":4:5: a was waited for already: there is nothing to "
                                                            "cancel"),
    # functions
    Refused(main("return f(n)"), ":2:12: f is an fn, which runs as a task: write `call f(..)` for its value at once, "
            "or spawn, isolate or post"),
    Refused(main("return g(n)"), ":2:12: there is no inline fn g: write `inline fn g(..) = ..` above"),
    Refused("fn count(x) { }\n" + main("return call coutn(n)"),
            ":3:17: coutn is no fn of this source; did you mean count?"),
    Refused("inline fn g(x) = x\n" + main("return call g(n)"),
            ":3:17: g is an inline fn, which makes no task: write it without the word before it"),
    Refused(main("return call f(n, n)"), ":2:17: f takes 1 argument, and here are 2"),
    Refused("inline fn g(x, y) = x\n" + main("return g(n)"), ":3:12: g takes 2 arguments, and here is 1"),
    Refused("inline fn g(x) = g(x)\n" + main("return g(n)"),
            ":1:18: inline fn g uses itself: make it an fn, and write `call g(..)`"),
    Refused(main("return slot(n)"), ":2:12: slot() takes no arguments"),
    Refused("fn f(x: u3, y) { }\nfn main() { return call f(8, 1) }",
            ":2:27: 8 does not fit x: u3, which is from 0 to 7: make the parameter wider"),
    # what follows what leaves
    Refused(main("return n", "n = 1"), ":3:5: this is never reached: leave it out"),
    Refused(main("break"), ":2:5: `break` outside a loop: leave it out"),
    Refused(main("give n"), ":2:5: `give` belongs into the body of a psum: write `return`"),
    # parallel sums
    Refused(main("return psum i in 0..n { return i }"),
            ":2:29: a psum's body ends by `give`, not by `return`: write `give`, or `give 0`"),
    Refused(main("return psum i in 0..n { break }"),
            ":2:29: `break` would leave only one task's part of the psum: write `give 0` for this index"),
    Refused(main("return psum i in 0..n grain 0 { give i }"),
            ":2:33: the grain is a constant from 1: the most indices that one task adds by itself"),
    Refused(main("return psum i in 0..n { give i * n }"), ":2:38: the body of this psum uses n of the function around "
            "it: a task has room for it if the index has a width, such as psum i: u20"),
    Refused(main("let m = 1", "return psum i: u9 in 0..n { give m * n }"), ":3:42: the body of this psum uses m of the "
            "function around it, and also n: a task has room for one such variable beside the ends of its range; write "
            "an fn with packed parameters that spawns its halves"),
    Refused(main("return psum i: u31 in 0..n { give i * n }"),
            ":2:12: the index of a psum that uses a variable from outside has at most 30 bits"),
    Refused(main("return psum i: u4 in n..17 { give i }"),
            ":2:29: 17 does not fit i: u4, which is from 0 to 15: make the index wider"),
    Refused(main("let m = 2", "return psum i: u4 in -1..n { give m }"),
            ":3:26: -1 does not fit i: u4, which is from 0 to 15: make the index wider"),
    # room
    Refused("fn main(a, b) {\n    let c = a / b\n    let d = b / a\n    let e = a / c\n    let f = a / d\n"
            "    let g = c / d\n    let h = d / c\n    let i = a / e\n    return a + b + c + d + e + f + g + h + i\n}",
            ":8:15: main needs more than 8 registers here, and there is no memory to put one into; alive are a, b, c, "
            "d, e, f, g, h and i: let another fn do a part, or compute a value where it is needed"),
    # what b was made of has changed where it is read, so that it can't be computed again
    Refused(main("let b = n + 1", "let c = n ^ 2", "let d = n - 3", "let e = n * 4", "let g = n & 5", "let h = n | 6",
                 "let i = n << 7", "let j = ~n", "n = call f(n)", "return b * c - d * e + g * h - i * j + n"),
            ":10:14: main needs more than 8 registers here, and there is no memory to put one into; alive are b, c, d, e, g, h, i, j, "
            "n and the status: let another fn do a part, or compute a value where it is needed"),
    Refused("inline fn far(a, b) = (a * a + b * b) *\n    (a - b)\n" + INLINED, ":9:12: main needs more than 8 registers here, in "
            "the inline fn of line 1, column 34, and there is no memory to put one into; alive are a, b, c, d, e, f, g and "
            "2 other values: let another fn do a part, or compute a value where it is needed"),
    Refused(main("let m = 1", "return psum i: u9 in 0..n {", "    let a = i / m", "    let b = m / i", "    let c = a / m",
                 "    let d = a / b", "    let e = c / d", "    let h = a / d", "    give a + b + c + d + e + h", "}"),
            ":9:19: the psum of line 3 needs more than 8 registers here, and there is no memory to put one into; alive are a, "
            "b, c, d, e, h, i, m, the end of i and the total: let another fn do a part, or compute a value where it is "
            "needed"),
    Refused(main(spawns(260)),
            ":1:1: main has at least 261 instructions, and a procedure has at most 256: let another fn do a part"),
    Refused(main(spawns(255)),  # and a wait, a number and a return
            ":1:1: main has at least 257 instructions, and a procedure has at most 256: let another fn do a part"),
    Refused(main(spawns(254)),  # and a wait, a number, which others might share, and a return
            ":1:1: main has 257 instructions, and a procedure has at most 256: let another fn do a part"),
    Refused(main("return " + " + ".join(["n * n"] * 129)),
            ":1:1: main has at least 258 instructions, and a procedure has at most 256: let another fn do a part"),
    Refused(LONG, ":2:1: the request with this job has 68159 bytes, and a line has at most 65536: make the source shorter; "
            "f0 has the most instructions"),
    Refused(doubled("{0}(x) + {0}(x)", 30), ":1:21: main has more than 1536 steps, of which a procedure has at most 256: let "
            "another fn do a part"),
    Refused(doubled("{0}({0}(x))", 30), ":1:21: more than 1536 inline functions would be inserted in main, since they use "
            "each other: make some of them an fn"),
    Refused(main("return " + " + ".join(["n"] * 2000)),
            ":2:{}: the source is nested too deep: split the expression or the block"),
    Refused(main(f"return {'(' * 3000}n{')' * 3000}"),
            ":2:{}: the source is nested too deep: split the expression or the block"),
    Refused(main("if n { return 1 }" + " else if n { return 1 }" * 400),
            ":2:{}: the source is nested too deep: split the expression or the block"),
]

"""A reader of the job language that was written from docs/LANGUAGE.md alone: it shares nothing with the package.

A tree is a tuple whose first member says what it is. Statements: ("let", name, e), ("task", name, call), ("both", total,
status, group), ("assign", name, e), ("if", e, block, block), ("while", e, block), ("for", i, low, high, step, block),
("return", e), ("give", e), ("break",), ("continue",), ("group", g), ("spawn", g or None, call), ("post", call), ("store", cell, e), ("sync",), ("value", e). A
block is a list of them. Expressions: ("number", n), ("name", n), ("binary", sign, a, b), ("unary", sign, a), ("apply", f,
arguments), ("call", call), ("isolate", call), ("wait", name), ("part", cell, part), ("gather", word, i, bits, low, high, step, grain, block). A call is (f,
arguments).
"""
import re
from dataclasses import dataclass

TOKEN = re.compile(r"(?P<skip>[ \t]+|(?:#|//)[^\n]*)|(?P<number>0x[0-9a-fA-F_]+|[0-9][0-9_]*)|(?P<name>[A-Za-z_]\w*)"
                   r"|(?P<sign><<=|>>=|\.\.|<<|>>|<=|>=|==|!=|&&|\|\||[-+*/%&|^]=|[-+*/%&|^~<>=!(){},.:@;])|(?P<line>\n)")
LEVELS = [["||"], ["&&"], ["==", "!=", "<", "<=", ">", ">="], ["|"], ["^"], ["&"], ["<<", ">>"], ["+", "-"], ["*", "/", "%"]]
ASSIGN = ("=", "+=", "-=", "*=", "/=", "%=", "&=", "|=", "^=", "<<=", ">>=")


@dataclass(frozen=True)
class Function:
    """A function: its parameters with their widths, and its block, or for an inline one its expression."""

    parameters: list[tuple[str, int | None]]
    body: object
    is_inline: bool


@dataclass(frozen=True)
class Source:
    """A source: its functions and its constants, with their expressions, in their order."""

    functions: dict[str, Function]
    constants: dict[str, tuple]


class Reader:
    """Reads a source that is right; what is wrong raises ValueError or a like one."""

    def __init__(self, text: str) -> None:
        self.tokens: list[str] = []
        at = 0
        while at < len(text):
            match = TOKEN.match(text, at)
            if not match:
                raise ValueError(f"no token at {text[at:at + 20]!r}")
            at = match.end()
            if not match["skip"]:
                self.tokens.append(match[0])
        self.tokens += ["\n", ""]
        self.at = self.parentheses = 0

    @property
    def next(self) -> str:
        """The next token; a broken line inside parentheses goes on."""
        while self.parentheses and self.tokens[self.at] == "\n":
            self.at += 1
        return self.tokens[self.at]

    def take(self, *texts: str) -> str:
        """Takes the next token, if it is one of these; else returns nothing."""
        if self.next not in texts:
            return ""
        self.at += 1
        return self.tokens[self.at - 1]

    def need(self, text: str) -> None:
        """Takes this token."""
        if not self.take(text):
            raise ValueError(f"{text} wanted, found {self.tokens[self.at:self.at + 6]}")

    def word(self) -> str:
        """Takes any token."""
        self.at += 1
        return self.tokens[self.at - 1]

    def lines(self) -> None:
        """Skips ends of statements."""
        while self.take("\n", ";"):
            pass

    def source(self) -> Source:
        """Reads all items."""
        functions, constants = {}, {}
        self.lines()
        while self.next:
            kind = self.word()
            if kind in ("const", "param"):
                name = self.word()
                self.need("=")
                constants[name] = self.expression()
            elif kind == "cell":
                self.word()
                if self.take("@"):
                    self.word()
            elif kind == "inline":
                self.need("fn")
                name, parameters = self.word(), self.parameters()
                self.need("=")
                self.lines()
                functions[name] = Function(parameters, self.expression(), True)
            else:
                name, parameters = self.word(), self.parameters()
                functions[name] = Function(parameters, self.block(), False)
            self.lines()
        return Source(functions, constants)

    def width(self) -> int | None:
        """Reads `: u20` if it is there."""
        return int(self.word()[1:]) if self.take(":") else None

    def parameters(self) -> list[tuple[str, int | None]]:
        """Reads `(a, b: u20)`."""
        found = []
        self.need("(")
        while not self.take(")"):
            name = self.word()
            found.append((name, self.width()))
            self.take(",")
        return found

    def block(self) -> list[tuple]:
        """Reads `{ .. }`, in which lines end statements even inside parentheses."""
        outer, self.parentheses = self.parentheses, 0
        self.need("{")
        found = []
        self.lines()
        while not self.take("}"):
            found.append(self.statement())
            self.lines()
        self.parentheses = outer
        return found

    def statement(self) -> tuple:
        """Reads a statement."""
        match self.next:
            case "let":
                return self.let()
            case "if" | "while" | "for":
                return self.compound()
            case "return" | "give":
                word = self.word()
                return word, ("number", 0) if self.next in ("\n", ";", "}") else self.expression()
            case "break" | "continue" | "sync":
                return (self.word(),)
            case "group":
                self.word()
                return "group", self.word()
            case "spawn":
                self.word()
                group = self.word() if self.tokens[self.at + 1] == ":" else None
                self.take(":")
                return "spawn", group, self.call()
            case "post":
                self.word()
                return "post", self.call()
        if self.tokens[self.at + 1] in ASSIGN:
            return self.assignment()
        if self.tokens[self.at + 1] == "." and self.tokens[self.at + 3] in ASSIGN:
            return self.store()
        return "value", self.expression()

    def let(self) -> tuple:
        """Reads `let ..`."""
        self.need("let")
        name = self.word()
        if self.take(","):
            status = self.word()
            self.need("=")
            self.lines()
            self.need("wait")
            return "both", name, status, self.word()
        self.need("=")
        self.lines()
        return ("task", name, self.call()) if self.take("spawn") else ("let", name, self.expression())

    def assignment(self) -> tuple:
        """Reads `x = e`, `x += e` and the like."""
        name, sign = self.word(), self.word()
        self.lines()
        value = self.expression()
        return "assign", name, value if sign == "=" else ("binary", sign[:-1], ("name", name), value)

    def store(self) -> tuple:
        """Reads `c.local = e`, `c.local += e` and the like."""
        cell, _, part, sign = self.word(), self.word(), self.word(), self.word()
        self.lines()
        value = self.expression()
        return "store", cell, value if sign == "=" else ("binary", sign[:-1], ("part", cell, part), value)

    def compound(self) -> tuple:
        """Reads `if`, `while` and `for`."""
        word = self.word()
        if word == "for":
            index = self.word()
            self.need("in")
            return "for", index, *self.range(), self.block()
        condition, block = self.expression(), self.block()
        if word == "while":
            return "while", condition, block
        before = self.at
        self.lines()
        if not self.take("else"):
            self.at = before
            return "if", condition, block, []
        return "if", condition, block, [self.compound()] if self.next == "if" else self.block()

    def range(self) -> tuple:
        """Reads `low..high step e`."""
        low = self.expression()
        self.need("..")
        high = self.expression()
        return low, high, self.expression() if self.take("step") else ("number", 1)

    def call(self) -> tuple:
        """Reads `f(a, b)`."""
        return self.word(), self.arguments()

    def arguments(self) -> list[tuple]:
        """Reads `(a, b)`."""
        found = []
        self.need("(")
        self.parentheses += 1
        while not self.take(")"):
            found.append(self.expression())
            self.take(",")
        self.parentheses -= 1
        return found

    def expression(self, level: int = 0) -> tuple:
        """Reads an expression."""
        if level == len(LEVELS):
            return self.unary()
        left = self.expression(level + 1)
        while sign := self.take(*LEVELS[level]):
            while self.take("\n"):
                pass
            left = ("binary", sign, left, self.expression(level + 1))
        return left

    def unary(self) -> tuple:
        """Reads an operand with its signs."""
        sign = self.take("-", "!", "~")
        return ("unary", sign, self.unary()) if sign else self.operand()

    def operand(self) -> tuple:
        """Reads an operand."""
        if self.take("("):
            self.parentheses += 1
            inside = self.expression()
            self.need(")")
            self.parentheses -= 1
            return inside
        word = self.word()
        if word[0].isdigit():
            return "number", int(word.replace("_", ""), 0)
        if word in ("call", "isolate"):
            return word, self.call()
        if word == "wait":
            return "wait", self.word()
        if word in ("psum", "pmin", "pmax"):
            index, bits = self.word(), self.width()
            self.need("in")
            ends = self.range()
            grain = self.expression() if self.take("grain") else ("number", 64)
            return "gather", word, index, bits, *ends, grain, self.block()
        if self.take("."):
            return "part", word, self.word()
        return ("apply", word, self.arguments()) if self.next == "(" else ("name", word)


def read(text: str) -> Source:
    """The tree of a source."""
    return Reader(text).source()

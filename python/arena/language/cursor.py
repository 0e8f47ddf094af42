"""A reader's place in a list of tokens, and the small things that every rule of the grammar is made of."""
import re

from arena.language.arithmetic import wrapped
from arena.language.faults import Notes, Place, SourceFault
from arena.language.syntax import Parameter
from arena.language.tokens import Token, TokenKind

MOST_DIGITS = 40
GREATEST_WIDTH = 62
"""The most bits that a parameter in a packed argument may have."""

ELSEWHERE = {**dict.fromkeys(("elif", "elsif", "elseif"), "write `else if`"),
             "**": "there is no operator for powers: multiply, as in `n * n`",
             "=": "to compare, write `==`",
             "print": "a job prints nothing: `return` what it found",
             "fn": "each fn begins on a line of its own, outside of all braces"}
"""What other languages have, and what to write here."""


ITEMS = ("fn", "inline", "const", "param", "cell")
"""The words that items begin with."""


def magnitude(token: Token) -> int:
    """The number of a token without its sign. One of very many digits is only known to be too great."""
    digits = token.text.replace("_", "")
    if digits.startswith("0x"):
        return int(digits, 16)
    digits = digits.lstrip("0") or "0"
    return int(digits if len(digits) <= MOST_DIGITS else "1" + "0" * MOST_DIGITS)


class Cursor:
    """A place in a list of tokens."""

    def __init__(self, tokens: list[Token], notes: Notes) -> None:
        self._tokens, self._at, self._notes = tokens, 0, notes

    @property
    def token(self) -> Token:
        """The next token."""
        return self._tokens[self._at]

    def is_at_end(self) -> bool:
        """Whether the next token is the end of the file."""
        return self.token.kind is TokenKind.END_OF_FILE

    @property
    def place(self) -> Place:
        """The place of the next token."""
        return self.token.place

    def ahead(self, count: int) -> Token:
        """The token after so many more; at the end, the last one."""
        return self._tokens[min(self._at + count, len(self._tokens) - 1)]

    def advance(self) -> Token:
        """Takes the next token, whatever it is."""
        taken = self.token
        self._at = min(self._at + 1, len(self._tokens) - 1)
        return taken

    def sees(self, *texts: str) -> bool:
        """Whether the next token is one of these words and signs."""
        return self.token.kind in (TokenKind.WORD, TokenKind.SIGN) and self.token.text in texts

    def take(self, *texts: str) -> str | None:
        """Takes the next token if it is one of these words and signs, and returns its text."""
        return self.advance().text if self.sees(*texts) else None

    def need(self, text: str, what: str = "") -> Place:
        """Takes this word or sign, and returns its place; refuses anything else."""
        if not self.sees(text):
            raise self.unexpected(what or f"`{text}`")
        return self.advance().place

    def unexpected(self, wanted: str) -> Exception:
        """The fault that something else was wanted here."""
        found = self.token
        is_word = found.kind is TokenKind.WORD and "name" in wanted
        hint = ", which is a word of the language and no name" if is_word else ""
        if found.text in ELSEWHERE and (found.text != "=" or wanted not in ("`)`", "`,` or `)`")):
            hint = f": {ELSEWHERE[found.text]}"
        if found.text == ":" and wanted == "`=`":
            hint = ": a variable has no type"
        if found.text == "." and self.ahead(1).kind is TokenKind.NUMBER:
            hint = ": there are only whole numbers"
        if wanted.startswith("the end") and self._at and self._tokens[self._at - 1].text == "}" and found.text not in ELSEWHERE:
            hint = ": begin a new line, or write `;`"
        return found.place.fault(f"expected {wanted}, found {found.shown()}{hint}")

    def name(self, what: str = "a name") -> str:
        """Takes a name."""
        if self.token.kind is not TokenKind.NAME:
            raise self.unexpected(what if "name" in what else f"the name of {what}")
        return self.advance().text

    def skip_lines(self) -> None:
        """Skips ends of lines."""
        while self.token.kind is TokenKind.END_OF_LINE:
            self.advance()

    def skip_breaks(self) -> None:
        """Skips ends of lines where a line may be broken. A semicolon does not break one."""
        while self.token.kind is TokenKind.END_OF_LINE and self.token.text != ";":
            self.advance()

    def skip_statement(self, fault: SourceFault) -> None:
        """Notes a fault, and skips what is left of the statement that it is in, with the blocks in it."""
        self._notes.note(fault)
        depth = 0
        while self.token.kind is not TokenKind.END_OF_FILE:
            if depth == 0 and (self.token.kind is TokenKind.END_OF_LINE or self.sees("}")):
                return
            depth += {"{": 1, "}": -1}.get(self.token.text, 0)
            self.advance()

    def skip_item(self, fault: SourceFault) -> None:
        """Notes a fault, and skips to the line with the next item."""
        self._notes.note(fault)
        while self.token.kind is not TokenKind.END_OF_FILE:
            is_end = self.advance().kind is TokenKind.END_OF_LINE
            if is_end and self.sees(*ITEMS):
                return

    def number(self, is_negative: bool = False) -> int:
        """Takes a number, or its negative. It must fit 64 bits; one from 2^63 on stands for the number with a sign that has
        the same bits."""
        token = self.advance()
        value = magnitude(token) * (-1 if is_negative else 1)
        if not -(2**63) <= value < 2**64:
            shown = ("-" if is_negative else "") + token.text
            raise token.place.fault(f"the number {shown if len(shown) <= 40 else shown[:37] + '..'} does not fit 64 bits: "
                                    "it is from -2^63 to 2^64 - 1")
        return wrapped(value)

    def parameters(self) -> tuple[Parameter, ...]:
        """Takes `(a, b: u20, ..)`."""
        self.need("(", "`(` and the parameters")
        found: list[Parameter] = []
        while not self.take(")"):
            place = self.place
            name = self.name("a parameter")
            found.append(Parameter(place, name, self.width()))
            if not self.take(","):
                self.need(")", "`,` or `)`")
                break
        return tuple(found)

    def width(self) -> int | None:
        """Takes `: u20` if it is there, and returns the number of bits."""
        if not self.take(":"):
            return None
        token = self.token
        match = re.fullmatch(r"u([1-9][0-9]?)", token.text)
        if not match or int(match[1]) > GREATEST_WIDTH:
            raise token.place.fault(f"a width is u1 to u{GREATEST_WIDTH}, found {token.shown()}")
        self.advance()
        return int(match[1])

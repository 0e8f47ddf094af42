"""A source as a list of tokens, with their places."""
import re
from dataclasses import dataclass
from enum import Enum

from arena.language.faults import Notes, Place


class TokenKind(Enum):
    """What a token is; the values are the words of messages."""

    NUMBER = "a number"
    NAME = "a name"
    WORD = "a word of the language"
    SIGN = "a sign"
    END_OF_LINE = "the end of the line"
    END_OF_FILE = "the end of the file"


WORDS = frozenset("fn inline const param cell let if else while for in return spawn post wait sync cancel isolate "
                  "group break continue psum pmin pmax grain give call".split())
"""Names that are part of the language, and so no names of a program."""

_TOKEN = re.compile(
    r"(?P<space>[ \t\r]+|(?:#|//)[^\n]*)"
    r"|(?P<number>0x[0-9a-fA-F][0-9a-fA-F_]*|[0-9][0-9_]*)(?!\w)"
    r"|(?P<name>[A-Za-z_][A-Za-z_0-9]*)"
    r"|(?P<sign>\.\.|\*\*|<<=|>>=|<<|>>|<=|>=|==|!=|&&|\|\||[-+*/%&|^]=|[-+*/%&|^~<>=!(){},.:@;])"
    r"|(?P<line>\n)"
    r"|(?P<other>.)")


_TIME = re.compile(r"[0-9]+(ns|us|ms|s|min|h|d)\b")


@dataclass(frozen=True)
class Token:
    """A token: what it is, its text, and where it begins."""

    kind: TokenKind
    text: str
    place: Place

    def shown(self) -> str:
        """The token as messages show it."""
        at_end = self.kind in (TokenKind.END_OF_LINE, TokenKind.END_OF_FILE)
        return self.kind.value if at_end else f"`{self.text}`"


def tokens_of(text: str, notes: Notes) -> list[Token]:
    """The tokens of a source. A newline inside parentheses is none, save in a block in them; a semicolon ends a line.
    The last token is the end of the file. Characters that no token begins with are noted, and left out."""
    found: list[Token] = []
    line, start, last = 1, 0, 0
    opened: list[str] = []
    for match in _TOKEN.finditer(text):
        place, last = Place(line, match.start() - start + 1), match.end()
        if match["line"]:
            line, start = line + 1, match.end()
        if match["other"]:
            notes.note(place.fault(_unknown(match["other"], text[match.end():])))
            continue
        if match["sign"] in ("(", "{"):
            opened.append(match["sign"])
        elif match["sign"] in (")", "}") and opened:
            opened.pop()
        token = _token(match, place)
        if token and not (match["line"] and opened[-1:] == ["("]):
            found.append(token)
    end = Place(line, last - start + 1)
    return [*found, Token(TokenKind.END_OF_LINE, "\n", end), Token(TokenKind.END_OF_FILE, "", end)]


def _token(match: re.Match[str], place: Place) -> Token | None:
    text = match.group()
    if match["space"]:
        return None
    if match["line"] or text == ";":
        return Token(TokenKind.END_OF_LINE, text, place)
    if match["number"]:
        return Token(TokenKind.NUMBER, text, place)
    if match["name"]:
        return Token(TokenKind.WORD if text in WORDS else TokenKind.NAME, text, place)
    return Token(TokenKind.SIGN, text, place)


def _unknown(character: str, after: str) -> str:
    """What is said of a character that no token begins with; a number that is followed by letters is told by its first
    digit."""
    hints = {"?": "write `if`, as a statement", "[": "there are no lists", "]": "there are no lists",
             '"': "there are no texts, only numbers",
             "'": f"a character is written as its number, here {ord(after[0])}" if after[1:2] == "'" else
             "there are no texts, only numbers"}
    if _TIME.match(character + after):
        return f"unexpected character `{character}`: there are no times, only numbers without a unit"
    is_digit = character in "0123456789"
    other = "a number is written with the digits 0 to 9" if character.isdigit() else "leave it out"
    hint = hints.get(character, "a number must not end in letters" if is_digit else other)
    return f"unexpected character `{character}`: {hint}"

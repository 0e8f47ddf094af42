"""Sources in the usual form: four spaces for each block, one space between words, at most one empty line in a row. Lines stay
where they are broken, and comments where they stand."""
import re
from collections.abc import Iterator
from dataclasses import dataclass

from arena.language.faults import Notes, SourceFault
from arena.language.parser import parse
from arena.language.tokens import Token, TokenKind, tokens_of
from arena.texts import lines_of

INDENT = "    "
UNARY = ("!", "~", "-")
CONTINUES = ("+", "-", "*", "/", "%", "&", "|", "^", "<<", ">>", "&&", "||", "==", "!=", "<", "<=", ">", ">=", "=", "..")
"""The signs behind which a line may be broken."""


@dataclass
class _Line:
    """The tokens of a line, without its end, and its comment."""

    tokens: list[Token]
    comment: str


def formatted(text: str, file: str = "<job>") -> str:
    """The source in the usual form. Raises `SourceFault` if it is none, or has a fault of its grammar."""
    try:
        parse(text)
        found = "".join(_lines(text))
    except SourceFault as fault:
        for it in fault.all():
            it.file, it.text = file, text
        raise
    if _words(found) != _words(text):
        raise AssertionError("the formatted source is another one")
    return found


def _words(text: str) -> list[str]:
    """The texts of a source's tokens; empty lines are none."""
    texts = [it.text for it in tokens_of(text, Notes())]
    return [it for it, before in zip(texts, ["\n", *texts]) if it != "\n" or before != "\n"]


def _lines(text: str) -> Iterator[str]:
    """The lines in the usual form."""
    opened: list[str] = []
    empty, before = False, ""
    is_first = True
    for line in _parted(text):
        if not line.tokens and not line.comment:
            empty = not is_first
            continue
        if empty:
            yield "\n"
        depth = _depth(opened, line.tokens)
        is_continued = opened[-1:] == ["("] or before in CONTINUES
        before = line.tokens[-1].text if line.tokens else before
        _open(opened, line.tokens)
        body = _joined(line.tokens)
        comment = f"{'  ' if body else ''}{line.comment}" if line.comment else ""
        yield f"{INDENT * (depth + is_continued)}{body}{comment}\n"
        empty, is_first = False, False


def _depth(opened: list[str], tokens: list[Token]) -> int:
    """How many blocks are around a line: those that it closes at its start are none."""
    closes = 0
    for token in tokens:
        if token.text != "}":
            break
        closes += 1
    return max(opened.count("{") - closes, 0)


def _open(opened: list[str], tokens: list[Token]) -> None:
    for token in tokens:
        if token.text in ("(", "{"):
            opened.append(token.text)
        elif token.text in (")", "}") and opened:
            opened.pop()


def _parted(text: str) -> Iterator[_Line]:
    """The lines of a source, as tokens and a comment."""
    tokens: dict[int, list[Token]] = {}
    for token in tokens_of(text, Notes()):
        if token.text not in ("\n", ""):
            tokens.setdefault(token.place.line, []).append(token)
    for number, line in enumerate(lines_of(text), 1):
        comment = re.search(r"#|//", line)
        yield _Line(tokens.get(number, []), line[comment.start():].rstrip() if comment else "")


def _joined(tokens: list[Token]) -> str:
    """The tokens of a line with their spaces."""
    text = ""
    for at, token in enumerate(tokens):
        if at and _is_apart(tokens, at):
            text += " "
        text += token.text
    return text


def _is_apart(tokens: list[Token], at: int) -> bool:
    """Whether a space stands before a token of a line, which is not the first."""
    left, right = tokens[at - 1], tokens[at]
    if right.text in (")", ",", ";", ":", ".", "..") or left.text in ("(", ".", ".."):
        return left.text == "{"
    if right.text == "(":
        return left.kind is not TokenKind.NAME and not _is_unary(tokens, at - 1)
    return not _is_unary(tokens, at - 1)


def _is_unary(tokens: list[Token], at: int) -> bool:
    """Whether a token is a sign before its operand."""
    if tokens[at].text not in UNARY:
        return False
    if tokens[at].text != "-" or at == 0:
        return True
    left = tokens[at - 1]
    is_step = left.text == "step" and at > 1 and (tokens[at - 2].text == ")" or tokens[at - 2].kind in (
        TokenKind.NAME, TokenKind.NUMBER))
    return is_step or left.kind is TokenKind.WORD or (left.kind is TokenKind.SIGN and left.text not in (")", "}"))

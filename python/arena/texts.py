"""Faults that have a place in a text: a job's source, or an assembly."""
from collections.abc import Iterable


class TextFault(Exception):
    """What is wrong with a text, and where.

    `line` and `column` count from 1; both are 0 if the fault is the text's as a whole. `message` says what is wrong
    and what to do. `str()` is `FILE:LINE:COLUMN: message`, or `FILE: message` without a place.
    """

    def __init__(self, message: str, line: int = 0, column: int = 0, file: str = "<text>") -> None:
        super().__init__(message)
        self.message, self.line, self.column, self.file = message, line, column, file

    def __str__(self) -> str:
        place = f":{self.line}:{self.column}" if self.line else ""
        return f"{self.file}{place}: {self.message}"


def lines_of(text: str) -> list[str]:
    """The lines of a text, without their ends. A newline alone ends one, perhaps behind a carriage return: what else Python
    takes for an end, such as a form feed or U+2028, may stand in a comment."""
    lines = [line.removesuffix("\r") for line in text.split("\n")]
    return lines if lines[-1] else lines[:-1]


def pointed(said: str, text: str, line: int, column: int) -> str:
    """What is said of a place, with the line of a text that it is in, and a mark below its column."""
    lines = lines_of(text)
    if not 1 <= line <= len(lines):
        return said
    shown = lines[line - 1].rstrip().replace("\r", " ")
    before = "".join(it if it == "\t" else " " for it in shown[:column - 1])
    return f"{said}\n    {shown}\n    {before}^"


def listed(names: Iterable[str]) -> str:
    """Names as English lists them: `a`, `a and b`, `a, b and c`."""
    names = list(names)
    if len(names) < 2:
        return "".join(names)
    return f"{', '.join(names[:-1])} and {names[-1]}"


def counted(count: int, noun: str) -> str:
    """A count with its noun: `1 value`, `2 values`."""
    return f"{count} {noun}" if count == 1 else f"{count} {noun}s"


def is_or_are(count: int) -> str:
    """A count with its verb: `is 1`, `are 2`."""
    return f"is {count}" if count == 1 else f"are {count}"

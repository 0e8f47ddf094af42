"""What operators give for numbers of 64 bits, as the instructions of a job compute them."""
from collections.abc import Callable

from arena.jobs import GREATEST_NUMBER, LEAST_NUMBER


def wrapped(number: int) -> int:
    """A number as 64 bits with a sign hold it."""
    return (number - LEAST_NUMBER) % 2**64 + LEAST_NUMBER


def fits(number: int) -> bool:
    """Whether a number is one of 64 bits with a sign."""
    return LEAST_NUMBER <= number <= GREATEST_NUMBER


def quotient(a: int, b: int) -> int:
    """a / b rounded toward zero, wrapped; b is not 0."""
    size = abs(a) // abs(b)
    return wrapped(size if (a < 0) == (b < 0) else -size)


_RESULTS: dict[str, Callable[[int, int], int]] = {
    "+": lambda a, b: wrapped(a + b),
    "-": lambda a, b: wrapped(a - b),
    "*": lambda a, b: wrapped(a * b),
    "/": quotient,
    "%": lambda a, b: wrapped(a - quotient(a, b) * b),
    "&": lambda a, b: a & b,
    "|": lambda a, b: a | b,
    "^": lambda a, b: a ^ b,
    "<<": lambda a, b: wrapped(a << (b & 63)),
    ">>": lambda a, b: a >> (b & 63),
    "<": lambda a, b: int(a < b),
    ">": lambda a, b: int(a > b),
    "<=": lambda a, b: int(a <= b),
    ">=": lambda a, b: int(a >= b),
    "==": lambda a, b: int(a == b),
    "!=": lambda a, b: int(a != b),
    "&&": lambda a, b: int(a != 0 and b != 0),
    "||": lambda a, b: int(a != 0 or b != 0),
}


def result(operator: str, a: int | None, b: int | None) -> int | None:
    """What an operator gives for two numbers; None if one of them is not known, or for a division by zero."""
    if a is None or b is None or (operator in ("/", "%") and b == 0):
        return None
    return _RESULTS[operator](a, b)

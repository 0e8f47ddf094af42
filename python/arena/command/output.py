"""What the command prints: text for people, JSON for scripts; errors and progress on standard error."""
import json
import os
import sys
import time
from dataclasses import dataclass
from typing import TextIO

RED, GREEN, YELLOW, BOLD, DIM = "31", "32", "33", "1", "2"


@dataclass
class Output:
    """Whether JSON is printed, and whether there are colours on standard output and on standard error."""

    json: bool = False
    colour: bool = False
    colour_errors: bool = False

    def say(self, text: str, value: object) -> None:
        """Prints the text, or with --json the value."""
        print(json.dumps(value, separators=(",", ":"), sort_keys=True) if self.json else text)

    def paint(self, text: str, how: str) -> str:
        """The text in a colour, if there are colours."""
        return f"\033[{how}m{text}\033[0m" if self.colour else text

    def complain(self, text: str) -> None:
        """Prints an error."""
        sys.stdout.flush()
        print(f"\033[{RED}m{text}\033[0m" if self.colour_errors else text, file=sys.stderr)


def output_of(as_json: bool, colour: str | None) -> Output:
    """The output of a call. Colours are on a terminal alone, and not if NO_COLOR is set, unless they are asked for."""
    if colour in ("always", "never"):
        return Output(as_json, colour == "always" and not as_json, colour == "always")
    plain = "NO_COLOR" in os.environ or os.environ.get("TERM") == "dumb"
    return Output(as_json, sys.stdout.isatty() and not plain and not as_json, sys.stderr.isatty() and not plain)


class Progress:
    """A line on standard error that shows how far long work is. It is there on a terminal alone, and from the first
    half second on."""

    def __init__(self, what: str, total: int, stream: TextIO = sys.stderr) -> None:
        self.what, self.total, self.stream = what, max(total, 1), stream
        self.next = time.monotonic() + 0.5 if stream.isatty() else float("inf")
        self.shown = False

    def at(self, done: int) -> None:
        """Says how much is done."""
        now = time.monotonic()
        if now >= self.next:
            self.next, self.shown = now + 0.2, True
            self.stream.write(f"\r{self.what}: {min(100 * done // self.total, 100)} %\033[K")
            self.stream.flush()

    def end(self) -> None:
        """Takes the line away."""
        if self.shown:
            self.stream.write("\r\033[K")
            self.stream.flush()

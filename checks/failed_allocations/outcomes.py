"""What a program is whose allocations fail, and what a run of it comes to."""
from collections.abc import Sequence
from typing import NamedTuple, Protocol


class Outcome(NamedTuple):
    """What a run came to in which an allocation was to fail: whether one failed, what that did, by one of the program's
    effects, `nothing`, or None if it may not do that, and what was seen."""

    has_failed: bool
    effect: str | None
    seen: object


class Program(Protocol):
    """A program with the effects each of which one failed allocation or another must have."""

    name: str
    effects: Sequence[str]
    stride: int
    """Each how many-th allocation fails in turn, unless the program is named: then each does."""
    lanes: int
    """How many runs go on at a time."""

    def run(self, room: dict[str, str]) -> Outcome:
        """Runs it to its end, for half a minute at most, in an environment by which an allocation fails."""

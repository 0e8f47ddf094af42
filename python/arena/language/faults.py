"""Where a part of a source stands, what is wrong with it, and what is only odd."""
from collections.abc import Iterator
from dataclasses import dataclass

from arena.texts import TextFault, pointed

MOST_FAULTS = 20
"""How many faults of a source are told at most."""


class SourceFault(TextFault):
    """Why a source is refused. It has `line`, `column`, `message` and `file`; `str()` is `FILE:LINE:COLUMN: message`. A
    source may have several faults: the first one that was found is raised, and `others` are the rest."""

    def __init__(self, message: str, line: int = 0, column: int = 0, file: str = "<text>") -> None:
        super().__init__(message, line, column, file)
        self.others: tuple[SourceFault, ...] = ()
        self.text = ""

    def all(self) -> list["SourceFault"]:
        """All faults of the source, from its top to its bottom."""
        return sorted((self, *self.others), key=lambda it: (it.line, it.column))

    def report(self) -> str:
        """All faults, each with its line of the source and a mark below its column."""
        return "\n".join(pointed(str(it), self.text, it.line, it.column) for it in self.all())


@dataclass(frozen=True, order=True)
class SourceWarning:
    """What is odd in a source that can be compiled. `str()` is `FILE:LINE:COLUMN: warning: message`."""

    line: int
    column: int
    message: str
    file: str = "<text>"

    def __str__(self) -> str:
        return f"{self.file}:{self.line}:{self.column}: warning: {self.message}"


@dataclass(frozen=True)
class Place:
    """A place in a source; lines and columns count from 1."""

    line: int
    column: int

    def fault(self, message: str) -> SourceFault:
        """The fault with this message at this place; its file is filled in by `compile_source`."""
        return SourceFault(message, self.line, self.column)


START = Place(1, 1)
"""The place of what is wrong with a source as a whole."""

NOWHERE = Place(0, 0)
"""The place of code that is of no part of the source."""


class Notes:
    """The faults and the warnings that were found so far, each once."""

    def __init__(self) -> None:
        self._faults: dict[tuple[int, int, str], SourceFault] = {}
        self._warnings: dict[tuple[int, int, str], SourceWarning] = {}
        self._spoiled: frozenset[int] = frozenset()
        self.count = 0
        """How often a fault was noted."""

    def note(self, fault: SourceFault) -> None:
        """Notes a fault, unless there are very many, or its line has one that may have caused it."""
        self.count += 1
        if len(self._faults) < MOST_FAULTS and fault.line not in self._spoiled:
            self._faults.setdefault((fault.line, fault.column, fault.message), fault)

    def spoil(self) -> None:
        """Takes no more faults of the lines that have one now."""
        self._spoiled = frozenset(it.line for it in self._faults.values())

    def warn(self, place: Place, message: str) -> None:
        """Notes a warning."""
        if place != NOWHERE:
            key = (place.line, place.column, message)
            self._warnings.setdefault(key, SourceWarning(*key))

    def warnings(self, file: str) -> Iterator[SourceWarning]:
        """The warnings, from the top of the source to its bottom."""
        return (SourceWarning(it.line, it.column, it.message, file) for it in sorted(self._warnings.values()))

    def refuse(self) -> None:
        """Raises the first fault, with the others, if there is one."""
        for first in self._faults.values():
            first.others = tuple(it for it in self._faults.values() if it is not first)
            raise first

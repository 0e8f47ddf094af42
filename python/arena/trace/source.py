"""Source maps: of which line of a .job file each instruction of a job is, as `arena build --map` writes it."""
import json
import os
from collections.abc import Iterable
from dataclasses import dataclass, field
from typing import Any


class MapFault(ValueError):
    """A file is no source map. The text says what to do."""


@dataclass(frozen=True, slots=True)
class Procedure:
    """A procedure's name, and the source line of each of its instructions, none if it has none."""

    name: str
    lines: list[int | None]


@dataclass(frozen=True, slots=True)
class Program:
    """The map of one program. `procs` is its code if the map has it."""

    file: str
    procedures: list[Procedure]
    procs: list[Any] | None

    def fits(self, procs: list[Any]) -> bool:
        """Whether it is of a job with these procedures: the same code, or if the map has none, as many instructions."""
        if self.procs is not None:
            return self.procs == procs
        return [len(it.lines) for it in self.procedures] == [len(it) for it in procs]


@dataclass(slots=True)
class SourceMap:
    """The maps of some programs. What is asked of a job that none of them fits has no answer."""

    programs: list[Program] = field(default_factory=list)
    _found: dict[int, Program | None] = field(default_factory=dict)
    _asked: list[list[Any]] = field(default_factory=list)

    def _of(self, procs: list[Any]) -> Program | None:
        if id(procs) not in self._found:
            self._asked.append(procs)  # keeps it, so that its id stays its own
            self._found[id(procs)] = next((it for it in self.programs if it.fits(procs)), None)
        return self._found[id(procs)]

    def line_of(self, procs: list[Any], proc: int, instr: int) -> str | None:
        """`FILE:LINE` of an instruction of a job with these procedures."""
        program = self._of(procs)
        if program is None:
            return None
        line = program.procedures[proc].lines[instr]
        return f"{program.file}:{line}" if line else None

    def name_of(self, procs: list[Any], proc: int) -> str:
        """A procedure's name, `p1` if no map has it."""
        program = self._of(procs)
        return program.procedures[proc].name if program else f"p{proc}"


def read_maps(paths: Iterable[str | os.PathLike[str]]) -> SourceMap:
    """The maps of some files. Raises OSError, MapFault."""
    return SourceMap([_program(os.fspath(path)) for path in paths])


def _program(path: str) -> Program:
    with open(path, encoding="utf-8") as it:
        try:
            value = json.load(it)
            procedures = [Procedure(str(proc["name"]), [line if line is None else int(line) for line in proc["lines"]])
                          for proc in value["procedures"]]
            return Program(str(value["file"]), procedures, value.get("procs"))
        except (ValueError, KeyError, TypeError, AttributeError):
            raise MapFault(f"{path}: no source map; `arena build FILE --map -o {path}` makes one") from None

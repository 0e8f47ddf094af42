"""Jobs from files: compiled, assembled, or read as JSON."""
import argparse
import contextlib
import io
import json
import os
import sys
from collections.abc import Mapping
from dataclasses import dataclass
from typing import TYPE_CHECKING, Any

from arena.texts import pointed

if TYPE_CHECKING:
    from arena.language import Compiled
    from arena.lint import Place


class SourceWrong(Exception):
    """A job or a configuration is not valid. The text says the file, the place, what is wrong and what to do."""


def read_text(path: str) -> str:
    """The text of a file, or of standard input if the path is -. A carriage return before a newline is left out; another one
    stays, since it ends no line. Raises OSError; SourceWrong if it is no UTF-8."""
    try:
        return _read(path).replace("\r\n", "\n")
    except UnicodeDecodeError as fault:
        raise SourceWrong(f"{path}: byte {fault.start} is no UTF-8") from None


def _read(path: str) -> str:
    if path == "-":
        if isinstance(sys.stdin, io.TextIOWrapper):
            with contextlib.suppress(io.UnsupportedOperation):  # a part of it was read already
                sys.stdin.reconfigure(newline="")
        return sys.stdin.read()
    with open(path, encoding="utf-8", newline="") as it:
        return it.read()


def compiled(path: str, words: argparse.Namespace) -> "Compiled":
    """What the compiler makes of a .job file; its warnings go to standard error. Raises SourceWrong with all faults."""
    from arena.language import SourceFault, compile_source
    text = read_text(path)
    try:
        done = compile_source(text, parameters=dict(words.define or ()), args=tuple(words.args or ()),
                              fuel=1_000_000 if words.fuel is None else words.fuel, file=path)
    except SourceFault as fault:
        raise SourceWrong(fault.report()) from None
    except ValueError as fault:
        raise SourceWrong(f"{path}: {fault}") from None
    for it in done.warnings:
        print(pointed(str(it), text, it.line, it.column), file=sys.stderr)
    return done


def assembled(path: str, words: argparse.Namespace) -> Mapping[str, Any]:
    """What the assembler makes of a .jasm file. Raises SourceWrong."""
    from arena.assembler import AssemblyFault, assemble
    args = _args(words)
    _refuse_parameters(path, words, "an assembly")
    try:
        return assemble(read_text(path), args=(args[0], args[1]) if args else None, fuel=words.fuel, file=path).to_value()
    except (AssemblyFault, ValueError) as fault:
        raise SourceWrong(str(fault)) from None


def read_json(path: str) -> Any:
    """The JSON value of a file. Raises SourceWrong with the line and column of what is no JSON."""
    from arena.lint import read_value
    try:
        return read_value(read_text(path))
    except json.JSONDecodeError as fault:
        raise SourceWrong(f"{path}:{fault.lineno}:{fault.colno}: no JSON: {fault.msg}") from None
    except ValueError as fault:
        raise SourceWrong(f"{path}: {fault}") from None
    except RecursionError:
        raise SourceWrong(f"{path}: nested too deep for the JSON that a server reads") from None


def fault_of_config(path: str, value: object) -> "Place | None":
    """The first fault of the configuration that was read from a file: of its value, else that the file is too long for the
    servers."""
    from arena.lint import GREATEST_CONFIG, Place, first_fault_of_config
    fault = first_fault_of_config(value)
    if fault is None and path != "-" and (size := os.path.getsize(path)) > GREATEST_CONFIG:
        return Place("", f"a configuration has at most {GREATEST_CONFIG:,} bytes, and this file has {size:,}")
    return fault


@dataclass(frozen=True)
class JobSource:
    """A JOB, and what the compiler made of its source if it has one."""

    job: Mapping[str, Any]
    compiled: "Compiled | None" = None

    def place(self, procedure: int, instruction: int) -> str:
        """Where an instruction is in the source, or else which one it is, as compact JSON."""
        if self.compiled is not None:
            return self.compiled.place(procedure, instruction)
        text = json.dumps(self.job["procs"][procedure][instruction], separators=(",", ":"))
        return f"procedure {procedure}, instruction {instruction}: {text}"


def source_of(words: argparse.Namespace) -> JobSource:
    """As `job_of`, with what the compiler made of a .job file."""
    if not words.FILE.endswith(".job"):
        return JobSource(job_of(words))
    it = compiled(words.FILE, words)
    return JobSource(it.job.to_value(), it)


def job_of(words: argparse.Namespace) -> Mapping[str, Any]:
    """The JOB of the words FILE, --args, --fuel and -D. Raises OSError, SourceWrong."""
    path = words.FILE
    if path.endswith(".job"):
        return compiled(path, words).job.to_value()
    if path.endswith(".jasm"):
        return assembled(path, words)
    value = read_json(path)
    _refuse_parameters(path, words, "read as JSON")
    if isinstance(value, dict):
        value = {**value, **({"args": _args(words)} if words.args else {}),
                 **({"fuel": words.fuel} if words.fuel is not None else {})}
    fault = _first_fault(value)
    if fault is not None:
        raise SourceWrong(f"{path}: {fault}")
    assert isinstance(value, dict)
    return value


def _refuse_parameters(path: str, words: argparse.Namespace, what: str) -> None:
    if words.define:
        raise SourceWrong(f"{path}: -D gives a parameter of a .job file, and this is {what}")


def _first_fault(value: object) -> str | None:
    from arena.lint import first_fault_of_job
    fault = first_fault_of_job(value)
    return None if fault is None else str(fault)


def _args(words: argparse.Namespace) -> list[int] | None:
    if not words.args:
        return None
    if len(words.args) > 2:
        raise SourceWrong(f"--args {' '.join(map(str, words.args))}: a job has two arguments; pack more into them")
    return [*words.args, 0][:2]

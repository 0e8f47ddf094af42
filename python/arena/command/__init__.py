"""The command `arena`. Each subcommand stands in a table of its module, from which the parser, the manual page and the
completions are made."""
import importlib
import os
import sys
from collections.abc import Callable, Sequence

from arena.command.call import Call
from arena.command.words import COMMON, Command, Parser, Status, parser_of

ABOUT = ("Runs jobs on arena-server, looks after them, and shows what happened to them. The server's socket and the "
         "tenant are given by options or by ARENA_SOCKET and ARENA_TENANT. It also looks after arena-host, whose run "
         "folder D is given by a word or, if it may be left out, by ARENA_RUN.")

MODULES = {"jobs": ("run", "submit", "wait", "release", "poll", "cancel", "cells", "info", "retire"),
           "building": ("build", "asm", "dis", "lint"), "authoring": ("test", "fmt", "doc"), "advise": ("advise",),
           "shell": ("shell",), "bench": ("bench",), "dumps": ("check", "stat", "timeline"), "host": ("status", "top"),
           "metrics": ("metrics",), "orders": ("stop", "rotate", "host"), "series": ("check-dumps",), "queue": ("queue",),
           "pages": ("pages",)}
"""The modules of the subcommands: only that of the one that is called is loaded."""


def commands_of(module: str) -> tuple[Command, ...]:
    """The subcommands of a module, which this loads."""
    found: tuple[Command, ...] = importlib.import_module(f"arena.command.{module}").COMMANDS
    return found


def all_commands() -> tuple[Command, ...]:
    """All subcommands."""
    return tuple(command for module in MODULES for command in commands_of(module))


def named_command(argv: Sequence[str]) -> str | None:
    """The first word that is no option and no option's value, if there is one."""
    takes = {name for word in COMMON for name in word.names if "action" not in word.more}
    words = iter(argv)
    for word in words:
        if not word.startswith("-"):
            return word
        if word in takes:
            next(words, None)
    return None


def parser(argv: Sequence[str] = ()) -> Parser:
    """The parser of the command's words; for words that name a subcommand, one that knows those of its module."""
    named = named_command(argv)
    if named is None and "--version" in argv:
        return parser_of((), about=ABOUT)
    module = next((module for module, names in MODULES.items() if named in names), None)
    return parser_of(commands_of(module) if module else all_commands(), about=ABOUT)


def main(argv: Sequence[str] | None = None) -> int:
    """Runs the command, and returns its exit status. Wrong words and --help raise SystemExit."""
    argv = sys.argv[1:] if argv is None else argv
    words = parser(argv).parse_args(argv)
    with Call.of(words) as call:
        return guarded(call, words.run)


def guarded(call: Call, run: Callable[[Call], int]) -> int:
    """Runs a subcommand. What goes wrong is said on standard error, and has a status of its own."""
    try:
        status = int(run(call))
        sys.stdout.flush()
        return status
    except KeyboardInterrupt:
        call.output.complain("interrupted")
        return Status.INTERRUPTED
    except BrokenPipeError:
        os.dup2(os.open(os.devnull, os.O_WRONLY), sys.stdout.fileno())  # whoever read has read enough
        return Status.DONE
    except Exception as fault:
        from arena.command.faults import described  # which loads the modules of all faults
        found = described(fault)
        if found is None:
            raise
        call.output.complain(f"arena: {found[1]}")
        return found[0]

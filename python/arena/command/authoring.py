"""The commands for those who write sources, which need no server: test, fmt, doc."""
import os
import random
import sys

from arena.command.call import Call
from arena.command.output import GREEN, RED
from arena.command.sources import SourceWrong, read_text
from arena.command.words import Command, Completes, Status, from_to, option, positional
from arena.texts import counted

FILES = positional("FILE", "a .job file; - is standard input", Completes.JOB_FILE, nargs="+")


def test(call: Call) -> int:
    """Runs the examples in the comments of sources."""
    from arena.language import SourceFault
    draws, ran, wrong = random.Random(call.words.seed), 0, 0
    for path in call.words.FILE:
        text = read_text(path)
        try:
            count, failed = _tested(call, path, text, draws)
        except SourceFault as fault:
            fault.file, fault.text = path, text
            raise SourceWrong(fault.report()) from None
        ran, wrong = ran + count, wrong + failed
    schedules = counted(call.words.schedules, "schedule")
    text = f"{counted(ran, 'example')}, {schedules} each: {wrong} wrong" if ran else "no example: write `# test 10 0 -> 55`"
    call.output.say(call.output.paint(text, RED if wrong or not ran else GREEN), {"examples": ran, "wrong": wrong})
    return Status.FAULT if wrong or not ran else Status.DONE


def _tested(call: Call, path: str, text: str, draws: random.Random) -> tuple[int, int]:
    """Runs the examples of a source; how many there are, and how many gave something else, which is said."""
    from arena.language.examples import differences, examples_of
    examples, failed = examples_of(text), 0
    for it in examples:
        try:
            found = list(differences(text, it, draws, call.words.schedules, path))
        except ValueError as fault:
            raise SourceWrong(f"{path}:{it.line}: {fault}") from None
        if found:
            failed += 1
            slots = counted(found[0].slots, "slot")
            times = f", and on {len(found) - 1} of the other schedules" if len(found) > 1 else ""
            call.output.complain(f"{path}:{it.line}: {it.text}: found {found[0].found} on {slots}{times}")
    return len(examples), failed


def fmt(call: Call) -> int:
    """Writes sources in the usual form."""
    from arena.language import SourceFault
    from arena.language.formatting import formatted
    status = Status.DONE
    for path in call.words.FILE:
        text = read_text(path)
        try:
            made = formatted(text, path)
        except SourceFault as fault:
            raise SourceWrong(fault.report()) from None
        if call.words.check and made != text:
            call.output.complain(f"{path}: not in the usual form; `arena fmt {path}` writes it")
            status = Status.ADVICE
        elif path == "-":
            sys.stdout.write(made)
        elif made != text and not call.words.check:
            _replace(path, made)
    return status


def _replace(path: str, text: str) -> None:
    """Writes a file anew, whole or not at all. A link stays, and the file that it leads to is written."""
    path = os.path.realpath(path)
    part = f"{path}.part"
    with open(part, "w", encoding="utf-8") as it:
        it.write(text)
    os.chmod(part, os.stat(path).st_mode)
    os.replace(part, path)


def doc(call: Call) -> int:
    """Describes a source."""
    from arena.language import SourceFault, compile_source
    from arena.language.describing import described
    path = call.words.FILE
    text = read_text(path)
    try:
        made = described(text, compile_source(text, file=path), os.path.basename(path))
    except SourceFault as fault:
        raise SourceWrong(fault.report()) from None
    print(made, end="")
    return Status.DONE


COMMANDS = (
    Command("test", "run the examples in the comments of .job files",
            "Runs each example that stands in a comment of a .job file, such as `# test 10 0 -> 55`, on several drawn "
            "schedules, in this process: no server is needed. `# test N=8 3 -> fault 1` gives the param N and wants a "
            "fault, and `# test 5 -> 5, seen.sum = 10` also wants the sum of a cell. The status is 1 if an example gave something else, or there "
            "is none.",
            "arena test examples/jobs/fib.job", test,
            (FILES, option("--schedules", help="how many schedules for each example; 8 without it", type=from_to(1), default=8,
                           metavar="N"),
             option("--seed", help="what the schedules are drawn from; 1 without it", type=int, default=1, metavar="N"))),
    Command("fmt", "write .job files in the usual form",
            "Writes .job files in the usual form: four spaces for each block, and one space between words. Comments and the "
            "breaks of lines stay. With --check nothing is written, and the status is 1 if a file is not in that form.",
            "arena fmt --check examples/jobs/fib.job", fmt,
            (FILES, option("--check", help="say which files are not in the usual form, and write none", action="store_true"))),
    Command("doc", "describe a .job file in Markdown",
            "Prints what the comments of a .job file say of it and of its functions, with their parameters, its params and "
            "cells, its examples, and whether it is serial.",
            "arena doc examples/jobs/queens.job", doc, (positional("FILE", "a .job file", Completes.JOB_FILE),)),
)

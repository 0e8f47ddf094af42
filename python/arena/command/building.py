"""The commands that need no server: build, asm, dis, lint."""
import json

from arena.command.call import Call
from arena.command.output import GREEN
from arena.command.proving import Proved, proved
from arena.command.sources import (JobSource, SourceWrong, assembled, compiled, fault_of_config, job_of, read_json, read_text,
                                   source_of)
from arena.command.words import JOB_WORDS, Command, Completes, Status, option, positional

TO = option("-o", "--output", help="write to this file, not to standard output", metavar="FILE",
            completes=Completes.FILE)


def write(call: Call, text: str) -> None:
    """Writes a text that ends a line to --output, or prints it."""
    if call.words.output:
        with open(call.words.output, "w", encoding="utf-8") as it:
            it.write(text + "\n")
    else:
        print(text)


def line_of(value: object) -> str:
    """The compact JSON of a value."""
    return json.dumps(value, separators=(",", ":"), sort_keys=True)


def build(call: Call) -> int:
    """Compiles a job."""
    words = call.words
    if not words.FILE.endswith(".job"):
        raise SourceWrong(f"{words.FILE}: build compiles .job files; `arena asm` is for .jasm files")
    done = compiled(words.FILE, words)
    if words.serial:
        call.output.say("serial" if done.serial else "not serial", {"serial": bool(done.serial)})
        return Status.DONE
    found = proved_of(call)
    text = found.text if found else None
    if words.map:
        if text is not None:
            call.output.complain(f"{words.FILE}: the map is of the job compiled in Python, which --python builds")
        write(call, line_of({**done.source_map(), "procs": done.job.to_value()["procs"]}))
        return Status.DONE
    if found is not None:
        call.output.complain(found.told(words.FILE))
    if text is None:
        text = done.listing().rstrip("\n") if words.S else line_of(done.job.to_value())
    write(call, text)
    return Status.DONE


def proved_of(call: Call) -> Proved | None:
    """What the proved compiler says of the source, where it is there, and unless a word asks for what only the one in Python
    does."""
    words = call.words
    if words.python or words.fuel is not None:
        return None
    return proved(read_text(words.FILE), tuple(words.args or ()), words.define or (), lists=bool(words.S))


def asm(call: Call) -> int:
    """Assembles a job."""
    write(call, line_of(assembled(call.words.FILE, call.words)))
    return Status.DONE


def dis(call: Call) -> int:
    """Takes a job apart."""
    from arena.assembler import disassemble
    from arena.jobs import Job
    write(call, disassemble(Job.from_value(job_of(call.words))).rstrip("\n"))
    return Status.DONE


def lint(call: Call) -> int:
    """Looks for the first fault of a job or of a configuration."""
    path = call.words.FILE
    warnings: list[str] = []
    if path.endswith((".job", ".jasm")):
        warnings = warnings_of(source_of(call.words))
        fault = None
    else:
        from arena.lint import first_fault_of_job
        value = read_json(path)
        is_config = isinstance(value, dict) and ("tenants" in value or "workers" in value)
        fault = fault_of_config(path, value) if is_config else first_fault_of_job(value)
        if fault is None and not is_config:
            warnings = warnings_of(JobSource(value))
    if fault is not None:
        if call.output.json:
            call.output.say("", {"fault": str(fault), "file": path, "valid": False})
            return Status.SOURCE
        raise SourceWrong(f"{path}: {fault}")
    for text in warnings:
        call.output.complain(f"{path}: warning: {text}")
    call.output.say(call.output.paint(f"{path}: valid", GREEN), {"file": path, "valid": True, "warnings": warnings})
    return Status.DONE


def warnings_of(source: JobSource) -> list[str]:
    """Where a job may read what other jobs stored in cells."""
    from arena.cells import reads_of_others
    from arena.jobs import Job
    return [f"{source.place(it.procedure, it.instruction)}: {it}" for it in reads_of_others(Job.from_value(dict(source.job)))]


COMMANDS = (
    Command("build", "compile a .job file to a JOB",
            "Compiles a .job file to the JOB that the server reads, in JSON. -S writes the listing in its place, --map "
            "which line of the source each instruction is of (`arena stat --map` reads it), and --serial whether the "
            "job is serial. The JOB is that of arena-compile, which is proved, if ARENA_COMPILE or the PATH has it and it "
            "takes the source, without --fuel and --python; standard error then says which compiler made it, and -S "
            "then lists its instructions with the names of its procedures, and no lines.",
            "arena build queens.job -D N=8 -o queens.json", build,
            (positional("FILE", "a .job file", Completes.JOB_FILE), *JOB_WORDS[1:],
             option("-S", help="the listing: labels, registers by name, source lines", action="store_true"),
             option("--map", help="the source line of each instruction, as JSON", action="store_true"),
             option("--serial", help="say whether the job is serial", action="store_true"),
             option("--python", help="compile in Python, even where arena-compile is there", action="store_true"), TO)),
    Command("asm", "assemble a .jasm file to a JOB",
            "Assembles a .jasm file to the JOB that the server reads, in JSON.",
            "arena asm sum.jasm --args 100", asm,
            (positional("FILE", "a .jasm file; - is standard input", Completes.JOB_FILE), *JOB_WORDS[1:], TO)),
    Command("dis", "write a job in assembly",
            "Writes any valid JOB, or compiled .job file, in assembly, which assembles back to the same JOB.",
            "arena dis fib.json", dis, (*JOB_WORDS, TO)),
    Command("lint", "say where a job or a configuration is wrong",
            "Says in words where a job, or a configuration of the server, has its first fault, by the server's own "
            "rules; all faults of a .job file. Of a valid job it says where it may read what other jobs stored in cells.",
            "arena lint fib.json", lint, JOB_WORDS),
)

"""`arena advise`: what is unwise in a configuration that is valid."""
import argparse
import resource

from arena.advise import Machine, advice_of, memory_of_machine
from arena.command.call import Call
from arena.command.output import GREEN, YELLOW
from arena.command.sources import SourceWrong, fault_of_config, read_json
from arena.command.words import Command, Completes, Status, from_to, option, positional

GIB = 2**30
MOST_CONNECTIONS = 64


def gib(text: str) -> int:
    """A number of GiB, as a word, in bytes."""
    number = float(text)
    if not 0 < number < 2**40:
        raise argparse.ArgumentTypeError(f"{text}: a number of GiB, more than 0")
    return int(number * GIB)


def descriptors() -> int | None:
    """How many files a process may have open that is started here; None if there is no limit."""
    limit, _ = resource.getrlimit(resource.RLIMIT_NOFILE)
    return None if limit == resource.RLIM_INFINITY else limit


def advise(call: Call) -> int:
    """Says what is unwise."""
    words, path = call.words, call.words.CONFIG
    config = read_json(path)
    fault = fault_of_config(path, config)
    if fault is not None:
        raise SourceWrong(f"{path}: {fault}")
    memory = words.memory or memory_of_machine()
    if memory is None:
        call.output.complain("arena: the memory of this machine is not known, so --memory has to say it")
    rotate_at = words.rotate_at if words.host else None
    found = advice_of(config, Machine(words.connections, memory, rotate_at, descriptors()))
    lines = [call.output.paint(f"{path}: {it}", YELLOW) for it in found]
    call.output.say("\n".join(lines) or call.output.paint(f"{path}: nothing to advise", GREEN),
                    {"advice": [it.to_value() for it in found], "file": path})
    return Status.ADVICE if found else Status.DONE


COMMANDS = (
    Command("advise", "say what is unwise in a valid configuration",
            "Says of a configuration: which tenants have no slot for workers, so that what is submitted there never "
            "runs; which can keep all workers of arena-server, since there are fewer of them than worker slots; whether its "
            "histories have more room than the machine has memory; and which histories are so short that they are full, or that "
            "arena-host rotates, after a few jobs; and whether arena-host, started here, may have too few files open for its "
            "connections. The status is 1 if there is something to say.",
            "arena advise config.json --host", advise,
            (positional("CONFIG", "a configuration of arena-server or arena-host, in JSON; - is standard input",
                        Completes.CONFIG),
             option("--host", help="it is for arena-host, which rotates; else for arena-server", action="store_true"),
             option("--rotate-at", help="the word of arena-host, in per cent; 50 without it", type=from_to(1, 100),
                    default=50, metavar="P"),
             option("--connections", help=f"how many connections there are at a time; {MOST_CONNECTIONS} without it",
                    type=from_to(1, MOST_CONNECTIONS), default=MOST_CONNECTIONS, metavar="N"),
             option("--memory", help="the memory of the machine that serves it; else that of this one", type=gib,
                    metavar="GIB"))),
)

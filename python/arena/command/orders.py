"""The commands that order arena-host: stop, rotate, and host, which runs it."""
import argparse

from arena.command.call import Call
from arena.command.script import ProgramFault, program_named
from arena.command.words import ITS_FOLDER, Command, Completes, Status, Word, option, positional, seconds
from arena.host import orders, parent


def stop(call: Call) -> int:
    """Lets a host stop, and waits for its end."""
    folder = call.folder
    done = orders.stop(folder, call.words.wait)
    another = "; another one runs there now" if done.another else ""
    call.output.say(f"{folder.path}: the host has ended, {done.seconds:.1f} s after the order{another}",
                    {"another": done.another, "ended": True, "seconds": round(done.seconds, 3)})
    return Status.DONE


def rotate(call: Call) -> int:
    """Lets a host open the next term of a tenant, or of each one, and waits until they serve."""
    folder = call.folder
    done = orders.rotate(folder, call.words.wait, call.words.only)
    terms = ", ".join(f"{name}.{number:06}" for name, number in done.terms.items()) or "no tenant"
    call.output.say(f"{folder.path}: {terms} served, {done.seconds:.1f} s after the order",
                    {"seconds": round(done.seconds, 3), "terms": done.terms})
    return Status.DONE


def host(call: Call) -> int:
    """Runs a host until it has ended; a signal that ends services stops it in order. Returns its status."""
    program = program_named("arena-host", "--program", call.words.program, "ARENA_HOST")
    words = call.words.WORDS[1:] if call.words.WORDS[:1] == ["--"] else call.words.WORDS
    try:
        return parent.run_host(program, words, call.folder)
    except (FileNotFoundError, PermissionError) as fault:
        raise ProgramFault(f"{program}: {fault.strerror}") from None


def wait_word(default: int) -> Word:
    """How long an order may take."""
    return option("--wait", help=f"how long the order may take; {default} without it", type=seconds, metavar="SECONDS",
                  default=float(default))


COMMANDS = (
    Command("stop", "stop a host in order, and wait for its end",
            "Removes D/socket, which is the order to stop, and waits until the host has given D/lock back. It lets its "
            "sessions and jobs finish, closes all terms and writes their files. What it found at the close is in its own "
            "exit status.",
            "arena stop /var/lib/arena", stop, (ITS_FOLDER, wait_word(60))),
    Command("rotate", "let a host open the next term of its tenants, and wait until they serve",
            "Makes D/rotate, or D/rotate.NAME with --only NAME, and waits until D/status.json shows newer terms than before. "
            "The host reads its configuration anew for it: tenants that are new are served, and those that are gone are "
            "left. Connections and jobs that are there stay.",
            "arena rotate /var/lib/arena --wait 10", rotate,
            (ITS_FOLDER, option("--only", help="the tenant; each one without it", metavar="NAME"), wait_word(30))),
    Command("host", "run a host that SIGTERM stops in order",
            "Runs `arena-host WORDS --run D` and waits for its end. SIGTERM, SIGINT and SIGHUP remove D/socket, which is the order "
            "to stop, where arena-host itself would end at once by them. So it is what a container, or a supervisor that "
            "sends signals, should start. Its exit status is that of arena-host, or 128 and the number of the signal that ended it.",
            "arena host /var/lib/arena --config /etc/arena/config.json --mode 660", host,
            (option("--program", help="the program arena-host; else ARENA_HOST, else the one on the PATH, else out/arena-host",
                    metavar="PATH", completes=Completes.FILE),
             ITS_FOLDER, positional("WORDS", "the words of arena-host, but for --run", nargs=argparse.REMAINDER))),
)

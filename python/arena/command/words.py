"""What the words of the command are: one table, from which its parser, its manual page and its completions are made."""
import argparse
import enum
from collections.abc import Callable, Sequence
from dataclasses import dataclass, field, replace
from typing import TYPE_CHECKING, Any, NamedTuple, NoReturn

from arena.version import VERSION

if TYPE_CHECKING:
    from arena.command.call import Call


class Status(enum.IntEnum):
    """The exit statuses. An error reply of the server has its code and 20: error 8 ends with 28."""

    DONE = 0
    FAULT = 1
    ADVICE = 1
    UNCHANGED = 1
    WORDS = 2
    CANCELED = 3
    RUNNING = 4
    SOURCE = 5
    CONNECTION = 6
    TIMEOUT = 7
    FILE = 8
    DUMP = 9
    PROGRAM = 10
    HOST = 11
    QUEUE = 12
    REFUSED = 20
    INTERRUPTED = 130


STATUS_TEXTS = {
    Status.DONE: "done; the job is complete",
    Status.FAULT: "the job ended with a fault; `cancel` changed nothing; `advise` has something to say; `test` found another "
                  "value, or no example; `fmt --check` a file in another form",
    Status.WORDS: "the words are wrong, or no tenant or folder is named",
    Status.CANCELED: "the job was cancelled",
    Status.RUNNING: "the job is still running",
    Status.SOURCE: "a job or configuration is not valid; its place is said",
    Status.CONNECTION: "no server at the socket, or it ended the connection",
    Status.TIMEOUT: "no reply within --timeout, or an order was not carried out within --wait",
    Status.FILE: "a file can't be read or written, or an address not listened on",
    Status.DUMP: "a dump is not one that a server wrote, `check` says no to it, or it is missing",
    Status.PROGRAM: "arena-script or arena-host is not found, or failed",
    Status.HOST: "no arena-host runs in the folder, or its status.json is stale or is none; for `host`, one runs there already",
    Status.QUEUE: "the queue refuses what is asked for, or its file can't be used",
    Status.REFUSED: "from 21 to 33: the server's error reply, by 20 and its code (docs/PROTOCOL.md)",
    Status.INTERRUPTED: "interrupted from the keyboard",
}


class Completes(enum.Enum):
    """What a shell offers for a word."""

    NOTHING = "nothing"
    JOB_FILE = "job file"
    DUMP = "dump"
    CONFIG = "configuration"
    FILE = "file"
    FOLDER = "folder"


@dataclass(frozen=True)
class Word:
    """A positional word, whose only name has no dash, or an option. `more` goes to argparse."""

    names: tuple[str, ...]
    help: str
    completes: Completes = Completes.NOTHING
    more: dict[str, Any] = field(default_factory=dict)

    @property
    def is_option(self) -> bool:
        """Whether it begins with a dash."""
        return self.names[0].startswith("-")

    @property
    def shown(self) -> str:
        """Its names and what follows them, as in a manual."""
        if not self.is_option:
            return self.names[0]
        takes = self.more.get("metavar") or "|".join(self.more.get("choices", ()))
        takes = " ".join(takes) if isinstance(takes, tuple) else takes
        return ", ".join(self.names) + (f" {takes}" if takes else "")


@dataclass(frozen=True)
class Command:
    """A subcommand: `text` says more than its `summary`, and `example` is a line that one may type. One that is a family has
    `inner` ones, and does nothing itself."""

    name: str
    summary: str
    text: str
    example: str
    run: Callable[["Call"], int] | None = None
    words: tuple[Word, ...] = ()
    in_shell: bool = False
    inner: tuple["Command", ...] = ()

    @property
    def family(self) -> tuple["Command", ...]:
        """It, or its inner ones with both names."""
        return tuple(replace(it, name=f"{self.name} {it.name}") for it in self.inner) or (self,)


def option(*names: str, help: str, completes: Completes = Completes.NOTHING, **more: Any) -> Word:
    """An option."""
    return Word(names, help, completes, more)


def positional(name: str, help: str, completes: Completes = Completes.NOTHING, **more: Any) -> Word:
    """A positional word."""
    return Word((name,), help, completes, more)


class Assignment(NamedTuple):
    """A parameter of a source with its value."""

    name: str
    value: int


def assignment(text: str) -> Assignment:
    """`N=8` as a name with its number."""
    name, equals, value = text.partition("=")
    if not equals or not name.isidentifier():
        raise argparse.ArgumentTypeError(f"{text}: write NAME=NUMBER")
    return Assignment(name, integer(value))


def integer(text: str) -> int:
    """A whole number as in a source: 1_000, 0x1f, -5. One from 2^63 to 2^64 - 1 stands for that with the same bits."""
    number = int(text, 0) if text.lower().lstrip("+-").startswith("0x") else int(text)
    return number - 2**64 if 2**63 <= number < 2**64 else number


def from_to(least: int, most: int | None = None) -> Callable[[str], int]:
    """The type of a word that is a number in a range, or from a least one on."""
    def number(text: str) -> int:
        """The number."""
        found = int(text)
        if found < least or most is not None and found > most:
            raise argparse.ArgumentTypeError(f"{text}: a number from {least} {'on' if most is None else f'to {most}'}")
        return found
    return number


COMMON = (
    option("-s", "--socket", help="the server's socket; else ARENA_SOCKET, else /tmp/arena.sock", metavar="PATH",
           completes=Completes.FILE),
    option("-t", "--tenant", help="the tenant's name; else ARENA_TENANT", metavar="NAME"),
    option("--timeout", help="how long to wait for each reply; without it, for as long as the server does",
           type=lambda text: seconds(text), metavar="SECONDS"),
    option("--json", help="print JSON, one value a line, for scripts", action="store_true"),
    option("--color", help="colours: on a terminal, always or never", choices=("auto", "always", "never")),
)

JOB_WORDS = (
    positional("FILE", "a job: .job is compiled, .jasm assembled, and any other file is a JOB in JSON; - is standard "
               "input",
               Completes.JOB_FILE),
    option("--args", help="the job's arguments, 0 if they are left out; for a .job file one for each parameter of its "
           "main", nargs="+", type=integer, metavar=("X", "Y")),
    option("--fuel", help="its fuel: how many instructions it may execute; 1,000,000, the most, unless this or "
           "its file says less", type=int, metavar="N"),
    option("-D", "--define", help="gives a parameter of a .job file its value", action="append", type=assignment,
           metavar="NAME=N"),
)


FOLDER = positional("D", "the run folder of arena-host; else ARENA_RUN", Completes.FOLDER, nargs="?")
ITS_FOLDER = positional("D", "the run folder of arena-host", Completes.FOLDER)


def seconds(text: str) -> float:
    """A number of seconds, as a word."""
    number = float(text)
    if not 0 <= number <= 86_400 * 365:
        raise argparse.ArgumentTypeError(f"{text}: a number of seconds, 0 or more")
    return number


class Parser(argparse.ArgumentParser):
    """A parser whose faults say how to go on."""

    def error(self, message: str) -> NoReturn:
        """Ends with status 2."""
        self.exit(Status.WORDS, f"{self.prog}: {message}\n{self.prog}: `{self.prog} --help` shows its words\n")


def parser_of(commands: Sequence[Command], prog: str = "arena", about: str = "") -> Parser:
    """The parser of the whole command."""
    parser = Parser(prog=prog, description=about, allow_abbrev=False,
                    formatter_class=argparse.RawDescriptionHelpFormatter,
                    epilog=f"`{prog} COMMAND --help` shows a command's words, with an example.\n\nexit status:\n"
                    + statuses())
    for word in COMMON:
        _add(parser, word, {"default": None})
    parser.add_argument("--version", action="version", version=f"{prog} {VERSION}", help="print the version")
    _add_commands(parser, commands, "command")
    return parser


def _add_commands(parser: argparse.ArgumentParser, commands: Sequence[Command], named: str) -> None:
    inner = parser.add_subparsers(dest=named, metavar="COMMAND", required=True)
    for command in commands:
        sub = inner.add_parser(command.name, help=command.summary, description=command.text, allow_abbrev=False,
                               epilog=f"example:\n  {command.example}",
                               formatter_class=argparse.RawDescriptionHelpFormatter)
        for word in command.words:
            _add(sub, word, {})
        for word in COMMON:
            _add(sub, word, {"default": argparse.SUPPRESS})
        if command.inner:
            _add_commands(sub, command.inner, f"{command.name}_command")
        else:
            sub.set_defaults(run=command.run)


def _add(parser: argparse.ArgumentParser, word: Word, more: dict[str, Any]) -> None:
    parser.add_argument(*word.names, help=word.help.replace("%", "%%"), **{**word.more, **more})


def statuses() -> str:
    """The exit statuses, a line each."""
    return "\n".join(f"  {status.value:>4}  {text}" for status, text in STATUS_TEXTS.items())

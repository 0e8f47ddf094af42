"""`arena shell`: the commands that ask the server, line by line over one connection."""
import os
import shlex
import sys
from collections.abc import Callable, Iterator

from arena.command.call import Call
from arena.command.words import Command, Parser, Status, parser_of

ABOUT = ("Lines of the shell, in which `arena` may be left out. One that begins with { is sent as it is; `quit`, or the "
         "end of the input, ends the shell.")
LINES_KEPT = 1000


class Completer:
    """Completes a line for readline: commands, their options, and files."""

    def __init__(self, names: list[str]) -> None:
        self.names = names
        self._found: list[str] = []

    def __call__(self, text: str, state: int) -> str | None:
        if state == 0:
            self._found = list(self.completions(text, self.line()))
        return self._found[state] if state < len(self._found) else None

    def line(self) -> str:
        """What is typed before the word."""
        import readline
        return readline.get_line_buffer()[: readline.get_begidx()]

    def completions(self, text: str, before: str) -> Iterator[str]:
        """The words that begin with a text, after what is typed before it."""
        if not before.strip():
            yield from (f"{name} " for name in self.names if name.startswith(text))
            return
        folder, name = os.path.split(text)
        try:
            found = sorted(it.name + ("/" if it.is_dir() else "") for it in os.scandir(folder or ".")
                           if it.name.startswith(name))
        except OSError:
            return
        yield from (os.path.join(folder, it) for it in found)


def history_file() -> str:
    """Where the lines are kept from one shell to the next."""
    state = os.environ.get("XDG_STATE_HOME") or os.path.expanduser("~/.local/state")
    return os.path.join(state, "arena", "history")


def edit_lines(names: list[str]) -> Callable[[], None]:
    """Gives the terminal line editing, history and completion; what is returned keeps the history."""
    try:
        import readline
    except ImportError:
        return lambda: None
    path = history_file()
    readline.set_completer_delims(" ")
    readline.set_completer(Completer(names))
    readline.parse_and_bind("tab: complete")
    try:
        readline.read_history_file(path)
    except OSError:
        pass  # the first shell

    def keep() -> None:
        """Keeps the history."""
        try:
            os.makedirs(os.path.dirname(path), exist_ok=True)
            readline.set_history_length(LINES_KEPT)
            readline.write_history_file(path)
        except OSError as fault:
            print(f"arena: the history was not kept: {fault}", file=sys.stderr)
    return keep


def lines(prompt: str) -> Iterator[str]:
    """The lines that are typed, or read from a pipe."""
    while True:
        try:
            yield input(prompt if sys.stdin.isatty() else "").strip()
        except EOFError:
            return
        except KeyboardInterrupt:
            if not sys.stdin.isatty():
                raise
            print()  # what is typed is given up


def send_as_is(call: Call, line: str) -> int:
    """Sends a line that is typed as JSON, and prints the reply."""
    print(call.client.exchange(line.encode()).decode(errors="replace"))
    return Status.DONE


def renewed(call: Call) -> Call:
    """The call with a connection on which no reply is late: otherwise the next command would wait for that, such as for
    the end of a job whose `wait` was interrupted. Raises ConnectionLost, TimedOut."""
    if not call.client.is_open or call.client.late:
        call.client.reconnect()
        call.output.complain("arena: the connection was made anew; if arena-host has rotated meanwhile, jobs of before are "
                             "not known on it")
    return call


def one(call: Call, parser: Parser, line: str) -> int:
    """Does what one line says. Its faults are printed, and do not end the shell."""
    from arena.command import guarded
    if line.startswith("{"):
        return guarded(call, lambda it: send_as_is(renewed(it), line))
    try:
        typed = shlex.split(line)
        words = parser.parse_args(typed[1:] if typed[0] == "arena" else typed)
    except ValueError as fault:
        call.output.complain(f"arena: {fault}: {line}")
        return Status.WORDS
    except SystemExit as end:
        return int(end.code or 0)
    for name in ("json", "color", "timeout", "socket", "tenant"):
        if getattr(words, name) is None:
            setattr(words, name, getattr(call.words, name))
    return guarded(call.again(words), lambda it: int(words.run(renewed(it))))


def shell(call: Call) -> int:
    """Takes lines until they end; the status is that of the last one, if they are not typed."""
    from arena.command import all_commands
    known = [command for command in all_commands() if command.in_shell]
    parser = parser_of(known, about=ABOUT)
    call.client.arena()
    typed = sys.stdin.isatty()
    keep = edit_lines([*(command.name for command in known), "help", "quit"]) if typed else lambda: None
    status: int = Status.DONE
    for line in lines(f"{call.tenant}> "):
        if line in ("quit", "exit"):
            break
        if line:
            status = one(call, parser, "--help" if line in ("help", "?") else line)
        if status == Status.INTERRUPTED and not typed:
            break
    keep()
    return Status.DONE if typed else status


COMMANDS = (
    Command("shell", "take commands line by line, over one connection",
            "Takes the commands that ask the server, line by line, over one connection, with line editing, history and "
            "completion on a terminal. A line that begins with { is sent as it is. Without a terminal the exit status "
            "is that of the last line.", "arena shell --tenant acme", shell),
)

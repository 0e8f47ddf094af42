"""Calls of the command that are compared with how they should end."""
import json
import os
import re
import signal
from collections.abc import Callable, Sequence

from serving import Done, arena_command


def by_keyboard() -> None:
    """Lets a process be interrupted, as from the keyboard, also where the check itself is run with interrupts ignored."""
    signal.signal(signal.SIGINT, signal.SIG_DFL)


def differs(words: Sequence[str], done: Done, status: int, out: str | re.Pattern, err: str) -> bool:
    """Whether a call ended otherwise than is wanted; `err` must be found in what is said on standard error, or
    nothing be said."""
    same = done.stdout == out if isinstance(out, str) else bool(out.fullmatch(done.stdout))
    said = re.search(err, done.stderr) if err else not done.stderr
    if same and said and done.returncode == status:
        return False
    print(f"arena {' '.join(words)}: status {done.returncode}, not {status}; printed {done.stdout!r}, not {out!r}; "
          f"said {done.stderr!r}, not {err!r}")
    return True


class Calls:
    """Calls of the command with an environment, files of theirs in a folder, and how many ended otherwise than is
    wanted."""

    def __init__(self, folder: str, **known: str) -> None:
        self.folder, self.known, self.count, self.differ = folder, known, 0, 0

    def path(self, name: str) -> str:
        """A path in the folder."""
        return os.path.join(self.folder, name)

    def file(self, name: str, content: object) -> str:
        """A file with this text, or this JSON."""
        with open(self.path(name), "w") as it:
            it.write(content if isinstance(content, str) else json.dumps(content))
        return self.path(name)

    def call(self, *words: str, status: int = 0, out: str | re.Pattern = "", err: str = "", stdin: str = "",
             how: Callable[..., Done] = arena_command, **more: str) -> None:
        """Makes one call, within this process or as one of its own."""
        self.count += 1
        self.differ += differs(words, how(*words, stdin=stdin, **{**self.known, **more}), status, out, err)

#!/usr/bin/env python3
"""Types lines into an interactive bash, without `extglob`, and into an interactive zsh, with the completion of each,
and compares what TAB makes of them. A shell that is not installed is skipped. The last line says how many there are.

usage: checks/python/completions.py, at the top of the repository.
"""
import fcntl
import os
import pty
import re
import select
import shutil
import struct
import subprocess
import sys
import tempfile
import termios
import time
from dataclasses import dataclass

PATIENCE = 60
FOLDER = os.path.abspath("python/completion")
FILES = ("jobs/fib.job", "jobs/fib.txt", "dumps/acme.jsonl", "dumps/acme.txt", "dumps/check", "my jobs/it.jasm")

# What is typed, and what it is after TAB.
LINES = {
    "arena ru": "arena run ",
    "arena -t acme --json ret": "arena -t acme --json retire ",
    "arena run jobs/fi": "arena run jobs/fib.job ",
    "arena --json run jobs/fi": "arena --json run jobs/fib.job ",
    "arena run my": "arena run my\\ jobs/",
    "arena run my\\ jobs/i": "arena run my\\ jobs/it.jasm ",
    "arena run jobs/fib.job --ar": "arena run jobs/fib.job --args ",
    "arena stat du": "arena stat dumps/",
    "arena stat dumps/ac": "arena stat dumps/acme.jsonl ",
    "arena check dumps/acme.jsonl --script dumps/ch": "arena check dumps/acme.jsonl --script dumps/check ",
    "arena timeline dumps/acme.jsonl --ax": "arena timeline dumps/acme.jsonl --axis ",
    "arena timeline dumps/acme.jsonl --axis cl": "arena timeline dumps/acme.jsonl --axis clock ",
    "arena timeline dumps/acme.jsonl --map jobs/fib.t": "arena timeline dumps/acme.jsonl --map jobs/fib.txt ",
    "arena info --color al": "arena info --color always ",
    "arena info --he": "arena info --help ",
    "arena pages z": "arena pages zsh ",
    "arena run jobs/fib.job --args 3 4 --js": "arena run jobs/fib.job --args 3 4 --json ",
    "arena cells ": "arena cells ",
    "arena que": "arena queue ",
    "arena queue su": "arena queue submit ",
    "arena -t acme queue re": "arena -t acme queue re",
    "arena queue res": "arena queue result ",
    "arena queue submit jobs/fi": "arena queue submit jobs/fib.job ",
    "arena queue submit jobs/fib.job --pri": "arena queue submit jobs/fib.job --priority ",
    "arena queue submit jobs/fib.job --synchronous no": "arena queue submit jobs/fib.job --synchronous normal ",
    "arena queue list --state de": "arena queue list --state dead ",
    "arena queue run --wi": "arena queue run --window ",
}


@dataclass(frozen=True)
class Shell:
    """A shell: how it is called, its completion, and what is typed first. That binds a key to a function which prints
    the line between << and >>, and makes it empty."""

    words: tuple[str, ...]
    completion: str
    first: str

    @property
    def name(self) -> str:
        """Its name."""
        return self.words[0]


BASH = Shell(("bash", "--norc", "--noprofile", "-i"), "arena",
             f"shopt -u extglob; source '{FOLDER}/arena'; bind 'set bell-style none'; "
             "show() { printf '<%s>>\\n' \"<$READLINE_LINE\"; READLINE_LINE=; }; bind -x '\"\\C-t\": show'")
ZSH = Shell(("zsh", "-f", "-i"), "_arena",
            f"fpath=('{FOLDER}' $fpath); autoload -Uz compinit; compinit -u -D; unsetopt beep; "
            "show() { print -r -- \"<\"\"<$BUFFER>>\"; BUFFER=; }; zle -N show; bindkey '^T' show")


class Typed:
    """A shell at a terminal of its own, in a folder with files to complete."""

    def __init__(self, shell: Shell, folder: str) -> None:
        self.ours, theirs = pty.openpty()
        fcntl.ioctl(theirs, termios.TIOCSWINSZ, struct.pack("4H", 50, 500, 0, 0))
        environment = {"PATH": os.environ["PATH"], "TERM": "dumb", "HOME": folder, "LC_ALL": "C.UTF-8",
                       "INPUTRC": os.devnull}
        self.process = subprocess.Popen(shell.words, stdin=theirs, stdout=theirs, stderr=theirs, cwd=folder,
                                        env=environment, start_new_session=True)
        os.close(theirs)
        self.type(f"{shell.first}; echo READY-$((1+1))\n", r"READY-2")

    def type(self, text: str, until: str) -> str:
        """Types a text, and returns what the first group of a pattern matches in what is shown then."""
        os.write(self.ours, text.encode())
        shown, deadline = "", time.monotonic() + PATIENCE
        while not (found := re.search(until, shown)):
            if not select.select([self.ours], [], [], deadline - time.monotonic())[0]:
                raise TimeoutError(f"{text!r} shows {shown!r}")
            shown += os.read(self.ours, 65536).decode(errors="replace")
        return found[found.re.groups]

    def after_tab(self, line: str) -> str:
        """What a line is after TAB."""
        return self.type(f"{line}\t\x14", "<<(.*?)>>")

    def close(self) -> None:
        """Ends the shell."""
        self.process.kill()
        self.process.wait()
        os.close(self.ours)


def differences(shell: Shell) -> int:
    """How many lines a shell completes otherwise than is wanted, each of which is printed."""
    subprocess.run([shell.name, "-n", os.path.join(FOLDER, shell.completion)], check=True)
    differ = 0
    with tempfile.TemporaryDirectory() as folder:
        for name in FILES:
            os.makedirs(os.path.join(folder, os.path.dirname(name)), exist_ok=True)
            open(os.path.join(folder, name), "w").close()
        typed = Typed(shell, folder)
        try:
            for line, wanted in LINES.items():
                if (found := typed.after_tab(line)) != wanted:
                    differ += 1
                    print(f"{shell.name}: {line!r} becomes {found!r}, not {wanted!r}")
        finally:
            typed.close()
    return differ


def main() -> int:
    """Tries each shell that is there."""
    differ, tried = 0, []
    for shell in (BASH, ZSH):
        if shutil.which(shell.name):
            differ += differences(shell)
            tried.append(shell.name)
        else:
            print(f"{shell.name} is not installed: its completion was skipped")
    print(f"{len(LINES)} lines in {' and '.join(tried) or 'no shell'}: {differ} completed otherwise than is wanted")
    return differ


if __name__ == "__main__":
    sys.exit(bool(main()))

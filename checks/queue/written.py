"""What a program has written to files, call by call, as strace saw it, and what a power cut may leave of that."""
import ast
import pathlib
import random
import re
import subprocess
from collections.abc import Iterator, Sequence
from dataclasses import dataclass, field

CALLS = "pwrite64,write,fdatasync,fsync,ftruncate"
LINE = re.compile(r'(\w+)\(\d+<(.*?)>(?:, "(.*)")?(?:, (\d+))?(?:, (\d+))?\) += (\d+)')
SECTOR = 512
"""Of a write that was under way, whole sectors are on the disk."""


@dataclass(frozen=True, slots=True)
class Written:
    """Bytes at a place of a file; None stands for its new length."""

    path: str
    at: int
    bytes: bytes | None


@dataclass(frozen=True, slots=True)
class Flushed:
    """A file that was flushed."""

    path: str


@dataclass(frozen=True, slots=True)
class Said:
    """What the program has printed, which is what others know."""

    text: str


Event = Written | Flushed | Said


def traced(words: Sequence[object], log: pathlib.Path, patience: float, **more: object) -> list[Event]:
    """What a program does that prints to a pipe. Raises CalledProcessError."""
    subprocess.run(["strace", "-y", "-xx", "-s", "1000000", "-e", f"trace={CALLS}", "-o", log, *map(str, words)], check=True,
                   stdout=subprocess.PIPE, timeout=patience, **more)
    with open(log) as lines:
        return [it for line in lines if (found := LINE.match(line)) for it in events_of(*found.groups())]


def events_of(call: str, path: str, text: str | None, first: str | None, second: str | None, result: str) -> Iterator[Event]:
    """The event of a call."""
    name = unescaped(path).decode()
    data = b"" if text is None else unescaped(text)[:int(result)]
    match call:
        case "pwrite64":
            yield Written(name, int(second or 0), data)
        case "ftruncate":
            yield Written(name, int(first or 0), None)
        case "fdatasync" | "fsync":
            yield Flushed(name)
        case "write" if name.startswith("pipe:"):
            yield Said(data.decode())


def unescaped(text: str) -> bytes:
    """The bytes of a string as strace prints it."""
    found: bytes = ast.literal_eval(f'b"{text}"')
    return found


@dataclass
class Disk:
    """What is on the disk for certain, and what was written since and may be there or not."""

    files: dict[str, bytearray]
    since: dict[str, list[Written]] = field(default_factory=dict)

    def take(self, event: Event) -> None:
        """Notes the next event."""
        match event:
            case Written(path, _, _) if path in self.files:
                self.since.setdefault(path, []).append(event)
            case Flushed(path) if path in self.files:
                for it in self.since.pop(path, []):
                    write(self.files[path], it)

    def cut(self, draws: random.Random) -> dict[str, bytearray]:
        """The files after a power cut: each write since the last flush is there, or not, or in part, whatever came after it."""
        found = {path: bytearray(it) for path, it in self.files.items()}
        for path, writes in self.since.items():
            share = draws.random()
            for it in writes:
                if draws.random() < share:
                    write(found[path], it if draws.random() < 0.9 else torn(it, draws))
        return found


def torn(it: Written, draws: random.Random) -> Written:
    """A write of which only the first sectors have come to the disk."""
    return it if it.bytes is None else Written(it.path, it.at, it.bytes[:SECTOR * draws.randrange(len(it.bytes) // SECTOR + 1)])


def write(file: bytearray, it: Written) -> None:
    """Does what a write does."""
    length = it.at if it.bytes is None else it.at + len(it.bytes)
    file.extend(bytes(max(0, length - len(file))))
    if it.bytes is None:
        del file[it.at:]
    else:
        file[it.at:length] = it.bytes

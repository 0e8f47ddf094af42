"""The numbers that the repository keeps, and how a new count is judged by them."""
import enum
import json
import pathlib
from dataclasses import asdict, dataclass

FILE = pathlib.Path(__file__).with_name("kept.json")
BOUND = 0.03


class Verdict(enum.Enum):
    """What a count is beside the number that is kept."""
    SAME = "as kept"
    GREATER = "GREATER"
    SMALLER = "smaller: keep it (--keep)"
    NOT_KEPT = "NOT KEPT (--keep)"

    @property
    def is_refused(self) -> bool:
        return self in (Verdict.GREATER, Verdict.NOT_KEPT)


@dataclass(frozen=True)
class Kept:
    """Instructions by the name of each fixed run, and the commit, the day, the valgrind and the processor by which they were
    counted."""
    commit: str
    date: str
    valgrind: str
    processor: str
    instructions: dict[str, float]


def verdict(kept: float | None, now: float, bound: float = BOUND) -> Verdict:
    """A count is greater or smaller than the kept number only if it differs from that by more than a share of it."""
    if kept is None:
        return Verdict.NOT_KEPT
    if now > kept * (1 + bound):
        return Verdict.GREATER
    return Verdict.SMALLER if now < kept * (1 - bound) else Verdict.SAME


def read(file: pathlib.Path = FILE) -> Kept:
    """The numbers of the repository; none if there is no file."""
    if not file.exists():
        return Kept("none", "never", "none", "none", {})
    return Kept(**json.loads(file.read_text()))


def write(kept: Kept, file: pathlib.Path = FILE) -> None:
    """Keeps the numbers."""
    file.write_text(json.dumps(asdict(kept), indent=2) + "\n")

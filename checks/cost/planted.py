"""Checks of the comparison itself: slownesses that are planted in the kept numbers, not in a program."""
import contextlib
import io
import pathlib
from collections.abc import Iterator

from costs import SKIPPED, judged
from fixed import Fixed
from kept import Kept, Verdict, verdict

NOW = 592.0


def kept_as(instructions: dict[str, float]) -> Kept:
    return Kept("planted", "today", "valgrind", "processor", instructions)


def status(kept: Kept, valgrind: str | None) -> tuple[int, str]:
    """How a fixed run that always takes NOW is judged, and what is printed of it."""
    steady = Fixed("steady", "a unit", "none", lambda _: NOW)
    said = io.StringIO()
    with contextlib.redirect_stdout(said):
        ended = judged(pathlib.Path(), kept, valgrind, (steady,))
    return ended, said.getvalue()


def faults() -> Iterator[str]:
    """What the comparison does and should not."""
    rows = [("4 % below", 0.96 * NOW, Verdict.GREATER), ("2 % below", 0.98 * NOW, Verdict.SAME),
            ("the same", NOW, Verdict.SAME), ("2 % above", 1.02 * NOW, Verdict.SAME),
            ("4 % above", 1.04 * NOW, Verdict.SMALLER), ("none", None, Verdict.NOT_KEPT)]
    for name, kept, wanted in rows:
        if verdict(kept, NOW) != wanted:
            yield f"a kept number that is {name}: {verdict(kept, NOW)}, not {wanted}"
        given = {} if kept is None else {"steady": kept}
        ended, said = status(kept_as(given), "valgrind")
        if ended != int(wanted.is_refused) or wanted.value not in said:
            yield f"a kept number that is {name}: status {ended}, {said!r}"
    if status(kept_as({"steady": 1.0}), None) != (0, SKIPPED + "\n"):
        yield "without valgrind: not skipped"

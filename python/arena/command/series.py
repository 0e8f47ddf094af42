"""`arena check-dumps`: all dumps of a run folder."""
from dataclasses import dataclass
from typing import Any

from arena.command.call import Call
from arena.command.output import GREEN, RED, YELLOW, Progress
from arena.command.script import SCRIPT, script_of, verdict_of
from arena.command.words import ITS_FOLDER, Command, Status
from arena.host.dumps import DumpFile, Hole, dumps_in, name_of
from arena.texts import counted


@dataclass
class Counts:
    """What was found: dumps that `check` says yes to, others, parts, terms without a dump, and whether anything
    is amiss."""

    yes: int = 0
    other: int = 0
    parts: int = 0
    missing: int = 0
    amiss: bool = False

    def to_text(self) -> str:
        """The counts in words."""
        found = counted(self.yes + self.other, "dump")
        return f"{found}: {self.yes} yes, {self.other} not; {self.parts} in part, {self.missing} missing"

    def to_value(self) -> dict[str, Any]:
        """The counts as JSON."""
        return {"amiss": self.amiss, "missing": self.missing, "other": self.other, "parts": self.parts, "yes": self.yes}


def check_dumps(call: Call) -> int:
    """Checks each dump of a folder, and says what is missing."""
    script, counts = script_of(call), Counts()
    mine = [it for it in dumps_in(call.folder) if call.words.tenant in (None, it.tenant)]
    progress = Progress("checking", len(mine))
    for at, it in enumerate(mine):
        progress.at(at)
        text, colour, value = _of_hole(it, counts) if isinstance(it, Hole) else _of_file(it, counts, script)
        progress.end()
        call.output.say(call.output.paint(text, colour), value)
    call.output.say(counts.to_text(), counts.to_value())
    return Status.DUMP if counts.amiss else Status.DONE


def _of_file(it: DumpFile, counts: Counts, script: str) -> tuple[str, str, dict[str, Any]]:
    """What is said of a file: its text, its colour, its value."""
    name, value = name_of(it.tenant, it.term), {"file": it.path, "tenant": it.tenant, "term": it.term}
    if not it.is_whole:
        counts.parts += 1
        counts.amiss |= it.amiss
        why = "a host writes it" if it.is_open else "a host was ended while it wrote it, and the next one removes it"
        return f"{name}: part, {why}", RED if it.amiss else YELLOW, {**value, "verdict": "part"}
    try:
        verdict = verdict_of(script, it.path)
    except FileNotFoundError:  # the host keeps the newest dumps alone
        return f"{name}: removed meanwhile", YELLOW, {**value, "verdict": "removed"}
    is_yes = verdict == "yes"
    counts.yes += is_yes
    counts.other += not is_yes
    counts.amiss |= not is_yes
    return f"{name}: {verdict}", GREEN if is_yes else RED, {**value, "verdict": verdict}


def _of_hole(it: Hole, counts: Counts) -> tuple[str, str, dict[str, Any]]:
    """What is said of terms without a dump."""
    counts.missing += (it.last - it.term + 1) * it.amiss
    counts.amiss |= it.amiss
    to = f" to {name_of(it.tenant, it.last)}" if it.last > it.term else ""
    value = {"amiss": it.amiss, "last": it.last, "tenant": it.tenant, "term": it.term, "verdict": "missing", "why": it.why}
    return f"{name_of(it.tenant, it.term)}{to}: {'missing' if it.amiss else 'none'}, {it.why}", (
        RED if it.amiss else YELLOW), value


COMMANDS = (
    Command("check-dumps", "check all dumps of a host by arena-script",
            "Goes through D/dumps by tenant, in the order of terms, and lets `arena-script check` take every "
            "step of each dump again. It says which dumps are whole, of which there is only a part, and which are "
            "missing, with what D/status.json says of them. The status is 0 if each dump is there and answered `yes`, "
            "but for those of terms that are open. With --tenant only that tenant's are looked at.",
            "arena check-dumps /var/lib/arena", check_dumps, (ITS_FOLDER, SCRIPT)),
)

"""The commands that watch arena-host: status, top."""
import os
import shutil
import sys
import time
from dataclasses import dataclass
from typing import Any, TextIO

from arena.command.call import Call
from arena.command.words import FOLDER, Command, Status, option, seconds
from arena.host.folder import RunFolder
from arena.host.orders import NoHost
from arena.host.rates import Rates, Recent, Watch
from arena.host.report import sections_of, to_text
from arena.host.reading import host_runs, read_status
from arena.host.status import HostStatus

CLEAR, HOME, TO_END, TO_END_OF_LINE = "\033[2J", "\033[H", "\033[J", "\033[K"
HIDE_CURSOR, SHOW_CURSOR = "\033[?25l", "\033[?25h"
SHORTEST_SECONDS = 0.05


def status(call: Call) -> int:
    """Says what a host does now. A status that is not of now is said all the same, and has a status of its own."""
    folder = call.folder
    reading = read_status(folder)
    call.output.say(to_text(sections_of(reading.status)), reading.value)
    stale = reading.stale(time.time())
    if stale is None:
        return Status.DONE
    runs = "the host that runs here writes it no more" if host_runs(folder, time.time()) else "no arena-host runs here"
    call.output.complain(f"arena: {folder.status}: {stale}; {runs}")
    return Status.HOST


@dataclass
class Screen:
    """Shows blocks of text: over one another on a terminal, cut to its size, and else one after another."""

    stream: TextIO

    def __post_init__(self) -> None:
        self.is_terminal = self.stream.isatty()

    def __enter__(self) -> "Screen":
        if self.is_terminal:
            self.stream.write(HIDE_CURSOR + CLEAR)
        return self

    def __exit__(self, *_: object) -> None:
        if self.is_terminal:
            self.stream.write(SHOW_CURSOR)
            self.stream.flush()

    def show(self, text: str) -> None:
        """Shows a block."""
        self.stream.write(self._on_terminal(text) if self.is_terminal else f"{text}\n\n")
        self.stream.flush()

    def _on_terminal(self, text: str) -> str:
        columns, height = shutil.get_terminal_size()
        lines = text.split("\n")
        if len(lines) >= height:
            lines = [*lines[: max(height - 2, 0)], "..."]
        return HOME + "".join(f"{line[:columns]}{TO_END_OF_LINE}\n" for line in lines) + TO_END


def top(call: Call) -> int:
    """Shows what a host does again and again, with rates, until the keyboard or the host ends it."""
    folder, every, watch = call.folder, max(call.words.every, SHORTEST_SECONDS), Watch()
    try:
        with Screen(sys.stdout) as screen:
            look(folder, watch)
            if not call.words.once:
                show(call, screen, watch)
            while True:
                time.sleep(every)
                look(folder, watch)
                show(call, screen, watch)
                if call.words.once:
                    return Status.DONE
    except KeyboardInterrupt:
        return Status.DONE


def look(folder: RunFolder, watch: Watch) -> None:
    """Takes a reading. Raises NoHost, StatusFault."""
    if not host_runs(folder, time.time()):
        gone = "the host has gone" if watch.now else "no arena-host runs here"
        there = "" if os.path.isdir(folder.path) else "; there is no such folder"
        raise NoHost(f"{folder.path}: {gone}{there}")
    watch.take(read_status(folder))


def show(call: Call, screen: Screen, watch: Watch) -> None:
    """Shows the last reading."""
    assert watch.now is not None
    if call.output.json:
        call.output.say("", to_value(watch.now.status, watch))
        sys.stdout.flush()
        return
    stale = watch.now.stale(time.time())
    warning = f"stale: {stale}\n\n" if stale else ""
    screen.show(warning + to_text(sections_of(watch.now.status, watch)))


def to_value(host: HostStatus, watch: Watch) -> dict[str, Any]:
    """The terms with their rates, as JSON; a rate that is not known yet is null."""
    return {"time": host.time, "connections": host.connected, "served": host.served, "total": rates_value(watch.total()),
            "recent": recent_value(watch.recent()), "terms": [
                {"tenant": it.tenant, "term": it.number, "state": it.state.value, "steps": it.steps, "entries": it.entries,
                 "asks": it.asks, "jobs": it.jobs, "running": it.jobs_now.running, "rows": it.rows.open,
                 "waiting": it.rows.waiting, "per_second": rates_value(watch.of(it.tenant, it.number))}
                for it in host.terms]}


def rates_value(rates: Rates | None) -> dict[str, Any] | None:
    """Rates as JSON."""
    if rates is None:
        return None
    return {"asks": round(rates.asks, 3), "entries": round(rates.entries, 3), "jobs": round(rates.jobs, 3)}


def recent_value(recent: Recent | None) -> dict[str, object] | None:
    """The rates over the last minutes as JSON."""
    if recent is None:
        return None
    return {"seconds": round(recent.seconds, 3), "mean": rates_value(recent.mean()),
            "jobs_within": {str(it): round(recent.jobs_within(it), 3) for it in (50, 90, 100)}}


COMMANDS = (
    Command("status", "print what a host does now",
            "Reads D/status.json once, and prints the host's connections, workers and memory; the terms of its tenants, how "
            "full their histories are, their requests and jobs; and the terms that it closed last. "
            "With --json it prints the host's own object. A status that is more than 5 seconds old is printed, and "
            "ends with status 11.",
            "arena status /var/lib/arena", status, (FOLDER,)),
    Command("top", "watch a host: what `status` prints, with rates",
            "Shows what `status` prints again and again, with the entries, requests and jobs of each tenant in a "
            "second, how long its history lasts at this rate until the host rotates, and after some readings the rates "
            "over the last five minutes, with how many jobs a second there were in half and in 90 % of the time. On a "
            "terminal it stays in "
            "place; else it prints block after block. Ctrl-C ends it with status 0, the end of the host with 11.",
            "arena top /var/lib/arena --every 1", top,
            (FOLDER, option("--every", help="how long from one reading to the next; 2 without it", type=seconds,
                            metavar="SECONDS", default=2.0),
             option("--once", help="take two readings, print one block, and end", action="store_true"))),
)

"""`arena-server` with two tenants, two workers and three sessions, and what one allocation that fails may do to it."""
import json
import os
import re
import socket
import subprocess
import tempfile
import threading
from collections.abc import Callable, Sequence

from jobs import (ARENA, MIXED, NO_MEMORY, RETIRE, SEVEN, cancel, cells, collect, execute, hello, line_of, poll,
                  submit, tenant)
from outcomes import Outcome
from scripts import PROGRAM as ARENA_SCRIPT
from scripts import ROOT, SECONDS

PROGRAM = ROOT / "crates/server_program/out/server_program"

# beta has no slots for workers, so a job that is submitted there waits for ever.
NAMES = ["acme", "beta"]
CONFIG = {"tenants": [tenant("acme", 3, 1), tenant("beta", 1, 1, "high")], "workers": 2}


def complete(job: int, value: int) -> dict:
    return {"job": job, "status": "complete", "value": value}


def spaced(request: dict) -> str:
    """The text of a request with spaces, so that its job is read by way of a JSON value."""
    return json.dumps(request)


# Each session's lines, each beside its reply. The third session begins when the others have ended.
SESSIONS = [[(request if isinstance(request, str) else line_of(request), line_of(reply)) for request, reply in pairs] for pairs in [
    [(hello("acme"), {"tenant": "acme"}), (spaced(execute(MIXED)), complete(1, 15)),
     (cells(0), {"count": 1, "key": 0, "sum": 5}), (submit(SEVEN), {"job": 2}), (collect(2), complete(2, 7)),
     (cancel(2), {"first": False, "job": 2})],
    [(hello("beta"), {"tenant": "beta"}), (submit(SEVEN), {"job": 1}), (cancel(1), {"first": True, "job": 1}),
     (poll(1), {"job": 1, "status": "canceled"}), (spaced(execute(SEVEN)), complete(2, 7)), (poll(2), complete(2, 7))],
    [(hello("acme"), {"tenant": "acme"}), (ARENA, {"priority": "normal", "reserved": 1, "slots": 3}),
     (RETIRE, {"epoch": 1}), (poll(1), {"code": 6, "error": "unknown_job"}),
     (cells(0), {"count": 0, "key": 0, "sum": 0})]]]


def refusal(number: int, at: int) -> str:
    """The effect that a line of a session is refused, by their numbers from 0."""
    return f"line {at + 1} of session {number + 1} is refused, and answered when it is sent again"


# What one failed allocation may do: one of these things, or one line is refused. docs/OPERATIONS.md has the ends of the
# server, docs/DECISIONS.md what becomes of seats, and crates/session_core a session without memory for its lines.
NO_START = "it does not start, for lack of memory"
NO_DEVICE = "it does not start, since a device failed"
NO_LINE = "a session has no memory for its lines, and ends"
NO_MORE = "no more connections are accepted"
NO_CLOSE = "no tenant is closed"
NO_DUMP = "a dump is missing"
# A job in canonical form that could not be read straight for lack of memory is read by way of a JSON value, so one failed
# allocation never refuses its line.
EFFECTS = [NO_START, NO_DEVICE, NO_LINE, NO_MORE, NO_CLOSE, NO_DUMP,
           *(refusal(number, at) for number, lines in enumerate(SESSIONS) for at, (line, _) in enumerate(lines)
             if '"job":{' not in line)]


class Session:
    """A connection with the lines that came on it. An empty one stands for a reply that did not come."""

    def __init__(self, path: str) -> None:
        """Connects to a server, which may be gone."""
        self.came = []
        self.client = socket.socket(socket.AF_UNIX)
        self.replies = self.client.makefile()
        self.is_there = True
        self.attempt(lambda: self.client.connect(path))

    def attempt(self, act: Callable[[], object]) -> object:
        """What an act at the socket gives, or None if the server has closed the connection or is gone."""
        try:
            return act() if self.is_there else None
        except (ConnectionError, FileNotFoundError):
            self.is_there = False

    def ask(self, line: str) -> None:
        """Sends a line, and once more if it is refused for memory."""
        for _ in range(2):
            self.attempt(lambda: self.client.sendall((line + "\n").encode()))
            self.came.append((self.attempt(self.replies.readline) or "").rstrip("\n"))
            if self.came[-1] != line_of(NO_MEMORY):
                break

    def end(self) -> list[str]:
        """Ends the session, and returns all that came."""
        self.attempt(lambda: self.client.shutdown(socket.SHUT_WR))
        self.came += self.attempt(self.replies.readlines) or []
        self.replies.close()
        self.client.close()
        return self.came


def came_to_sessions(path: str) -> list[list[str]]:
    """The lines that came to each session. The first two go on side by side, and one line is answered before the next
    one is sent, so that allocations keep their order from run to run.
    """
    both = []
    for (line, _), *_ in SESSIONS[:2]:
        both.append(Session(path))
        both[-1].ask(line)
    for pairs in zip(*(lines[1:] for lines in SESSIONS[:2]), strict=True):
        for session, (line, _) in zip(both, pairs):
            session.ask(line)
    came = [session.end() for session in both]
    third = Session(path)
    for line, _ in SESSIONS[2]:
        third.ask(line)
    return [*came, third.end()]


def end_of_session(number: int, came: Sequence[str]) -> str:
    """Whether a session was `served`, `ended` before its first reply, or had a line refused and then answered."""
    wanted = [reply for _, reply in SESSIONS[number]]
    if came == wanted:
        return "served"
    if not any(came):
        return "ended"
    refused = [at for at, line in enumerate(came) if line == line_of(NO_MEMORY)]
    others = [line for line in came if line != line_of(NO_MEMORY)]
    return refusal(number, *refused) if len(refused) == 1 and others == wanted else f"wrong: {came}"


def end_of_tenant(name: str, line: str, dumps: str) -> str:
    """Whether a tenant was `closed`, or was so and has `no dump`."""
    path = os.path.join(dumps, name + ".jsonl")
    closed = re.fullmatch(f"{name}: closed, ([0-9]+) entries", line)
    if not closed:
        return f"wrong: {line}"
    if not os.path.exists(path):
        return "no dump"
    with open(path) as dump:
        checked = subprocess.run([ARENA_SCRIPT, "check"], stdin=dump, capture_output=True, text=True, timeout=SECONDS)
        dump.seek(0)
        count = len(dump.readlines())
    if count != int(closed[1]) + 1 or (checked.stdout, checked.stderr, checked.returncode) != ("yes\n", "", 0):
        return f"wrong dump: {checked}"
    return "closed"


def ends_of_tenants(printed: str, dumps: str) -> list[str]:
    """The end of each tenant. There is none if no tenant was closed."""
    lines = printed.splitlines()
    if len(lines) == len(NAMES):
        return [end_of_tenant(name, line, dumps) for name, line in zip(NAMES, lines)]
    return [f"wrong: {printed}"] if lines or os.listdir(dumps) else []


def effect_of(sessions: Sequence[str], tenants: Sequence[str], said: str, status: int) -> str | None:
    """What a failed allocation did to a server that listened, or None if it may not do that."""
    others = [it for it in sessions if it != "served"]
    match others, sorted(tenants), said, status:
        case [], ["closed", "closed"], "", 0:
            return "nothing"
        case [refused], ["closed", "closed"], "", 0 if refused in EFFECTS:
            return refused
        case ["ended"], ["closed", "closed"], "", 0:
            return NO_LINE
        case ["ended", *_], ["closed", "closed"], "arena-server: device\n" | "arena-server: memory\n", 3 if are_last(
                others, sessions):
            return NO_MORE
        case [], [], "arena-server: memory\n", 3:
            return NO_CLOSE
        case [], ["closed", "no dump"], "arena-server: memory\n", 3:
            return NO_DUMP
    return None


def are_last(others: Sequence[str], sessions: Sequence[str]) -> bool:
    """Whether the sessions that were not served ended without a reply, and none came after them."""
    return {*others} == {"ended"} and sessions[-len(others) :] == others


class Server:
    """The server as a program whose allocations fail."""

    name, effects, stride, lanes = "arena-server", EFFECTS, 1, 1

    def run(self, room: dict[str, str]) -> Outcome:
        """Runs it with its sessions, for half a minute at most."""
        with tempfile.TemporaryDirectory() as folder:
            config, path, dumps = (os.path.join(folder, name) for name in ("config", "socket", "dumps"))
            os.mkdir(dumps)
            with open(config, "w") as it:
                json.dump(CONFIG, it)
            words = ["--config", config, "--socket", path, "--connections", "3", "--dump", dumps]
            pipes = {"stdout": subprocess.PIPE, "stderr": subprocess.PIPE, "text": True}
            process = subprocess.Popen([PROGRAM, *words], **pipes, env=room)
            # A server that hangs is killed, and then has a status that it may not have.
            timer = threading.Timer(SECONDS, process.kill)
            timer.start()
            came = came_to_sessions(path) if process.stdout.readline() == "listening\n" else None
            printed, said = process.communicate()
            timer.cancel()
            tenants = ends_of_tenants(printed, dumps) if not os.path.exists(path) else ["wrong: the socket is there"]
            return self.judged(came, tenants, said, process.returncode)

    def judged(self, came: list[list[str]] | None, tenants: list[str], said: str, status: int) -> Outcome:
        """The outcome, by what came to the sessions, if there were any, and by the server's end."""
        has_failed, said = said.startswith("failed\n"), said.removeprefix("failed\n")
        if came is None:
            starts = {"arena-server: memory\n": NO_START, "arena-server: device\n": NO_DEVICE}
            effect = starts.get(said) if (tenants, status) == ([], 3) else None
            return Outcome(has_failed, effect, (tenants, said, status))
        sessions = [end_of_session(number, lines) for number, lines in enumerate(came)]
        return Outcome(has_failed, effect_of(sessions, tenants, said, status), (sessions, tenants, said, status))

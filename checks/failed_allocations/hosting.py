"""`arena-host` with two tenants and two terms, and what one allocation that fails may do to it. Nothing that was acknowledged is lost:
the next start in the folder tells the outcome of each job."""
import json
import os
import pathlib
import queue
import socket
import subprocess
import tempfile
import threading
import time

from jobs import MIXED, NO_MEMORY, SEVEN, collect, execute, hello, line_of, poll, submit, tenant
from outcomes import Outcome
from scripts import ROOT, SECONDS

PROGRAM = ROOT / "crates/host_program/out/host_program"
CONFIG = {"tenants": [tenant("acme", 3, 1), tenant("beta", 1, 1, "high")], "workers": 2}
TRIES = 5
"""How often a request is made that is refused, or whose connection ends, of which one allocation can spoil one or two."""

NO_START = "it does not start, for lack of memory"
NO_DEVICE = "it does not start, since a device failed"
REFUSED = "a request is refused, and done when it is made again"
ENDED = "a connection ends, and the next one goes on"
TOLD = "it is told as a fault, and nobody else notices"
LATER = "what an ordered stop could not write, the next start has"
UNSEEN = "it is tried again, and nobody notices"
UNKNOWN = {"code": 6, "error": "unknown_job"}
EFFECTS = (NO_START, REFUSED, ENDED, TOLD, UNSEEN)


class Lines:
    """What a process writes, line by line, as it comes."""

    def __init__(self, process: subprocess.Popen[str]) -> None:
        self.seen: list[str] = []
        self.news: queue.Queue[str | None] = queue.Queue()
        self.reader = threading.Thread(target=self._read, args=(process.stderr,), daemon=True)
        self.reader.start()

    def _read(self, stream: object) -> None:
        for line in stream:
            self.seen.append(line)
            self.news.put(line)
        self.news.put(None)

    def wait_for(self, *events: dict) -> dict:
        """Waits until an event is told that has the members of one of these, and returns it; nothing if none comes in time."""
        end = time.monotonic() + SECONDS
        while (left := end - time.monotonic()) > 0:
            try:
                line = self.news.get(timeout=left)
            except queue.Empty:
                break
            if line is None:
                break
            told = event_of(line)
            if any(it.items() <= told.items() for it in events):
                return told
        return {}


def event_of(line: str) -> dict:
    """The event of a line, or nothing if it tells none."""
    try:
        value = json.loads(line)
    except ValueError:
        return {}
    return value if isinstance(value, dict) else {}


def outcome_of(number: int, value: int) -> dict:
    """What is answered of a job: that it has this value, or that it is unknown, if that is 0."""
    return {"job": number, "status": "complete", "value": value} if value else UNKNOWN


class Client:
    """A tenant's client, which connects again if its connection ends."""

    def __init__(self, path: str, name: str) -> None:
        self.path, self.name, self.effects = path, name, set()
        self.client: socket.socket | None = None
        self.wrong: list[str] = []

    def ask(self, request: dict) -> dict:
        """The reply to a request, which is made again if it is refused for memory, or the connection ends."""
        for _ in range(TRIES):
            reply = self._try(request)
            if reply is not None and reply != NO_MEMORY:
                return reply
            self.effects.add(ENDED if reply is None else REFUSED)
        return {}

    def _try(self, request: dict) -> dict | None:
        """One reply; None if the connection ended."""
        try:
            if self.client is None:
                self.client = socket.socket(socket.AF_UNIX)
                self.client.settimeout(SECONDS)
                self.client.connect(self.path)
                self.replies = self.client.makefile()
                bound = self._exchange(hello(self.name))
                if bound != {"tenant": self.name}:
                    self.end()
                    return bound
            reply = self._exchange(request)
        except OSError:
            reply = None
        if reply is None:
            self.end()
        return reply

    def _exchange(self, request: dict) -> dict | None:
        self.client.sendall((line_of(request) + "\n").encode())
        line = self.replies.readline()
        return json.loads(line) if line.endswith("\n") else None

    def run(self, job: dict, value: int, by_execute: bool) -> int:
        """Has a job done, and returns its number."""
        placed = self.ask(execute(job) if by_execute else submit(job))
        number = placed.get("job", 0)
        self.expect(number, value, placed if by_execute else None)
        return number

    def expect(self, number: int, value: int, reply: dict | None = None) -> None:
        """The outcome of a job is this value; 0 stands for one that was released."""
        got = reply or self.ask(collect(number))
        if got != outcome_of(number, value):
            self.wrong.append(f"job {number} of {self.name}: {got}")

    def release(self, number: int) -> None:
        """Releases a job. If its connection ended, it may have been released before."""
        got = self.ask({"job": number, "op": "release"})
        if got != {"released": number} and not (ENDED in self.effects and got == UNKNOWN):
            self.wrong.append(f"job {number} of {self.name}, to be released: {got}")

    def end(self) -> None:
        """Hangs up."""
        if self.client is not None:
            self.client.close()
            self.client = None


class Host:
    """The host as a program whose allocations fail."""

    name, effects, stride, lanes = "arena-host", EFFECTS, 5, 8

    def run(self, room: dict[str, str]) -> Outcome:
        """Runs it with its clients, through a rotation to an ordered stop, and starts it again."""
        with tempfile.TemporaryDirectory() as folder:
            at = pathlib.Path(folder)
            (at / "run").mkdir()
            (at / "config").write_text(json.dumps(CONFIG))
            process = self._started(at, room)
            lines = Lines(process)
            timer = threading.Timer(2 * SECONDS, process.kill)
            timer.start()
            clients: list[Client] = []
            jobs: dict[tuple[str, int], int] = {}
            listens = process.stdout.readline() == "listening\n"
            if listens:
                clients, jobs = self._served(at, lines)
            (at / "run" / "socket").unlink(missing_ok=True)
            process.stdout.read()
            status = process.wait()
            lines.reader.join()
            timer.cancel()
            again = self._again(at, jobs)
            return self._judged(listens, clients, lines.seen, status, again)

    def _started(self, at: pathlib.Path, room: dict[str, str]) -> subprocess.Popen[str]:
        words = ["--config", str(at / "config"), "--run", str(at / "run"), "--connections", "3"]
        return subprocess.Popen([PROGRAM, *words], stdout=subprocess.PIPE, stderr=subprocess.PIPE, text=True, env=room)

    def _served(self, at: pathlib.Path, lines: Lines) -> tuple[list[Client], dict[tuple[str, int], int]]:
        """What its clients ask, in two terms, and the value of each job that was acknowledged."""
        path = str(at / "run" / "socket")
        acme, beta = Client(path, "acme"), Client(path, "beta")
        jobs = {("acme", acme.run(SEVEN, 7, False)): 7, ("acme", acme.run(MIXED, 15, True)): 15,
                ("beta", beta.run(SEVEN, 7, True)): 7}
        gone = acme.run(SEVEN, 7, True)
        if not self._rotated(at, lines):
            acme.wrong.append("no second term")
        # Whether its file is told or not, the term is taken out by then, or soon.
        lines.wait_for({"event": "closed", "tenant": "acme", "term": 0}, {"event": "fault"}, {"event": "unwritten"})
        acme.release(gone)
        jobs[("acme", gone)] = 0
        jobs[("acme", acme.run(SEVEN, 7, False))] = 7
        for (name, number), value in jobs.items():
            {"acme": acme, "beta": beta}[name].expect(number, value)
        acme.end()
        beta.end()
        return [acme, beta], jobs

    def _rotated(self, at: pathlib.Path, lines: Lines) -> bool:
        """Asks for acme's next term, again if the host tells that it could not be opened, or that a line of its was lost, and
        says whether it was."""
        opened = [{"event": "opened", "tenant": "acme", "term": term} for term in range(1, 1 + TRIES)]
        for _ in range(TRIES):
            (at / "run" / "rotate.acme").touch()
            told = lines.wait_for(*opened, {"event": "fault", "tenant": "acme"}, {"event": "unwritten"})
            if told.get("event") == "opened":
                return True
        return False

    def _again(self, at: pathlib.Path, jobs: dict[tuple[str, int], int]) -> list[str]:
        """What is wrong after the next start."""
        process = self._started(at, {**os.environ})
        timer = threading.Timer(SECONDS, process.kill)
        timer.start()
        wrong = [] if process.stdout.readline() == "listening\n" else ["the next start does not listen"]
        if not wrong:
            path = str(at / "run" / "socket")
            clients = {name: Client(path, name) for name in ("acme", "beta")}
            for (name, number), value in jobs.items():
                got = clients[name].ask(poll(number))
                if got != outcome_of(number, value):
                    wrong.append(f"after the next start, job {number} of {name}: {got}")
            for name, client in clients.items():
                number = client.run(SEVEN, 7, True)
                if (name, number) in jobs:
                    wrong.append(f"job number {number} of {name} twice")
                wrong += client.wrong
                client.end()
        (at / "run" / "socket").unlink(missing_ok=True)
        process.communicate()
        timer.cancel()
        return wrong if process.returncode == 0 else [*wrong, f"the next start ends with {process.returncode}"]

    def _judged(self, listens: bool, clients: list[Client], seen: list[str], status: int, again: list[str]) -> Outcome:
        """The outcome."""
        has_failed = "failed\n" in seen
        faults = [it for it in map(event_of, seen) if it.get("event") == "fault"]
        last = [it for it in seen if it.startswith("arena-host: ")]
        wrong = [*again, *(it for client in clients for it in client.wrong)]
        what = (listens, [sorted(it.effects) for it in clients], faults, last, status, wrong)
        effects = {it for client in clients for it in client.effects}
        if wrong:
            return Outcome(has_failed, None, what)
        if not listens:
            starts = {"arena-host: memory\n": NO_START, "arena-host: device\n": NO_DEVICE}
            effect = starts.get(last[0]) if len(last) == 1 and status == 3 else None
            return Outcome(has_failed, effect, what)
        if status == 3 and last in (["arena-host: memory\n"], ["arena-host: device\n"]):
            return Outcome(has_failed, LATER, what)
        if status != 0 or last or len(effects) > 1 or not has_failed and (effects or faults):
            return Outcome(has_failed, None, what)
        found = effects.pop() if effects else TOLD if faults else UNSEEN
        return Outcome(has_failed, found if has_failed else "nothing", what)

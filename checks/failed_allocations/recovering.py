"""A start of `arena-host` in a folder that a killed one left, and what one allocation that fails may do to it: it starts or it does
not, and the next start has the outcome of each job that was acknowledged."""
import json
import os
import pathlib
import shutil
import tempfile
import threading
from functools import cached_property

from hosting import CONFIG, NO_START, Client, Host, Lines, event_of
from jobs import MIXED, SEVEN, submit
from outcomes import Outcome
from scripts import SECONDS


def sockets(folder: str, names: list[str]) -> list[str]:
    """Those of the names in a folder that are sockets', which can't be copied."""
    return [it for it in names if (pathlib.Path(folder) / it).is_socket()]


class LeftHost(Host):
    """The host, where it finishes the journals of two tenants, as a program whose allocations fail."""

    name, effects, stride, lanes = "arena-host-left", (NO_START,), 3, 8

    def __init__(self) -> None:
        self.room = tempfile.TemporaryDirectory()

    @cached_property
    def left(self) -> tuple[pathlib.Path, dict[tuple[str, int], int]]:
        """A folder in which a host was killed that had acknowledged jobs, and the values that these must have."""
        at = pathlib.Path(self.room.name)
        (at / "run").mkdir()
        (at / "config").write_text(json.dumps(CONFIG))
        process = self._started(at, {**os.environ})
        assert process.stdout.readline() == "listening\n"
        path = str(at / "run" / "socket")
        clients = {name: Client(path, name) for name in ("acme", "beta")}
        acme, beta = clients["acme"], clients["beta"]
        # No worker comes to beta, so only what a session executes is done there.
        jobs = {("beta", beta.run(SEVEN, 7, True)): 7,
                ("acme", acme.ask(submit(SEVEN))["job"]): 7, ("acme", acme.ask(submit(MIXED))["job"]): 15}
        process.kill()
        process.communicate()
        for client in clients.values():
            client.end()
        return at, jobs

    def run(self, room: dict[str, str]) -> Outcome:
        """Starts it where it was killed, stops it in order, if it has started, and starts it once more."""
        left, jobs = self.left
        with tempfile.TemporaryDirectory() as folder:
            at = pathlib.Path(folder)
            shutil.copytree(left, at, ignore=sockets, dirs_exist_ok=True)
            process = self._started(at, room)
            lines = Lines(process)
            timer = threading.Timer(2 * SECONDS, process.kill)
            timer.start()
            listens = process.stdout.readline() == "listening\n"
            (at / "run" / "socket").unlink(missing_ok=True)
            process.stdout.read()
            status = process.wait()
            lines.reader.join()
            timer.cancel()
            recovered = {it["tenant"] for it in map(event_of, lines.seen) if it.get("event") == "recovered"}
            wrong = [] if recovered == {"acme", "beta"} or "failed\n" in lines.seen else [f"recovered: {recovered}"]
            return self._judged(listens, [], lines.seen, status, [*wrong, *self._again(at, jobs)])

"""Shards: servers with some of the tenants, each in a folder of its own."""
import json
import pathlib
import subprocess
import sys
from dataclasses import dataclass

sys.path.insert(0, str(pathlib.Path(__file__).resolve().parents[1] / "install"))

from room import PATIENCE, TOP, found, run

EXAMPLES = TOP / "examples/haproxy"
# The sixth Fibonacci number, by tasks.
FIB = {"args": [6, 0], "fuel": 1000, "procs": [[
    ["set", 2, 2], ["lt", 3, 0, 2], ["jz", 3, 4], ["ret", 0], ["set", 2, 1], ["sub", 3, 0, 2], ["spawn", 0, 0, 3, 1],
    ["sub", 3, 3, 2], ["spawn", 0, 0, 3, 1], ["wait", 4, 5, 0], ["ret", 4]]]}


def program() -> str | None:
    """What shards are run by: arena-host, or arena-server until that is built."""
    return next((name for name in ("arena-host", "arena-server") if found(name)), None)


def words(name: str, folder: pathlib.Path) -> list[str]:
    """The command line of a shard in its folder, where its socket is too."""
    given = ["--config", folder / "config.json"]
    if name == "arena-host":
        given += ["--run", folder]
    else:
        given += ["--socket", folder / "socket", "--connections", 64, "--dump", folder / "dumps"]
    return [str(it) for it in (found(name), *given)]


@dataclass
class Shard:
    """A shard. Its tenants have a number of slots of its own, by which a client can tell where it is."""

    folder: pathlib.Path
    tenants: list[str]
    slots: int
    process: subprocess.Popen | None = None

    @property
    def socket(self) -> pathlib.Path:
        """The path of its socket."""
        return self.folder / "socket"

    def start(self) -> None:
        """Starts it, and waits until it listens."""
        (self.folder / "dumps").mkdir(parents=True, exist_ok=True)
        tenants = [{"name": it, "priority": "normal", "slots": self.slots, "reserved": 1, "rows": 200, "steps": 10000}
                   for it in self.tenants]
        (self.folder / "config.json").write_text(json.dumps({"tenants": tenants, "workers": 2}))
        self.process = subprocess.Popen(words(program(), self.folder), stdout=subprocess.PIPE, stderr=subprocess.DEVNULL, text=True)
        assert self.process.stdout.readline() == "listening\n"

    def kill(self) -> None:
        """Kills it, and removes the socket that it leaves."""
        self.process.kill()
        self.process.communicate()
        self.socket.unlink(missing_ok=True)

    def stop(self) -> dict[str, int]:
        """Stops it in order. Returns how many entries each tenant's history has, whose dump `check` says yes to."""
        self.socket.unlink()
        out, _ = self.process.communicate(timeout=PATIENCE)
        assert self.process.returncode == 0, self.process.returncode
        for dump in (self.folder / "dumps").glob("*.jsonl"):
            with open(dump) as lines:
                done = subprocess.run([found("arena-script"), "check"], stdin=lines, capture_output=True, text=True,
                                      timeout=PATIENCE)
            assert done.stdout == "yes\n", dump
        entries = {}
        for line in out.splitlines():
            tenant = line.split(":")[0].split(".")[0]
            entries[tenant] = entries.get(tenant, 0) + int(line.split()[-2])
        return entries

"""The service of an installed package under a systemd that runs: what its unit does with a start, a reload, a kill and a
stop."""
import json
import os
import pathlib
import signal
import time
from collections.abc import Callable

from room import run

UNIT = "arena-host"
FOLDER = pathlib.Path("/var/lib/arena")
CONFIG = pathlib.Path("/etc/arena/config.json")
FIB = "/usr/share/doc/arena/examples/jobs/fib.job"
# Who is a member of the group, and who is not, for setpriv.
MEMBER, OTHER = "--groups=arena", "--clear-groups"
# How soon, in seconds, the unit is up again after a kill, and the status shows a term.
SOON = 20


def runs_systemd() -> bool:
    """Whether systemd is this machine's first process."""
    return os.path.isdir("/run/systemd/system")


def shown(name: str) -> str:
    """A property of the unit."""
    return run("systemctl", "show", "-P", name, UNIT).strip()


def as_user(groups: str, *words: object, status: int = 0) -> str:
    """Runs a command as a user who owns nothing."""
    return run("setpriv", "--reuid=nobody", "--regid=nogroup", groups, *words, status=status)


def job(groups: str = MEMBER, status: int = 0) -> str:
    """Runs a job by the installed command."""
    return as_user(groups, "arena", "-s", FOLDER / "socket", "-t", "acme", "run", FIB, "--args", 10, 0, status=status)


def wait_for(holds: Callable[[], bool], what: str) -> None:
    """Waits until something holds, and fails if it does not soon."""
    end = time.monotonic() + SOON
    while not holds():
        assert time.monotonic() < end, f"not within {SOON} s: {what}"
        time.sleep(0.1)


def terms() -> list[int]:
    """The numbers of acme's terms that are not closed, by the status, which is a second old at most."""
    path = FOLDER / "status.json"
    return [it["term"] for it in json.loads(path.read_text())["terms"] if it["tenant"] == "acme"] if path.exists() else []


def term() -> int:
    """The number of the newest term."""
    wait_for(lambda: terms() != [], "a term is open")
    return terms()[-1]


def dumps_are_whole() -> None:
    """Each dump is one that `check` says yes to, and there is one at least."""
    paths = list((FOLDER / "dumps").glob("*.jsonl"))
    assert paths
    for path in paths:
        assert run("arena", "check", path) == "yes\n", path


def starts() -> None:
    """The package has started it. A member of the group runs a job, and changes nothing in the folder; others get nowhere."""
    assert (shown("ActiveState"), shown("UnitFileState"), shown("Result")) == ("active", "enabled", "success")
    assert job() == "55\n"
    assert "Permission denied" in job(OTHER, status=6)
    for command in (("rm", FOLDER / "socket"), ("touch", FOLDER / "rotate"), ("ls", FOLDER / "dumps"), ("cat", FOLDER / "lock")):
        assert "Permission denied" in as_user(MEMBER, *command, status=2 if command[0] == "ls" else 1)


def reloads() -> None:
    """When a reload returns, the next terms serve. A configuration that can't be read fails it, and changes nothing."""
    before, text = term(), CONFIG.read_text()
    run("systemctl", "reload", UNIT)
    assert term() == before + 1
    CONFIG.write_text("{")
    run("systemctl", "reload", UNIT, status=1)
    CONFIG.write_text(text)
    run("journalctl", "--sync")
    assert f"{CONFIG}:" in run("journalctl", "--unit", UNIT, "--lines=5", "--output=cat"), "the fault has no place"
    assert (shown("ActiveState"), term(), job()) == ("active", before + 1, "55\n")


def comes_back() -> None:
    """A host that was killed is started again, in spite of the socket that it left."""
    killed = shown("MainPID")
    os.kill(int(killed), signal.SIGKILL)
    wait_for(lambda: shown("MainPID") not in (killed, "0") and shown("ActiveState") == "active", "it is up again")
    assert job() == "55\n"
    dumps_are_whole()


def stops() -> None:
    """It ends in order: with status 0, without its socket, and with its histories on the disk."""
    run("systemctl", "stop", UNIT)
    assert (shown("ActiveState"), shown("Result"), shown("ExecMainStatus")) == ("inactive", "success", "0")
    assert not (FOLDER / "socket").exists()
    dumps_are_whole()
    run("systemctl", "start", UNIT)
    assert job() == "55\n"


def works() -> None:
    """All of it, for a package that was installed a moment ago."""
    for part in (starts, reloads, comes_back, stops):
        part()

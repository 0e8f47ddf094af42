"""How a server comes to its socket's path: beside another start, and beside what others have put there."""
import atexit
import json
import os
import pathlib
import socket
import subprocess
import tempfile
import time
from collections.abc import Iterator
from contextlib import contextmanager
from typing import NamedTuple

from servers import HELLO, PATIENCE, PROGRAM, SEVEN, library, tenant

# A library by which two of the calls of a start take longer.
DELAYED = pathlib.Path(__file__).with_name("delayed.c")
# How often two servers start at once on one path.
ROUNDS = 20
TAKEN = "something is there already"


class Place(NamedTuple):
    """A folder with a configuration, and the path in it at which servers are to listen."""

    folder: str
    path: str

    def start(self, **environment: str) -> subprocess.Popen:
        """Starts a server of one connection there."""
        words = ["--config", os.path.join(self.folder, "config"), "--socket", self.path, "--connections", "1"]
        server = subprocess.Popen([PROGRAM, *words], stdout=subprocess.PIPE, stderr=subprocess.PIPE, text=True,
                                  env={**os.environ, **environment})
        atexit.register(server.kill)  # where a check fails, its server goes too
        return server

    def left(self) -> list[str]:
        """What is in the folder beside the configuration."""
        return sorted(set(os.listdir(self.folder)) - {"config"})

    def refused(self, why: str) -> tuple[str, str, int]:
        """How a server ends that can't listen there."""
        return "", f"arena-server: {self.path}: {why}\narena-server: device\n", 3


@contextmanager
def place() -> Iterator[Place]:
    with tempfile.TemporaryDirectory() as folder:
        with open(os.path.join(folder, "config"), "w") as config:
            json.dump({"tenants": [tenant("acme", 1, 1)], "workers": 1}, config)
        yield Place(folder, os.path.join(folder, "socket"))


def ended(server: subprocess.Popen) -> tuple[str, str, int]:
    """What a server printed, what it said of a fault, and its status, once it has ended."""
    out, err = server.communicate(timeout=PATIENCE)
    return out, err, server.returncode


def value_of_seven(path: str) -> int:
    """The value of a job that a client at the path executes. It is the server's only client."""
    with socket.socket(socket.AF_UNIX) as client, client.makefile("rw") as lines:
        client.settimeout(PATIENCE)
        client.connect(path)
        for request in (HELLO, {"op": "execute", "job": SEVEN}):
            print(json.dumps(request), file=lines, flush=True)
            reply = json.loads(lines.readline())
        return reply["value"]


def one_serves(at: Place, *servers: subprocess.Popen) -> None:
    """Of two servers that start at once, one says that it listens, and serves the clients of the path. The other one ends
    before that, and says why."""
    said = [it.stdout.readline() for it in servers]
    assert sorted(said) == ["", "listening\n"], said
    first, other = sorted(servers, key=lambda it: said[servers.index(it)], reverse=True)
    end_of_other = ended(other)
    assert value_of_seven(at.path) == 7
    assert end_of_other == at.refused(TAKEN)
    assert ended(first) == ("acme: closed, 3 entries\n", "", 0)
    assert at.left() == []


def two_starts_at_once() -> None:
    """One of them serves, whichever it is."""
    for _ in range(ROUNDS):
        with place() as at:
            one_serves(at, at.start(), at.start())


def start_beside_one_that_is_slow() -> None:
    """A server starts while another one is about to set its socket's mode, or to let the path lead to it, and is slow
    itself: each uses the socket that it made."""
    with library(DELAYED) as delayed:
        for first, second in [({"DELAY_CHMOD": "500"}, {"DELAY_LINK": "1000"}), ({"DELAY_LINK": "500"}, {})]:
            with place() as at:
                slow = at.start(LD_PRELOAD=delayed, **first)
                time.sleep(0.2)
                one_serves(at, slow, at.start(LD_PRELOAD=delayed, **second))


def names_of_others_are_left_alone() -> None:
    """A folder beside the path, and a link to a folder elsewhere, may belong to anybody. The socket is made in a folder of
    another name, and both stay as they are, with what is in them."""
    with place() as at, tempfile.TemporaryDirectory() as elsewhere:
        for folder in (elsewhere, at.path + ".d2"):
            os.makedirs(folder, exist_ok=True)
            pathlib.Path(folder, "s").touch()
        os.symlink(elsewhere, at.path + ".d")
        server = at.start()
        assert server.stdout.readline() == "listening\n"
        assert at.left() == ["socket", "socket.d", "socket.d2"]
        assert value_of_seven(at.path) == 7
        assert ended(server) == ("acme: closed, 3 entries\n", "", 0)
        assert os.readlink(at.path + ".d") == elsewhere
        assert os.listdir(elsewhere) == os.listdir(at.path + ".d2") == ["s"]


def path_that_is_taken_is_named() -> None:
    """By a file, or a link that leads nowhere; and all names beside it are."""
    with place() as at:
        os.symlink(os.path.join(at.folder, "nowhere"), at.path)
        assert ended(at.start()) == at.refused(TAKEN)
        assert at.left() == ["socket"]
        os.unlink(at.path)
        names = [at.path + ".d", *(f"{at.path}.d{number}" for number in range(2, 65))]
        for name in names:
            os.mkdir(name)
        before = at.left()
        assert ended(at.start()) == at.refused("something is at each of its paths from .d to .d64 already")
        assert at.left() == before
        os.rmdir(names[-1])
        server = at.start()
        assert server.stdout.readline() == "listening\n" and value_of_seven(at.path) == 7
        assert ended(server) == ("acme: closed, 3 entries\n", "", 0)


CHECKS = [two_starts_at_once, start_beside_one_that_is_slow, names_of_others_are_left_alone, path_that_is_taken_is_named]

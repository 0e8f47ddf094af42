"""How a server starts, and how it refuses to."""
import json
import os
import shutil
import socket
import subprocess
import tempfile

from servers import FEW_STACKS, PATIENCE, PROGRAM, Server, limited, tenant

WORDS, DEVICE = ("", "arena-server: words\n", 2), ("", "arena-server: device\n", 3)
CONFIG = ("", "arena-server: config\n", 2)


def run(*words: str, memory: int | None = None) -> tuple[str, str, int]:
    """What a server prints, what it says of a fault, and its status. `memory` is what it may map at most, in bytes."""
    done = subprocess.run([PROGRAM, *words], capture_output=True, text=True, timeout=PATIENCE,
                          preexec_fn=limited(memory) if memory else None)
    return done.stdout, done.stderr, done.returncode


def unbound(path: str, why: str) -> tuple[str, str, int]:
    """How a server ends that can't listen at its path."""
    return "", f"arena-server: {path}: {why}\narena-server: device\n", 3


def wrong_words_are_faults() -> None:
    assert run() == WORDS
    # A word that is no text.
    assert run("--config", "f", "--socket", "s", "--connections", "\udcff") == run("\udcff") == WORDS
    for more in ["65", "0", "-1", "2x", "2 now", "2 --dump", "2 --dump=", "2 --keep=3", "2 --config=f"]:
        assert run(*"--config f --socket s --connections".split(), *more.split()) == WORDS, more
    for words in ["--config f --connections 2", "--config f --socket s --dump d"]:
        assert run(*words.split()) == WORDS, words
    assert run("--config", "f", "--socket", "s", "--connections", "") == WORDS
    # No file has these names, which is found out once the words are right.
    for words in ["--config f --socket s --connections 2", "--dump=d --connections=64 --socket=s --config=f"]:
        assert run(*words.split()) == DEVICE, words


def wrong_files_are_faults() -> None:
    with tempfile.TemporaryDirectory() as folder:
        at = os.path.join(folder, "socket")
        config = os.path.join(folder, "config")
        words = ["--config", config, "--socket", at, "--connections", "1"]
        assert run(*words) == DEVICE
        for text in ("{}", " " * 1048577):
            with open(config, "w") as it:
                it.write(text)
            assert run(*words) == CONFIG
        with open(config, "w") as it:
            json.dump({"tenants": [tenant("acme", 1, 1)], "workers": 1}, it)
        assert run("--config", config, "--socket", "", "--connections", "1") == unbound("", "no socket can be made there")
        # A folder of dumps that is not there, or is a file, is found out before anything is served.
        for dumps in ("nowhere", config):
            assert run(*words, "--dump", dumps) == DEVICE and not os.path.exists(at), dumps
        with open(at, "w"):
            pass
        assert run(*words) == unbound(at, "something is there already")


def each_dump_is_tried_at_the_start() -> None:
    """A tenant other than the first has no place for its dump: a folder is there, or all parts that there may be."""
    with tempfile.TemporaryDirectory() as folder:
        config, at, dumps = (os.path.join(folder, name) for name in ("config", "socket", "dumps"))
        with open(config, "w") as it:
            json.dump({"tenants": [tenant("acme", 1, 1), tenant("beta", 1, 1)], "workers": 1}, it)
        words = ["--config", config, "--socket", at, "--connections", "1", "--dump", dumps]
        parts = ["beta.jsonl.part", *(f"beta.jsonl.part{number}" for number in range(2, 65))]
        for names in (["beta.jsonl"], parts):
            os.mkdir(dumps)
            for name in names:
                os.mkdir(os.path.join(dumps, name))
            assert run(*words) == DEVICE
            assert set(os.listdir(dumps)) == set(names)
            shutil.rmtree(dumps)


def worker_that_cannot_be_started_is_a_fault() -> None:
    with tempfile.TemporaryDirectory() as folder:
        config, at = os.path.join(folder, "config"), os.path.join(folder, "socket")
        with open(config, "w") as it:
            json.dump({"tenants": [tenant("acme", 1, 1)], "workers": 32}, it)
        assert run("--config", config, "--socket", at, "--connections", "1", memory=FEW_STACKS) == DEVICE
        assert not os.path.exists(at)


def is_served(client: socket.socket) -> bool:
    """Whether a client gets its replies, and is not cut off before."""
    try:
        client.sendall(b'{"op":"hello","tenant":"acme"}\n{"op":"arena"}\n')
        with client.makefile() as replies:
            return bool(replies.readline() and replies.readline())
    except ConnectionError:
        return False


def session_that_cannot_be_started_costs_no_history() -> None:
    server = Server([tenant("acme", 1, 1)], 1, 12, FEW_STACKS)
    clients = [server.connect()]
    while is_served(clients[-1]) and len(clients) < 12:
        clients.append(server.connect())
    for client in clients:
        client.close()
    entries = len(clients) - 1
    assert 0 < entries < 11
    assert server.end() == ([f"acme: closed, {entries} entries"], "arena-server: device\n", 3)


CHECKS = [wrong_words_are_faults, wrong_files_are_faults, each_dump_is_tried_at_the_start,
          worker_that_cannot_be_started_is_a_fault, session_that_cannot_be_started_costs_no_history]

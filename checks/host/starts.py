"""How a host starts, and how it refuses to."""
import os
import stat
import subprocess
import tempfile

from hosts import PROGRAM, Host, ask, dumps, fib, hang_up, tenant
from servers import PATIENCE, by_deadline


def run(*words: str) -> tuple[str, str, int]:
    """What a host prints that does not start, what it says of a fault, and its status."""
    done = subprocess.run([PROGRAM, *words], capture_output=True, text=True, timeout=PATIENCE)
    return done.stdout, done.stderr, done.returncode


def words_that_are_refused() -> None:
    with tempfile.TemporaryDirectory() as folder:
        config = os.path.join(folder, "config.json")
        with open(config, "w") as it:
            it.write("{}")
        good = ["--config", config, "--run", folder]
        for words in ([], ["--config", config], ["--run", folder], [*good, "more"], [*good, "--connections", "0"],
                      [*good, "--connections", "65"], [*good, "--tenant-connections", "0"],
                      [*good, "--tenant-connections", "65"], [*good, "--rotate-at", "0"], [*good, "--rotate-at", "101"],
                      [*good, "--keep", "0"], [*good, "--keep", "1000000"], [*good, "--finish", "86401"],
                      [*good, "--mode", "800"], [*good, "--mode", "1000"], [*good, "--group", "4294967295"],
                      [*good, "--group", "staff"], [*good, "--connections", "64", "--connections", "64"]):
            assert run(*words) == ("", "arena-host: words\n", 2), words
        assert run(*good, "--connections", "64") == ("", "arena-host: config\n", 2)
        assert run("--config", folder + "/none", "--run", folder) == ("", "arena-host: device\n", 3)
        with open(config, "w") as it:
            it.write('{"tenants":[],"workers":1}')
        assert run(*good)[2] == 2
        assert run("--config", config, "--run", folder + "/none") == ("", "arena-host: device\n", 3)


def only_one_host_in_a_folder() -> None:
    host = Host([tenant("acme")])
    words = ["--config", host.config, "--run", host.run]
    assert run(*words) == ("", "arena-host: device\n", 3)
    connection = host.connect()
    assert ask(connection, fib(6)) == {"job": 1, "status": "complete", "value": 8}
    hang_up(connection)
    assert host.stop() == 0
    assert dumps(host, "acme") == [0]


def modes() -> None:
    """The socket has its mode and group; those may read the status who may connect; dumps are the owner's alone."""
    group = os.getgid()
    for mode, shown in (("660", 0o640), ("600", 0o600), ("606", 0o604)):
        host = Host([tenant("acme")], "--mode", mode, "--group", group)
        socket, status = os.stat(host.path("socket")), os.stat(host.path("status.json"))
        assert stat.S_IMODE(socket.st_mode) == int(mode, 8) and socket.st_gid == group
        assert stat.S_IMODE(status.st_mode) == shown and status.st_gid == group
        assert host.stop() == 0
        assert stat.S_IMODE(os.stat(host.path("dumps", "acme.000000.jsonl")).st_mode) == 0o600


def starts_again_after_a_kill() -> None:
    """What a killed host leaves is finished or cleared, and the numbers of terms and of jobs go on behind all that may have been
    given."""
    host = Host([tenant("acme", steps=1000)])
    connection = host.connect()
    assert ask(connection, fib(6)) == {"job": 1, "status": "complete", "value": 8}
    assert host.stop() == 0
    host = Host([tenant("acme", steps=1000)], after=host)
    connection = host.connect()
    assert ask(connection, fib(6)) == {"job": 1001, "status": "complete", "value": 8}
    host.kill()
    assert os.path.exists(host.path("socket"))
    for name in ("acme.000001.jsonl.part", "acme.000001.jsonl.part2"):
        with open(host.path("dumps", name), "w") as it:
            it.write("{")
    host = Host([tenant("acme", steps=1000)], after=host)
    [opened] = by_deadline(lambda: host.told("opened"))
    assert (opened["tenant"], opened["term"], opened["base"]) == ("acme", 2, 2000)
    connection = host.connect()
    assert ask(connection, fib(6)) == {"job": 2001, "status": "complete", "value": 8}
    assert host.stop() == 0
    assert sorted(os.listdir(host.path("dumps"))) == [f"acme.{term:06}.jsonl" for term in range(3)]
    assert os.listdir(host.path("journals")) == []
    hang_up(connection)


def numbers_that_cannot_be_read() -> None:
    """A host does not begin where it can't know which numbers were given."""
    host = Host([tenant("acme")])
    assert host.stop() == 0
    with open(host.path("terms", "acme"), "w") as it:
        it.write("0 0\n")
    printed, told, status = run("--config", host.config, "--run", host.run)
    assert (printed, told.splitlines()[-1], status) == ("", "arena-host: device", 3), told


CHECKS = [words_that_are_refused, only_one_host_in_a_folder, modes, starts_again_after_a_kill, numbers_that_cannot_be_read]

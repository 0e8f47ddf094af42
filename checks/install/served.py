"""A server that is started from installed files, a job that the installed command runs on it, and its end in order."""
import pathlib
import re
import subprocess

from room import PATIENCE, Room, run


def words_of_server(tree: pathlib.Path, etc: pathlib.Path, folder: pathlib.Path) -> list[object]:
    """The command line of arena-server."""
    return [tree / "bin/arena-server", "--config", etc / "arena/config.json", "--socket", folder / "socket", "--connections", 64,
            "--dump", folder / "dumps"]


def words_of_host(tree: pathlib.Path, etc: pathlib.Path, folder: pathlib.Path) -> list[object]:
    """The command line of arena-host."""
    return [tree / "bin/arena-host", "--config", etc / "arena/config.json", "--run", folder, "--mode", 660]


WORDS = {"arena-server": words_of_server, "arena-host": words_of_host}
# Arguments of `fib.job`, with what it gives.
FIBONACCI = {1: 1, 10: 55}


def serves(room: Room, program: str, tree: pathlib.Path, etc: pathlib.Path) -> None:
    """Starts a server from a tree of installed files, runs jobs by the command there, and stops it. Each dump is whole, by
    the word of the installed arena-script."""
    folder = room.at(f"{program}-run")
    (folder / "dumps").mkdir(parents=True)
    words = [str(it) for it in WORDS[program](tree, etc, folder)]
    with subprocess.Popen(words, stdout=subprocess.PIPE, stderr=subprocess.PIPE, text=True) as server:
        try:
            assert server.stdout.readline() == "listening\n", server.communicate()
            jobs = tree / "share/doc/arena/examples/jobs"
            for n, value in FIBONACCI.items():
                given = ("-s", folder / "socket", "-t", "acme", "run", jobs / "fib.job", "--args", n, 0)
                assert run(tree / "bin/arena", *given) == f"{value}\n"
            (folder / "socket").unlink()
            out, err = server.communicate(timeout=PATIENCE)
        finally:
            server.kill()
    assert server.returncode == 0, (server.returncode, err)
    assert re.fullmatch(r"acme\S*: closed, [1-9]\d* entries\nbeta\S*: closed, 0 entries\n", out), out
    dumps = sorted((folder / "dumps").iterdir())
    assert [it.name.split(".")[0] for it in dumps] == ["acme", "beta"], dumps
    for dump in dumps:
        assert dump.stat().st_mode & 0o777 == 0o600, dump
        assert run(tree / "bin/arena", "check", dump, "--script", tree / "bin/arena-script") == "yes\n"

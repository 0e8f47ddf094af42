"""`make install` and `make uninstall`, into a root of the check's own."""
import json
import pathlib
import subprocess
import sys

from contents import expected
from room import TOP, Room, need_built, run
from served import serves

PREFIX = "usr/local"


def modes_below(folder: pathlib.Path) -> dict[str, int]:
    """The modes of the files below a folder, by their paths."""
    return {str(it.relative_to(folder)): it.stat().st_mode & 0o7777 for it in folder.rglob("*") if not it.is_dir()}


def differences(there: dict[str, int], wanted: dict[str, int]) -> list[str]:
    """What is missing, what is too much, and what has another mode."""
    return [f"{path}: {there.get(path)}, not {wanted.get(path)}" for path in sorted({*there, *wanted})
            if there.get(path) != wanted.get(path)]


def is_installed_and_uninstalled(room: Room) -> None:
    """All files are there with their modes, and none is left."""
    root = room.at("root")
    said = room.make("install", DESTDIR=root)
    programs = {it.name for it in room.programs.iterdir()}
    for name in OF_ALL - programs:
        assert f"{name} is not built: left out" in said, said
    wanted = {**expected(programs, PREFIX, is_debian=False), f"{PREFIX}/lib/arena-python/installed": 0o644}
    assert not differences(modes_below(root), wanted), differences(modes_below(root), wanted)
    room.make("uninstall", DESTDIR=root)
    assert list(root.iterdir()) == []
    assert "nothing is installed" in room.make("uninstall", DESTDIR=root, status=2)


OF_ALL = {"arena-compile", "arena-script", "arena-server", "arena-host"}


def _runs(room: Room, program: str) -> None:
    need_built(room, program, "arena-script")
    root = room.at("root")
    room.make("install", DESTDIR=root)
    serves(room, program, root / PREFIX, root / "etc")
    assert "valid" in run(root / PREFIX / "bin/arena", "lint", root / "etc/arena/config.json")
    room.make("uninstall", DESTDIR=root)
    assert list(root.iterdir()) == [], "what Python compiled is still there"


def server_runs_from_the_tree(room: Room) -> None:
    """arena-server runs a job of the installed command."""
    _runs(room, "arena-server")


def host_runs_from_the_tree(room: Room) -> None:
    """arena-host runs a job of the installed command."""
    _runs(room, "arena-host")


def version_is_one(room: Room) -> None:
    """Each program tells the version of the package, and takes no other word beside the one that asks for it."""
    wanted = subprocess.run([sys.executable, "-m", "arena", "--version"], cwd=TOP / "python", capture_output=True, text=True, check=True)
    for program in room.programs.iterdir():
        assert run(program, "--version") == wanted.stdout.replace("arena", program.name), program
        refused = subprocess.run([program, "--version", "--version"], capture_output=True, text=True, stdin=subprocess.DEVNULL)
        assert (refused.returncode, refused.stdout, refused.stderr) == (2, "", f"{program.name}: words\n"), refused


def what_others_wrote_stays(room: Room) -> None:
    """A changed configuration stays at an installation over it and at the end, and so does a file beside ours."""
    root = room.at("root")
    room.make("install", DESTDIR=root)
    config, other = root / "etc/arena/config.json", root / PREFIX / "share/man/man1/other.1"
    changed = json.dumps({**json.loads(config.read_text()), "workers": 1})
    config.write_text(changed)
    other.write_text("")
    for target in ("install", "uninstall"):
        assert "has been changed, and stays" in room.make(target, DESTDIR=root)
        assert config.read_text() == changed
    assert modes_below(root).keys() == {"etc/arena/config.json", f"{PREFIX}/share/man/man1/other.1"}


def files_of_an_older_installation_go(room: Room) -> None:
    """A file that an installation no longer has goes, and the configuration of the older one is replaced."""
    root = room.at("root")
    room.make("install", DESTDIR=root)
    record = root / PREFIX / "lib/arena-python/installed"
    gone = root / PREFIX / "lib/arena-python/arena/gone.py"
    gone.write_text("")
    record.write_text(f"{record.read_text()}{'0' * 64} /{gone.relative_to(root)}\n")
    room.make("install", DESTDIR=root)
    assert not gone.exists()
    room.make("uninstall", DESTDIR=root)
    assert list(root.iterdir()) == []


def nothing_built_is_said(room: Room) -> None:
    """Without a program nothing is installed or packed."""
    empty = room.at("empty")
    empty.mkdir()
    for target in ("install", "deb", "dist"):
        said = room.make(target, DESTDIR=room.at("root"), PROGRAMS=empty, status=2)
        assert "no program is built" in said or "dpkg-deb is not installed" in said, said
    assert not room.at("root").exists()


CHECKS = (is_installed_and_uninstalled, version_is_one, server_runs_from_the_tree, host_runs_from_the_tree, what_others_wrote_stays,
          files_of_an_older_installation_go, nothing_built_is_said)

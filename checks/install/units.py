"""The units for systemd, and its users and folders. They are read by systemd's own tools; nothing is started."""
import os
import pathlib
import re
import shutil
import stat

from room import TOP, Room, Skipped, need, run

# The exposure that `systemd-analyze security` may find, in tenths: from 0, nothing, to 100, all.
EXPOSURE = 20


def installed(room: Room) -> pathlib.Path:
    """An installation in which the paths of the units are right, with a stand-in for a program that is not built."""
    programs, prefix = room.at("programs"), room.at("prefix")
    shutil.copytree(room.programs, programs)
    for name in ("arena-server", "arena-host"):
        if not (programs / name).exists():
            shutil.copy("/bin/true", programs / name)
    room.make("install", PROGRAMS=programs, PREFIX=prefix, SYSCONFDIR=prefix / "etc")
    return prefix


def units(prefix: pathlib.Path) -> list[pathlib.Path]:
    """The units of an installation."""
    return [prefix / "lib/systemd/system/arena-host.service", prefix / "share/doc/arena/examples/arena-server.service"]


def units_are_verified(room: Room) -> None:
    """`systemd-analyze verify` has nothing to say of our units."""
    need("systemd-analyze")
    for unit in units(installed(room)):
        said = run("systemd-analyze", "verify", "--man=no", unit)
        assert unit.name not in said, said


def sandbox_is_tight(room: Room) -> None:
    """`systemd-analyze security` finds little that the unit of arena-host leaves open."""
    need("systemd-analyze")
    unit, _ = units(installed(room))
    run("systemd-analyze", "security", "--offline=true", f"--threshold={EXPOSURE}", "--no-pager", unit)


def user_and_folders_are_made(room: Room) -> None:
    """systemd makes the user, its group and the folders with their modes, below a root of the check's own."""
    need("systemd-sysusers")
    need("systemd-tmpfiles")
    if os.geteuid() != 0:
        raise Skipped("only root gives folders to another user")
    prefix, root = installed(room), room.at("root")
    (root / "etc").mkdir(parents=True)
    run("systemd-sysusers", f"--root={root}", prefix / "lib/sysusers.d/arena.conf")
    name, _, user, group, *_, home, shell = (root / "etc/passwd").read_text().splitlines()[-1].split(":")
    assert (name, home, shell) == ("arena", "/var/lib/arena", "/usr/sbin/nologin")
    run("systemd-tmpfiles", "--create", f"--root={root}", prefix / "lib/tmpfiles.d/arena.conf")
    for path, mode in (("", 0o750), ("dumps", 0o700), ("lock", 0o600)):
        made = (root / "var/lib/arena" / path).stat()
        assert (stat.S_IMODE(made.st_mode), made.st_uid, made.st_gid) == (mode, int(user), int(group)), path


def each_start_of_the_host_bounds_its_memory(_: Room) -> None:
    """Whatever starts arena-host here sets the word of docs/HOST.md, Memory, to its value."""
    places = [TOP / "Makefile", TOP / "packaging/arena-host.service",
              *(it for it in (TOP / "examples").rglob("*") if it.suffix in (".yaml", ".hcl"))]
    starts = [it for it in places if re.search(r"(arena-host|\$\(HOST\) \$\(RUN\)) --config|/usr/bin/arena\b.*\bhost\b", it.read_text(), re.S)]
    assert len(starts) == 6, starts
    for it in starts:
        assert re.search(r"MALLOC_MMAP_THRESHOLD_\W+(value: )?\W?16384\b", it.read_text()), it


CHECKS = (units_are_verified, sandbox_is_tight, user_and_folders_are_made, each_start_of_the_host_bounds_its_memory)

"""`make deb`: what the package has, and that it runs from where it is unpacked."""
import contextlib
import hashlib
import os
import pathlib
import re
import threading
from collections.abc import Iterator

import service
from contents import expected
from room import TOP, Room, Skipped, need, need_built, run
from served import serves
from tree import differences, modes_below

BUILDING = threading.Lock()
INSTALLING = threading.Lock()


def build(room: Room, to: pathlib.Path) -> pathlib.Path:
    """Builds a package into a folder. It is compressed less than that of `make deb`, which takes seconds."""
    need("dpkg-deb")
    return pathlib.Path(run(TOP / "packaging/deb.py", "--programs", room.programs, "--to", to, "--fast").strip())


def built(room: Room) -> pathlib.Path:
    """The package that all checks but one look at; the first of them builds it."""
    folder = room.programs.parent / "package"
    with BUILDING:
        return next(folder.glob("*.deb"), None) or build(room, folder)


def package_has_its_files(room: Room) -> None:
    """All files are there with their modes, of owner root, and nothing else."""
    lines = run("dpkg-deb", "--contents", built(room)).splitlines()
    there = {}
    for line in lines:
        kind, owner, _, _, _, path = line.split(maxsplit=5)
        assert owner == "root/root", line
        if kind.startswith("d"):
            assert kind == "drwxr-xr-x", line
        else:
            there[path.removeprefix("./")] = 0o755 if kind == "-rwxr-xr-x" else 0o644 if kind == "-rw-r--r--" else kind
    wanted = expected({it.name for it in room.programs.iterdir()}, "usr", is_debian=True)
    for name in ("changelog.gz", "copyright"):
        wanted[f"usr/share/doc/arena/{name}"] = 0o644
    assert not differences(there, wanted), differences(there, wanted)


def package_says_what_it_is(room: Room) -> None:
    """The control file, the configuration, the checksums and the scripts."""
    package, meta, tree = built(room), room.at("meta"), room.at("tree")
    run("dpkg-deb", "--control", package, meta)
    run("dpkg-deb", "--extract", package, tree)
    said = run("dpkg-deb", "--field", package)
    assert re.search(r"^Package: arena$", said, re.M) and re.search(r"^Version: \d", said, re.M), said
    assert re.search(r"^Depends: libc6 \(>= 2\.\d+\), libgcc-s1, python3 \(>= 3\.11\)", said, re.M), said
    assert "@" not in re.sub(r"<.*>", "", said), said
    assert (meta / "conffiles").read_text() == "/etc/arena/config.json\n"
    sums = dict(reversed(line.split("  ")) for line in (meta / "md5sums").read_text().splitlines())
    assert sums == {path: hashlib.md5((tree / path).read_bytes()).hexdigest() for path in modes_below(tree)
                    if not path.startswith("etc/")}
    for script in ("postinst", "prerm", "postrm"):
        assert (meta / script).stat().st_mode & 0o777 == 0o755
        run("sh", "-n", meta / script)


def package_says_whether_it_is_proved(room: Room) -> None:
    """The version, the name and the description of a package whose programs are built with checks of memory, as those
    without proofs are, and of one whose programs are not."""
    programs = room.at("some")
    programs.mkdir()
    for more, is_proved in ((b"", True), (b"\0__asan_init\0", False)):
        (programs / "arena-script").write_bytes(pathlib.Path("/bin/true").read_bytes() + more)
        package = build(Room(room.folder, programs), room.at("package"))
        said = run("dpkg-deb", "--field", package)
        marks = ("~unproved_" in package.name, bool(re.search(r"^Version: .*~unproved$", said, re.M)),
                 bool(re.search("^Description: .*, built without proofs$", said, re.M)), "NOT PROVED: " in said,
                 "answers are proved" not in said)
        assert marks == (not is_proved,) * len(marks), (package.name, said)


def package_is_the_same_again(room: Room) -> None:
    """The same programs and commit give the same bytes."""
    first, second = built(room), build(room, room.at("again"))
    assert first.name == second.name and first.read_bytes() == second.read_bytes()


def _runs(room: Room, program: str) -> None:
    need_built(room, program, "arena-script")
    tree = room.at("tree")
    run("dpkg-deb", "--extract", built(room), tree)
    serves(room, program, tree / "usr", tree / "etc")


def server_runs_from_the_package(room: Room) -> None:
    """arena-server runs a job of the command in the package."""
    _runs(room, "arena-server")


def host_runs_from_the_package(room: Room) -> None:
    """arena-host runs a job of the command in the package."""
    _runs(room, "arena-host")


@contextlib.contextmanager
def installed(room: Room) -> Iterator[None]:
    """Really installs the package on this machine, and purges it at the end, after which nothing is left. One check at a time
    does."""
    if os.environ.get("REALLY_INSTALL") != "1" or os.geteuid() != 0:
        raise Skipped("only root with REALLY_INSTALL=1 installs the package on this machine")
    package, tree = built(room), room.at("tree")
    run("dpkg-deb", "--extract", package, tree)
    with INSTALLING:
        run("dpkg", "--install", package)
        try:
            yield
        finally:
            run("dpkg", "--purge", "arena")
        left = [path for path in modes_below(tree) if os.path.lexists(f"/{path}")]
        assert not left and not os.path.exists("/var/lib/arena") and not os.path.exists("/usr/lib/arena-python"), left


def package_is_installed_and_purged(room: Room) -> None:
    """The installed programs run jobs."""
    with installed(room):
        for program in ("arena-server", "arena-host"):
            if (room.programs / program).exists():
                serves(room, program, pathlib.Path("/usr"), pathlib.Path("/etc"))


def service_works(room: Room) -> None:
    """The installed unit of arena-host starts, is reloaded, comes back after a kill, and stops in order."""
    need_built(room, "arena-host", "arena-script")
    if not service.runs_systemd():
        raise Skipped("systemd does not run here")
    with installed(room):
        service.works()


CHECKS = (package_has_its_files, package_says_what_it_is, package_says_whether_it_is_proved,
          package_is_the_same_again, server_runs_from_the_package, host_runs_from_the_package,
          package_is_installed_and_purged, service_works)

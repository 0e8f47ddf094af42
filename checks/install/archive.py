"""`make dist`: the archive of the proved programs."""
import hashlib
import pathlib
import re
import sys
import tarfile

from room import TOP, Room, need, need_built, run

PASSED = "| crate | 1 |\n\n2 passed, 0 failed\n"


def pack(room: Room, gate: str, to: str = "packed", status: int = 0) -> str:
    """Packs with a gate's page, and returns what is printed last: the path of the archive."""
    page = room.at("gate.md")
    page.write_text(gate)
    words = ("--programs", room.programs, "--gate", page, "--to", room.at(to))
    return run(TOP / "packaging/dist.py", *words, status=status).splitlines()[-1]


def archive_is_the_same_again(room: Room) -> None:
    """The same programs, commit and line give the same bytes, whose checksums hold."""
    need_built(room, "arena-script")
    first, second = pathlib.Path(pack(room, PASSED, "first")), pathlib.Path(pack(room, PASSED, "second"))
    assert first.name == second.name and first.read_bytes() == second.read_bytes()
    with tarfile.open(first) as archive:
        entries = archive.getmembers()
        packed = {it.name.split("/")[1]: archive.extractfile(it).read() for it in entries}
    names = [it.name for it in entries]
    assert names == sorted(names) and {it.name.split("/")[0] for it in entries} == {first.name.removesuffix(".tar.gz")}
    assert {(it.uid, it.gid, it.uname, it.gname) for it in entries} == {(0, 0, "", "")}
    assert {it.mtime for it in entries} == {int(run("git", "log", "-1", "--format=%ct"))}
    programs = {it.name for it in room.programs.iterdir()}
    assert packed.keys() == {*programs, "GATE", "SHA256SUMS"}
    assert {it.name.split("/")[1]: it.mode for it in entries if it.mode != 0o644} == dict.fromkeys(programs, 0o755)
    assert packed["GATE"].decode().splitlines()[1] == "2 passed, 0 failed"
    sums = dict(reversed(line.split("  ")) for line in packed["SHA256SUMS"].decode().splitlines())
    assert sums == {name: hashlib.sha256(it).hexdigest() for name, it in packed.items() if name != "SHA256SUMS"}


def gate_that_did_not_pass_is_refused(room: Room) -> None:
    """A gate that failed, or was not run, gives no archive."""
    need_built(room, "arena-script")
    assert pack(room, "2 passed, 1 failed\n", status=1) == "the gate did not pass: 2 passed, 1 failed"
    assert pack(room, "", status=1).startswith("the gate did not pass")
    said = run(TOP / "packaging/dist.py", "--programs", room.programs, "--gate", room.at("none"), status=1)
    assert "make test" in said and not room.at("packed").exists()


def versions_are_in_order(room: Room) -> None:
    """What is said of a repository with each kind of tag, before and after its version is raised, and the order that dpkg
    sees."""
    need("dpkg")
    top = room.at("repository")
    git = ("git", "-C", top, "-c", "user.name=nobody", "-c", "user.email=nobody@localhost")
    run("git", "init", "-q", top)
    file = top / "python/arena/version.py"
    file.parent.mkdir(parents=True)
    versions = []
    for number, tag in (("1.0.0", None), ("1.0.0", "v1.0.0-rc1"), ("1.0.0", None), ("1.0.0", "v1.0.0"), ("1.0.0", None),
                        ("1.0.0", "v1.1"), ("1.1.0", None), ("1.1.0", "v1.1.0")):
        file.write_text(f'"""The version."""\nVERSION = "{number}"\n')
        run(*git, "add", "-A")
        run(*git, "commit", "-q", "--allow-empty", "-m", "a commit")
        if tag:
            run(*git, "tag", tag)
        versions.append(version_of(top))
    wanted = (r"1\.0\.0~\d{8}\.\d{6}\+g[0-9a-f]{7}", r"1\.0\.0~rc1", r"1\.0\.0~rc1\+1\.g[0-9a-f]{7,}", r"1\.0\.0",
              r"1\.0\.0\+1\.g[0-9a-f]{7,}", r"1\.0\.0\+2\.g[0-9a-f]{7,}", r"1\.1\.0~\d{8}\.\d{6}\+g[0-9a-f]{7}", r"1\.1\.0")
    assert all(re.fullmatch(*it) for it in zip(wanted, versions, strict=True)), versions
    for lower, higher in zip(versions, versions[1:]):
        run("dpkg", "--compare-versions", lower, "lt", higher)
    file.write_text('VERSION = "1.1.0"\n')
    assert version_of(top) == "1.1.0+changed"


def version_of(top: pathlib.Path) -> str:
    """The version that packages of a repository would have."""
    words = f"import layout, pathlib; layout.TOP = pathlib.Path({str(top)!r}); import version; print(version.version())"
    return run(sys.executable, "-c", words, cwd=TOP / "packaging").strip()


CHECKS = (versions_are_in_order, archive_is_the_same_again, gate_that_did_not_pass_is_refused)

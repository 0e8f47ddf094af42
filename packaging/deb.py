#!/usr/bin/env python3
"""Builds a Debian package with dpkg-deb, and prints its path. The same commit and programs give the same bytes.

usage: packaging/deb.py [--programs FOLDER] [--to FOLDER] [--fast]
"""
import argparse
import gzip
import hashlib
import os
import pathlib
import re
import shutil
import subprocess
import sys
import tempfile

from install import Record, Root
from layout import HERE, TOP, File, Target, built, files, unproved
from version import commit, epoch, maintainer, version

DEBIAN = Target(prefix="/usr", python="/usr/bin/python3", is_debian=True)
SCRIPTS = ("postinst", "prerm", "postrm")
PROVED = """ The server's answers are proved: given a
 tenant's own steps, nothing that another tenant does changes its results."""
UNPROVED = """
 .
 NOT PROVED: of the programs here, these were built without proofs, for trying
 them out: @NAMES@. Nothing is promised of their
 answers, and their checks of memory make them a hundred times slower or more."""


def architecture() -> str:
    """The machine's name among Debian's architectures."""
    return subprocess.run(["dpkg", "--print-architecture"], capture_output=True, text=True, check=True).stdout.strip()


def glibc(programs: list[pathlib.Path]) -> int:
    """The least C library that programs run with, as the number behind `2.`, by the versions of what they call."""
    return max(int(it) for path in programs for it in re.findall(rb"\0GLIBC_2\.(\d+)(?=[.\0])", path.read_bytes()))


def package_version(programs: pathlib.Path) -> str:
    """The version of the package. One with a program that is not proved comes before that of the same commit, so that
    the proved one takes its place."""
    return f"{version()}~unproved" if unproved(programs) else version()


def changelog(programs: pathlib.Path) -> bytes:
    """Debian's changelog: one entry, for the commit."""
    when = subprocess.run(["date", "-u", "-R", "-d", f"@{epoch()}"], capture_output=True, text=True, check=True)
    text = (f"arena ({package_version(programs)}) unstable; urgency=medium\n\n  * Built from commit {commit()}.\n\n"
            f" -- {maintainer()}  {when.stdout}")
    return gzip.compress(text.encode(), 9, mtime=0)


def contents(programs: pathlib.Path) -> list[File]:
    """The files of the package."""
    documents = DEBIAN.documents
    more = [File(f"{documents}/changelog.gz", changelog(programs)),
            File(f"{documents}/copyright", (HERE / "debian/copyright").read_bytes())]
    return sorted([*files(DEBIAN, programs), *more], key=lambda it: it.path)


def control(programs: pathlib.Path, packed: list[File]) -> str:
    """The control file."""
    there, names = built(programs), unproved(programs)
    text = (HERE / "debian/control").read_text()
    values = {"VERSION": package_version(programs), "ARCHITECTURE": architecture(), "MAINTAINER": maintainer(),
              "SIZE": sum(len(it.content) // 1024 + 1 for it in packed), "GLIBC": glibc(list(there.values())),
              "PROGRAMS": ", ".join(there), "KIND": ", built without proofs" if names else "",
              "CLAIM": UNPROVED.replace("@NAMES@", ", ".join(names)) if names else PROVED}
    for name, value in values.items():
        text = text.replace(f"@{name}@", str(value))
    return text


def stage(folder: pathlib.Path, programs: pathlib.Path) -> None:
    """Writes the tree that dpkg-deb packs."""
    root, packed = Root(folder), contents(programs)
    meta = {"control": control(programs, packed),
            "conffiles": "".join(f"{it.path}\n" for it in packed if it.is_config),
            "md5sums": "".join(f"{hashlib.md5(it.content).hexdigest()}  {it.path[1:]}\n"
                               for it in packed if not it.is_config)}
    scripts = [File(f"/DEBIAN/{name}", (HERE / "debian" / name).read_bytes(), 0o755) for name in SCRIPTS]
    for file in (*packed, *scripts, *(File(f"/DEBIAN/{name}", text.encode()) for name, text in meta.items())):
        root.write(file, Record())
    folder.chmod(0o755)


def build(programs: pathlib.Path, to: pathlib.Path, is_fast: bool) -> pathlib.Path:
    """Builds the package into a folder; a fast build compresses less."""
    to.mkdir(parents=True, exist_ok=True)
    package = to / f"arena_{package_version(programs)}_{architecture()}.deb"
    with tempfile.TemporaryDirectory() as room:
        tree = pathlib.Path(room) / "tree"
        tree.mkdir()
        stage(tree, programs)
        compression = ["-Zgzip", "-z1"] if is_fast else ["-Zxz"]
        subprocess.run(["dpkg-deb", "--root-owner-group", *compression, "--build", tree, package], check=True,
                       stdout=subprocess.DEVNULL, env={**os.environ, "SOURCE_DATE_EPOCH": str(epoch())})
    return package


def main() -> None:
    """Reads the words."""
    words = argparse.ArgumentParser(description=__doc__.split("\n")[0])
    words.add_argument("--programs", default="out")
    words.add_argument("--to", default="out")
    words.add_argument("--fast", action="store_true", help="compress less")
    given = words.parse_args()
    programs = TOP / given.programs
    if not shutil.which("dpkg-deb"):
        sys.exit("dpkg-deb is not installed: a Debian package is built on Debian")
    if not built(programs):
        sys.exit(f"no program is built in {programs}: `make build` proves and builds them")
    print(build(programs, TOP / given.to, given.fast))


if __name__ == "__main__":
    main()

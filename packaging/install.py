#!/usr/bin/env python3
"""Installs the programs, the Python package and what belongs to them, or takes away again what an installation made.

usage: packaging/install.py install|uninstall [--destdir D] [--prefix P] [--etc E] [--programs FOLDER] [--python PATH]

`make install` and `make uninstall` call it. An installation keeps a list of its files and folders, in
PREFIX/lib/arena-python/installed: uninstalling removes just these, and a configuration only if nobody has changed it.
"""
import argparse
import hashlib
import os
import pathlib
import sys
from dataclasses import dataclass, field

from layout import PROGRAMS, TOP, File, Target, built, files

LIST = "lib/arena-python/installed"
NEXT = """for the service: systemd-sysusers arena.conf && systemd-tmpfiles --create arena.conf && systemctl daemon-reload &&
    systemctl enable --now arena-host"""


def digest(content: bytes) -> str:
    """The checksum by which a file that somebody changed is told."""
    return hashlib.sha256(content).hexdigest()


@dataclass
class Record:
    """What an installation made: checksums by path, and folders, those above first."""

    files: dict[str, str] = field(default_factory=dict)
    folders: list[str] = field(default_factory=list)

    @classmethod
    def read(cls, path: pathlib.Path) -> "Record":
        """The record of an installation, or an empty one if there is none."""
        record = cls()
        for line in path.read_text().splitlines() if path.exists() else ():
            what, name = line.split(" ", 1)
            if what == "folder":
                record.folders.append(name)
            else:
                record.files[name] = what
        return record

    def text(self) -> str:
        """The record as it is kept."""
        return "".join([*(f"folder {it}\n" for it in self.folders), *(f"{it} {name}\n" for name, it in self.files.items())])


@dataclass
class Root:
    """The root that paths of an installation begin at, which is not / where a package is made."""

    folder: pathlib.Path

    def at(self, path: str) -> pathlib.Path:
        """Where a path of the installation is."""
        return self.folder / path.lstrip("/")

    def make_folder(self, path: str, record: Record) -> None:
        """Makes a folder and those above it, and records those that were not there."""
        missing = [it for it in (path, *map(str, pathlib.PurePosixPath(path).parents)) if not self.at(it).is_dir()]
        for it in reversed(missing):
            self.at(it).mkdir(mode=0o755)
            self.at(it).chmod(0o755)
            record.folders.append(it)

    def write(self, file: File, record: Record) -> None:
        """Writes a file; a running program is not changed, since the new file takes the place of the old."""
        self.make_folder(os.path.dirname(file.path), record)
        part = self.at(f"{file.path}.part")
        part.write_bytes(file.content)
        part.chmod(file.mode)
        part.rename(self.at(file.path))

    def is_changed(self, path: str, *wanted: str | None) -> bool:
        """Whether a file is there that is none of those that an installation writes."""
        return self.at(path).exists() and digest(self.at(path).read_bytes()) not in wanted


def install(root: Root, target: Target, programs: pathlib.Path) -> None:
    """Installs, over an older installation if there is one."""
    there = built(programs)
    for name in PROGRAMS:
        if name not in there:
            print(f"{name} is not built: left out ({programs}/{name} is not there)")
    if not there:
        sys.exit("no program is built: `make build` proves and builds them")
    root.folder.mkdir(parents=True, exist_ok=True)
    old, record = Record.read(root.at(f"{target.prefix}/{LIST}")), Record()
    record.folders = [it for it in old.folders if root.at(it).is_dir()]
    made = files(target, programs)
    for file in made:
        if file.is_config and root.is_changed(file.path, old.files.get(file.path), digest(file.content)):
            print(f"{file.path} has been changed, and stays as it is")
            record.files[file.path] = "config"
            continue
        root.write(file, record)
        record.files[file.path] = digest(file.content)
    for path in old.files.keys() - record.files.keys():
        root.at(path).unlink(missing_ok=True)
    root.write(File(f"{target.prefix}/{LIST}", record.text().encode()), record)
    print(f"{len(made)} files are installed, with {', '.join(there)}")
    if root.folder == pathlib.Path("/") and "arena-host" in there:
        print(NEXT)


def uninstall(root: Root, target: Target) -> None:
    """Removes what an installation made, and what Python compiled beside it."""
    kept = root.at(f"{target.prefix}/{LIST}")
    record = Record.read(kept)
    if not record.files:
        sys.exit(f"nothing is installed below {target.prefix}")
    for path, wanted in record.files.items():
        if path.startswith(f"{target.etc}/") and root.is_changed(path, wanted):
            print(f"{path} has been changed, and stays")
        else:
            root.at(path).unlink(missing_ok=True)
    kept.unlink()
    for compiled in root.at(f"{target.prefix}/lib/arena-python").rglob("__pycache__/*.pyc"):
        compiled.unlink()
    for path in sorted({*record.folders, *_caches(root, record)}, reverse=True):
        try:
            root.at(path).rmdir()
        except OSError:
            pass  # it holds what others put there, or is gone
    print(f"{len(record.files)} files are gone")


def _caches(root: Root, record: Record) -> list[str]:
    """The folders in which Python keeps what it has compiled."""
    return [f"{it}/__pycache__" for it in record.folders if root.at(f"{it}/__pycache__").is_dir()]


def absolute(path: str) -> str:
    """A path from the root, without what means nothing in it."""
    if not path.startswith("/"):
        raise argparse.ArgumentTypeError(f"{path} does not begin with /")
    return os.path.normpath(path)


def main() -> None:
    """Reads the words."""
    words = argparse.ArgumentParser(description=__doc__.split("\n")[0])
    words.add_argument("what", choices=("install", "uninstall"))
    words.add_argument("--destdir", default="")
    words.add_argument("--prefix", default="/usr/local", type=absolute)
    words.add_argument("--etc", default="/etc", type=absolute)
    words.add_argument("--python", default="/usr/bin/env python3")
    words.add_argument("--programs", default="out")
    given = words.parse_args()
    root, target = Root(pathlib.Path(given.destdir or "/")), Target(given.prefix, given.etc, given.python)
    if given.what == "install":
        install(root, target, pathlib.Path(os.path.join(TOP, given.programs)))
    else:
        uninstall(root, target)


if __name__ == "__main__":
    main()

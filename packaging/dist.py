#!/usr/bin/env python3
"""Packs the proved programs with the last line of the gate and their checksums into a tar.gz, and prints its path. The same
commit, programs and line give the same bytes.

usage: packaging/dist.py [--programs FOLDER] [--gate FILE] [--to FOLDER]
"""
import argparse
import gzip
import hashlib
import io
import pathlib
import platform
import re
import sys
import tarfile

from layout import PROGRAMS, TOP, built
from version import commit, epoch, has_changes, version


def last_line(gate: pathlib.Path) -> str:
    """The last line of the gate, which must tell of no failure."""
    if not gate.exists():
        sys.exit(f"{gate} is not there: `make test` passes the gate and writes it")
    line = (gate.read_text().splitlines() or [""])[-1]
    if not re.fullmatch(r"\d+ passed, 0 failed", line):
        sys.exit(f"the gate did not pass: {line}")
    return line


def contents(programs: pathlib.Path, gate: pathlib.Path) -> dict[str, bytes]:
    """The files of the archive, by their names."""
    packed = {name: path.read_bytes() for name, path in built(programs).items()}
    packed["GATE"] = f"commit {commit()}{' with changes' if has_changes() else ''}\n{last_line(gate)}\n".encode()
    sums = "".join(f"{hashlib.sha256(content).hexdigest()}  {name}\n" for name, content in sorted(packed.items()))
    return {**packed, "SHA256SUMS": sums.encode()}


def pack(name: str, packed: dict[str, bytes]) -> bytes:
    """A tar.gz of files below a folder, in the order of their names, all of owner 0 and of the commit's time."""
    archive = io.BytesIO()
    with tarfile.open(fileobj=archive, mode="w", format=tarfile.USTAR_FORMAT) as tar:
        for file, content in sorted(packed.items()):
            entry = tarfile.TarInfo(f"{name}/{file}")
            entry.size, entry.mtime, entry.mode = len(content), epoch(), 0o755 if file in PROGRAMS else 0o644
            tar.addfile(entry, io.BytesIO(content))
    return gzip.compress(archive.getvalue(), 6, mtime=0)


def main() -> None:
    """Reads the words."""
    words = argparse.ArgumentParser(description=__doc__.split("\n")[0])
    words.add_argument("--programs", default="out")
    words.add_argument("--gate", default="out/gate.md")
    words.add_argument("--to", default="out")
    given = words.parse_args()
    programs = TOP / given.programs
    for name in PROGRAMS:
        if name not in built(programs):
            print(f"{name} is not built: left out", file=sys.stderr)
    if not built(programs):
        sys.exit(f"no program is built in {programs}: `make build` proves and builds them")
    name = f"arena-{version()}-{platform.machine()}"
    packed = contents(programs, TOP / given.gate)
    path = TOP / given.to / f"{name}.tar.gz"
    path.parent.mkdir(parents=True, exist_ok=True)
    path.write_bytes(pack(name, packed))
    print(path)


if __name__ == "__main__":
    main()

"""What an installation consists of: each file with what it holds, where it goes, and its mode.

The table is one for `make install`, the Debian package and their checks.
"""
import gzip
import pathlib
from collections.abc import Iterator
from dataclasses import dataclass

HERE = pathlib.Path(__file__).resolve().parent
TOP = HERE.parent
PROGRAMS = ("arena-compile", "arena-script", "arena-server", "arena-host")
MANUALS = {"arena": "man1/arena.1", "arena-compile": "man1/arena-compile.1", "arena-script": "man1/arena-script.1",
           "arena-server": "man8/arena-server.8", "arena-host": "man8/arena-host.8"}


@dataclass(frozen=True)
class File:
    """A file of an installation, by its path from the root."""

    path: str
    content: bytes
    mode: int = 0o644
    is_config: bool = False  # kept as it is where somebody has changed it


@dataclass(frozen=True)
class Target:
    """For where an installation is made."""

    prefix: str = "/usr/local"
    etc: str = "/etc"
    python: str = "/usr/bin/env python3"
    is_debian: bool = False  # compressed manual pages, and zsh's folder for packages

    @property
    def documents(self) -> str:
        """The folder of the documentation."""
        return f"{self.prefix}/share/doc/arena"

    def filled(self, name: str) -> bytes:
        """A file of this folder with the paths of the installation."""
        text = (HERE / name).read_text()
        for mark, value in (("@BIN@", f"{self.prefix}/bin"), ("@ETC@", self.etc), ("@DOC@", self.documents),
                            ("@PYTHON@", self.python)):
            text = text.replace(mark, value)
        return text.encode()


def built(programs: pathlib.Path) -> dict[str, pathlib.Path]:
    """The programs that stand in a folder, by their names."""
    return {name: programs / name for name in PROGRAMS if (programs / name).is_file()}


CHECKER = b"__asan_init"
"""A name in each program that is built without proofs: its checks of memory are those of the address sanitizer."""


def unproved(programs: pathlib.Path) -> list[str]:
    """The names of the programs in a folder that were built without proofs."""
    return [name for name, path in built(programs).items() if CHECKER in path.read_bytes()]


def _below(folder: pathlib.Path, *suffixes: str) -> Iterator[pathlib.Path]:
    """The files below a folder, without what Python has compiled; all suffixes if none is named."""
    for path in sorted(folder.rglob("*")):
        if path.is_file() and "__pycache__" not in path.parts and (not suffixes or path.suffix in suffixes):
            yield path


def _package(target: Target) -> Iterator[File]:
    """The Python package with its command."""
    package = TOP / "python"
    for path in _below(package / "arena"):
        yield File(f"{target.prefix}/lib/arena-python/{path.relative_to(package)}", path.read_bytes())
    yield File(f"{target.prefix}/bin/arena", target.filled("arena"), 0o755)
    yield File(f"{target.prefix}/share/bash-completion/completions/arena",
               (package / "completion/arena").read_bytes())
    zsh = "vendor-completions" if target.is_debian else "site-functions"
    yield File(f"{target.prefix}/share/zsh/{zsh}/_arena", (package / "completion/_arena").read_bytes())


def _manuals(target: Target, names: set[str]) -> Iterator[File]:
    """The manual pages of some programs."""
    for name, place in MANUALS.items():
        if name in names:
            source = TOP / "python/man/arena.1" if name == "arena" else HERE / "man" / place.split("/")[1]
            page, end = source.read_bytes(), ""
            if target.is_debian:
                page, end = gzip.compress(page, 9, mtime=0), ".gz"
            yield File(f"{target.prefix}/share/man/{place}{end}", page)


def _documents(target: Target) -> Iterator[File]:
    """The pages, and the examples that they speak of."""
    for path in (TOP / "README.md", *_below(TOP / "docs", ".md", ".svg")):
        yield File(f"{target.documents}/{path.relative_to(TOP / 'docs' if 'docs' in path.parts else TOP)}",
                   path.read_bytes())
    for folder in ("jobs", "server", "haproxy"):
        for path in _below(TOP / "examples" / folder):
            content = path.read_bytes()
            yield File(f"{target.documents}/examples/{folder}/{path.relative_to(TOP / 'examples' / folder)}", content,
                       0o755 if content.startswith(b"#!") else 0o644)
    yield File(f"{target.documents}/examples/arena-server.service", target.filled("arena-server.service"))


def _service(target: Target) -> Iterator[File]:
    """What makes a service of arena-host."""
    yield File(f"{target.prefix}/lib/systemd/system/arena-host.service", target.filled("arena-host.service"))
    yield File(f"{target.prefix}/lib/sysusers.d/arena.conf", target.filled("sysusers.conf"))
    yield File(f"{target.prefix}/lib/tmpfiles.d/arena.conf", target.filled("tmpfiles.conf"))


def files(target: Target, programs: pathlib.Path) -> list[File]:
    """All files of an installation, for the programs that stand in a folder. The unit needs arena-host to be there."""
    there = built(programs)
    found = [File(f"{target.prefix}/bin/{name}", path.read_bytes(), 0o755) for name, path in there.items()]
    found += [*_package(target), *_manuals(target, {"arena", *there}), *_documents(target)]
    if "arena-host" in there:
        found += _service(target)
    found.append(File(f"{target.etc}/arena/config.json", target.filled("config.json"), is_config=True))
    return sorted(found, key=lambda it: it.path)

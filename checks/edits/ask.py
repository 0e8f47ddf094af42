#!/usr/bin/env python3
"""Asks the prover about some functions of a crate before anything else is proved: what they call, in the crate and below it,
is taken by its contract. It is for work on a proof; only `rt check`, and in the end `rt ci`, says that a crate is proved.

usage: checks/edits/ask.py CRATE PATH.. [--built TREE]... [--jobs N] [-- WORD..], at the top of the repository. A PATH is a function,
a type or a module, as the prover names it. A library of the crates below is taken as it was built in a TREE, or here, where
the sources are the same; of the others the sources are read, without their bodies. The words behind -- go to the prover.
What was checked stays in out/asked/, and the next call takes it from there.
"""
import argparse
import filecmp
import pathlib
import shutil
import subprocess
import sys
import tempfile

from prover import KIT, below, read_crates
from stubs import bodies_of, module_of, stub_out, TYPE

TOP = pathlib.Path.cwd()
PARTS = ("src", "specs", "proofs")


def files_of(crate: pathlib.Path) -> set[pathlib.Path]:
    """Returns the files that a crate's library is made of, by their paths in the crate."""
    return {file.relative_to(crate) for part in PARTS for file in (crate / part).rglob("*") if file.is_file()}


def built_in(name: str, trees: list[pathlib.Path]) -> pathlib.Path | None:
    """Returns a crate's library in one of these trees where it has the same sources and the library is no older than they."""
    own = TOP / "crates" / name
    for tree in trees:
        crate, made = tree / "crates" / name, tree / "crates" / name / "out/rlib" / f"{name}.rlib"
        if not made.exists() or files_of(crate) != files_of(own):
            continue
        files = files_of(crate)
        is_same = all(filecmp.cmp(crate / file, own / file, shallow=False) for file in files)
        if is_same and all((crate / file).stat().st_mtime <= made.stat().st_mtime for file in files):
            return made
    return None


def libraries(crates: dict[str, list[str]], name: str, trees: list[pathlib.Path]) -> dict[str, pathlib.Path]:
    """Returns the libraries below a crate that can be taken as they are: those that stand on no other ones."""
    found: dict[str, pathlib.Path] = {}
    for other in below(crates, name):
        if all(lower in found for lower in crates[other] if lower in crates) and (made := built_in(other, trees)):
            found[other] = made
    return found


def copied(name: str, folder: pathlib.Path) -> pathlib.Path:
    """Copies a crate's sources below a folder, and returns where."""
    crate = folder / name
    crate.mkdir()
    for part in PARTS:
        if (TOP / "crates" / name / part).is_dir():
            shutil.copytree(TOP / "crates" / name / part, crate / part)
    return crate


def is_at(name: str, path: str) -> bool:
    """Whether a path is that of a function or a module, or of what it is in."""
    return name == path or name.startswith(f"{path}::")


def functions_at(crate: pathlib.Path, paths: list[str]) -> set[str]:
    """Returns the functions of a crate's sources that these paths name. A method is in the module of its type, and in that of
    its file, too."""
    sources = {source: source.read_text() for source in crate.glob("src/**/*.rt")}
    modules = {source: module_of(str(source.relative_to(crate))) for source in sources}
    homes = {name: modules[source] for source, text in sources.items() for name in TYPE.findall(text)}
    bodies = {
        body.function: modules[source]
        for source, text in sources.items()
        for body in bodies_of(modules[source], homes, text.splitlines())
    }
    return {name for name, module in bodies.items() if any(is_at(name, path) or is_at(module, path) for path in paths)}


def root_of(crate: pathlib.Path) -> str:
    """Returns the root file of a crate, by its path in the crate."""
    return next(root for root in ("src/lib.rt", "src/main.rt") if (crate / root).exists())


def words_for(crates: dict[str, list[str]], name: str, made: dict[str, pathlib.Path], folder: pathlib.Path) -> list[str]:
    """Returns the beginning of the command that checks a crate over these libraries and, for the rest, over sources without
    bodies, which it writes below a folder."""
    words = [str(KIT / "bin/rattle"), "check", "--crate-name", name, "-L", f"dependency={KIT}/rlibs"]
    stubs = [other for other in below(crates, name) if other not in made]
    used = {lower for other in [name, *stubs] for lower in crates[other]}
    for other in ["std", *sorted(lower for lower in used if lower not in crates)]:
        words += ["--extern", f"{other}={KIT}/rlibs/{other}.rlib"]
    for other, library in made.items():
        words += ["--extern", f"{other}={library}"] if other in used else []
        words += ["-L", f"dependency={library.parent}"]
    for other in stubs:
        stub_out(other, copied(other, folder), set())
        words += ["--lib", f"{other}:{','.join(['std', *crates[other]])}={folder / other / root_of(folder / other)}"]
    words += ["--antt-project", f"{KIT}/rattle/logic/antt-project.json", "--logic-built", f"{KIT}/logic_built", "--links", f"{name}="]
    return [*words, "--allow-holes", "--incremental", str(TOP / "out/asked" / name)]


def main() -> int:
    parser = argparse.ArgumentParser(description="Asks the prover about some functions of a crate, by the contracts of what they call.")
    parser.add_argument("crate", metavar="CRATE")
    parser.add_argument("paths", nargs="+", metavar="PATH", help="a function, a type or a module")
    parser.add_argument("--built", action="append", default=[], type=pathlib.Path, metavar="TREE", help="a tree whose libraries are built")
    parser.add_argument("--jobs", default="1", metavar="N", help="how many modules are checked side by side (1), of some 3 GB each")
    own, sep, more = (" ".join(sys.argv[1:])).partition(" -- ")
    asked, crates = parser.parse_args(own.split()), read_crates()
    with tempfile.TemporaryDirectory(prefix=f"ask-{asked.crate}-") as room:
        folder = pathlib.Path(room)
        crate = copied(asked.crate, folder)
        named = functions_at(crate, asked.paths)
        if not named:
            parser.error(f"no function of {asked.crate} is at {', '.join(asked.paths)}")
        stub_out(asked.crate, crate, named)
        words = words_for(crates, asked.crate, libraries(crates, asked.crate, [TOP, *(tree.resolve() for tree in asked.built)]), folder)
        words += ["--jobs", asked.jobs, *(word for path in asked.paths for word in ("--only", path)), *more.split()]
        return subprocess.run([*words, root_of(crate)], cwd=crate, stdin=subprocess.DEVNULL).returncode


if __name__ == "__main__":
    sys.exit(main())

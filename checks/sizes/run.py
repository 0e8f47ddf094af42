#!/usr/bin/env python3
"""Holds sources and proofs to the sizes of docs/STYLE.md: functions of at most 40 lines, files of `src` of at most 300, and
lines of `specs` and `proofs` of at most 200 columns. A function that has a line for each instruction may be longer.

usage: checks/sizes/run.py, at the top of the repository. It exits with a status other than 0 if something is longer.
"""
import sys
from collections.abc import Iterator
from pathlib import Path

sys.path.append(str(Path(__file__).resolve().parents[1] / "edits"))

from stubs import TYPE, bodies_of, module_of

LINES_OF_FUNCTION = 40
LINES_OF_FILE = 300
COLUMNS_OF_PROOF = 200
BY_INSTRUCTION = {
    "job_json::writing::instructions::write_instr",
    "part_writer::instructions::add_instr",
    "register_choice::rename::rename_one",
    "same_values::programs::is_same_instr",
}


def long_functions(crate: Path, sources: dict[Path, str]) -> Iterator[str]:
    """Yields the functions of a crate that are too long."""
    modules = {source: module_of(str(source.relative_to(crate))) for source in sources}
    homes = {name: modules[source] for source, text in sources.items() for name in TYPE.findall(text)}
    for source, text in sources.items():
        for body in bodies_of(modules[source], homes, text.splitlines()):
            lines = body.last - body.first - 1
            if lines > LINES_OF_FUNCTION and f"{crate.name}::{body.function}" not in BY_INSTRUCTION:
                yield f"{source}: {body.function} has {lines} lines"


def long_files(sources: dict[Path, str]) -> Iterator[str]:
    """Yields the sources that are too long."""
    for source, text in sources.items():
        if (lines := len(text.splitlines())) > LINES_OF_FILE:
            yield f"{source}: {lines} lines"


def wide_proofs(crate: Path) -> Iterator[str]:
    """Yields the lines of a crate's definitions and proofs that are too wide."""
    for part in ("specs", "proofs"):
        for file in sorted((crate / part).rglob("*.antt")):
            for number, line in enumerate(file.read_text().splitlines(), 1):
                if len(line) > COLUMNS_OF_PROOF:
                    yield f"{file}:{number}: {len(line)} columns"


def main() -> None:
    """Looks at each crate, and says what is longer."""
    wrong = []
    crates = sorted(crate for crate in Path("crates").iterdir() if (crate / "src").is_dir())
    for crate in crates:
        sources = {source: source.read_text() for source in sorted(crate.glob("src/**/*.rt"))}
        wrong += [*long_functions(crate, sources), *long_files(sources), *wide_proofs(crate)]
    print(*wrong, f"{len(crates)} crates: {len(wrong)} functions, files or lines are too long", sep="\n")
    sys.exit(bool(wrong))


if __name__ == "__main__":
    main()

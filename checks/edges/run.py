#!/usr/bin/env python3
"""Holds the crates to the groups of crates.txt: a crate stands on crates of its own group and of the groups that its
heading names, each of which comes before. A group that is named and not needed is refused too, and so is a crate that
another one names in crates.txt and in none of its sources, definitions and proofs. The table of docs/ARCHITECTURE.md and docs/PROOFS.md
must have the groups in the same order, and the table each crate in its group.

usage: checks/edges/run.py, at the top of the repository. It exits with a status other than 0 if something differs.
"""
import pathlib
import re
import sys
from collections.abc import Iterator

sys.path.append(str(pathlib.Path(__file__).resolve().parents[1] / "build"))

from crates import Group, read_groups

COMMENT = {".rt": re.compile(r"//.*"), ".antt": re.compile(r"--.*")}
TABLE_HEADING = re.compile(r"\| \*\*(\w+)\*\*")


def wrong_edges(groups: list[Group]) -> Iterator[str]:
    """Yields what is wrong between crates."""
    group_of = {crate: group.name for group in groups for crate in group.crates}
    names = [group.name for group in groups]
    seen = set()
    for place, group in enumerate(groups):
        needed = set()
        for crate, on in group.crates.items():
            for other in filter(group_of.__contains__, on):
                needed.add(group_of[other])
                if other not in seen:
                    yield f"crates.txt: {crate} comes before {other}, on which it stands"
                if group_of[other] not in (group.name, *group.below):
                    yield f"crates.txt: {crate} of {group.name} stands on {other} of {group_of[other]}"
            seen.add(crate)
        yield from (f"crates.txt: {group.name} need not stand on {name}" for name in group.below if name not in needed)
        yield from (f"crates.txt: {group.name} names {name}, which does not come before"
                    for name in group.below if name not in names[:place])


def words_of(crate: str) -> set[str]:
    """The words of a crate's sources, definitions and proofs, without comments."""
    paths = [path for path in pathlib.Path("crates", crate).rglob("*") if path.suffix in COMMENT and "out" not in path.parts]
    return {word for path in paths for word in re.findall(r"\w+", COMMENT[path.suffix].sub("", path.read_text()))}


def unused(groups: list[Group]) -> Iterator[str]:
    """Yields the crates that another one stands on and never names."""
    for group in groups:
        for crate, on in group.crates.items():
            words = words_of(crate)
            yield from (f"crates.txt: {crate} names {other} nowhere" for other in on if other not in words)


def table_of(page: str) -> dict[str, list[str]]:
    """The groups of the table of docs/ARCHITECTURE.md, each with the crates of its rows."""
    groups = {}
    for line in page.splitlines():
        if heading := TABLE_HEADING.match(line):
            groups[heading[1]] = []
        elif groups and line.startswith("| `"):
            groups[heading_of(groups)] += re.findall(r"`(\w+)`", line.split("|")[1])
        elif groups and not line:
            break
    return groups


def heading_of(groups: dict[str, list[str]]) -> str:
    """The last group so far."""
    return list(groups)[-1]


def main() -> None:
    """Compares, and says what is wrong."""
    groups = read_groups(pathlib.Path("crates.txt").read_text())
    wrong = [*wrong_edges(groups), *unused(groups)]
    table = table_of(pathlib.Path("docs/ARCHITECTURE.md").read_text())
    for group in groups:
        if sorted(table.get(group.name, [])) != sorted(group.crates):
            wrong.append(f"docs/ARCHITECTURE.md: {group.name} has other crates than in crates.txt")
    sections = re.findall(r"^## The (\w+)$", pathlib.Path("docs/PROOFS.md").read_text(), re.M)
    names = [group.name for group in groups]
    if list(table) != names:
        wrong.append(f"docs/ARCHITECTURE.md: the groups are {list(table)}")
    if sections != [name for name in names if name != "tests"]:
        wrong.append(f"docs/PROOFS.md: the groups are {sections}")
    print(*wrong, sep="\n", end="\n" if wrong else "")
    count = sum(len(group.crates) for group in groups)
    print(f"{count} crates in {len(groups)} groups: {len(wrong)} edges or headings are wrong")
    sys.exit(bool(wrong))


main()

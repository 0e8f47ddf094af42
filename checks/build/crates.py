"""The crates of crates.txt, in their groups, and what each stands on."""
import dataclasses
import pathlib
import re

HEADING = re.compile(r"# == (?P<name>\w+): (?P<what>[^\[]+?)(?: \[on (?P<below>[\w ]+)\])?$")


@dataclasses.dataclass
class Group:
    """A group of crates, what it is, and the groups that its crates may stand on."""

    name: str
    what: str
    below: list[str]
    crates: dict[str, list[str]] = dataclasses.field(default_factory=dict)


def read_groups(text: str) -> list[Group]:
    """Returns the groups of crates.txt, each with its crates and what these stand on."""
    groups: list[Group] = []
    for line in text.splitlines():
        if heading := HEADING.match(line):
            groups.append(Group(heading["name"], heading["what"], (heading["below"] or "").split()))
        elif line and not line.startswith("#"):
            crate, on = line.split(":")
            groups[-1].crates[crate.split()[0]] = on.split()
    return groups


def read_crates() -> dict[str, list[str]]:
    """Returns the crates of crates.txt, lowest first, each with the libraries that it names."""
    lines = [line.split("#")[0] for line in pathlib.Path("crates.txt").read_text().splitlines()]
    pairs = [line.split(":") for line in lines if ":" in line]
    return {name.split()[0]: words.split() for name, words in pairs}


def below(crates: dict[str, list[str]], name: str) -> list[str]:
    """Returns the crates of the repository that a crate stands on, each after those that it stands on itself."""
    found = {}
    for other in crates[name]:
        if other in crates:
            found.update(dict.fromkeys([*below(crates, other), other]))
    return list(found)

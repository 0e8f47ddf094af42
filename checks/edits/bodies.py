"""The wrong bodies of a crate's calls, as its page must-fail/calls.md has them."""
import dataclasses
import pathlib
import re

NAME = re.compile(r"## (\w+)")
PLACE = re.compile(r"In `(src/[\w/]+\.rt)`, `([\w:+]+)`:")
OLD, NEW = "    old: ", "    new:"
HEAD = re.compile(r"^ *(?:pub(?:\([a-z]+\))? )?fn (\w+)", re.M)


class PageError(Exception):
    """A page that does not say what is to be planted, or says it of a text that is not there exactly once."""


@dataclasses.dataclass
class WrongBody:
    """A function under its own contract with another body: the texts to replace in its file, in their order."""

    name: str
    file: str = ""
    function: str = ""  # its path in the crate, as the prover names it
    pairs: list[tuple[str, str]] = dataclasses.field(default_factory=list)

    def plant(self, texts: dict[str, str], crate: pathlib.Path) -> None:
        """Puts the body into the text of its file, which is read if it is not among the texts yet."""
        text = texts[self.file] if self.file in texts else (crate / self.file).read_text()
        homes = set[str]()
        for old, new in self.pairs:
            if text.count(old) != 1:
                raise PageError(f"{self.name}: an old text is in {self.file} {text.count(old)} times, and not once: {old}")
            homes |= set(HEAD.findall(text[:text.index(old) + len(old)])[-1:])
            text = text.replace(old, new)
        if self.function.split("::")[-1] not in homes:
            raise PageError(f"{self.name}: no old text is in {self.function}, but in {', '.join(homes) or 'no function'}")
        texts[self.file] = text


def read_bodies(page: pathlib.Path) -> list[WrongBody]:
    """Returns the wrong bodies of a page. Under the name of each stands where it is, and then its pairs of old and new."""
    bodies, old = [], None
    for number, line in enumerate(page.read_text().splitlines(), 1):
        if found := NAME.fullmatch(line):
            bodies.append(WrongBody(found[1]))
        elif bodies and (found := PLACE.fullmatch(line)):
            bodies[-1].file, bodies[-1].function = found.groups()
        elif bodies and line.startswith(OLD) and old is None:
            old = line.removeprefix(OLD)
        elif line.startswith(NEW) and old is not None:
            bodies[-1].pairs.append((old, line.removeprefix(NEW).removeprefix(" ")))
            old = None
        elif line and (bodies or line.startswith("    ")):
            raise PageError(f"{page}:{number}: neither a name, a place, nor a pair of old and new")
    if old is not None or not bodies or not all(body.file and body.pairs for body in bodies):
        raise PageError(f"{page}: a wrong body has a name, a place, and pairs of old and new")
    return bodies

#!/usr/bin/env python3
"""Looks for what the pages name in the tree: each path, command, option, and name between back quotes must be there.

usage: checks/pages/run.py [PAGE..]. It prints each span that names something which is not there, and, where no page is
named, each commit that is not in the history and each word of allowed.txt that no page has; its status is then 1.

The rules; what is in allowed.txt, with its reason, is let through:
1. A path is a file or folder of the tree, or the end of such a path, perhaps without its ending. On a crate's page one that
   begins with src, specs, proofs or must-fail is in that crate. A file that a program makes has its name as a string of the
   code, and below out/ each word of it. A path that begins with / or ~, or has a part in capitals, is the reader's own.
2. `make X` and `arena X` are a target of the Makefile and a command of `arena`, also in blocks of code, as are paths that
   begin with a folder of the top. Links lead to files.
3. Of `A::b`, A is a crate or a type of the sources, and b is defined in it.
4. A word by itself is the name of a definition (a function, type, variant, field, parameter or clause; in Python also a
   variable), of a file or of a crate, or it is a whole string of the code, or a member in one. So is an option.
5. Of several words each is one of those, or stands in some string of the code.
6. In `f(x)` by itself, f is a function, type or variant, or a whole string of the code.
7. Where a crate's page says "seen as `X`", a type of the crate has X as its Value.
8. A crate has a page, with the four headings of SECTIONS in their order and no others, and at most MOST_LINES lines.
A word of one letter, or of capitals alone, stands for what a reader puts there.
"""
import pathlib
import re
import sys
from collections.abc import Iterable, Iterator

from history import commit_faults
from spans import TOP, Span, pages, spans_of
from tree import WORD, Tree

ENDS = "md|py|rt|antt|sh|job|jasm|json|jsonl|svg|txt|edit|bash|toml|service|crt|pem|deb"
OWN_PARTS = ("src/", "specs/", "proofs/", "must-fail/")
TOPS = ("benches/", "checks/", "crates/", "docs/", "examples/", "packaging/", "python/")
SECTIONS = ("What it is for", "What a contract sees", "What is proved", "What is only tested")
MOST_LINES = 60
MEMBER = re.compile(r"\b\w+(?:::\w+)+")


class Allowed:
    """The words and paths that are let through, and which of them a page has had."""

    def __init__(self, lines: list[str]) -> None:
        """From lines of `words -- reason`."""
        self.words = {word for line in lines for word in line.partition(" -- ")[0].split()}
        self.had: set[str] = set()

    def __contains__(self, word: str) -> bool:
        if word in self.words:
            self.had.add(word)
        return word in self.words


def allowed() -> Allowed:
    """What allowed.txt lets through."""
    return Allowed((pathlib.Path(__file__).parent / "allowed.txt").read_text().splitlines())


def is_path(word: str) -> bool:
    """Whether a word has a slash, or an ending of a file."""
    is_named = re.fullmatch(rf"[\w.-]+\.(?:{ENDS})", word)
    return bool(is_named or ("/" in word and len(word) > 1 and re.fullmatch(r"[~\w./*-]+", word)))


def is_readers_own(path: str) -> bool:
    """Whether a path is outside of the tree, or a part of it stands for a name that the reader chooses."""
    return path[0] in "/~" or any(re.fullmatch(r"[A-Z]+(\.(?!md$).*)?", part) for part in path.split("/"))


def has_path(tree: Tree, page: str, path: str) -> bool:
    """Whether a path on a page is there, or is made by a program."""
    parts = page.split("/")
    path = path.removeprefix("./")
    if path in tree.texts:
        return True
    if path.startswith("out/"):
        return all(word in tree.names or word in tree.said for word in WORD.findall(path))
    if parts[0] == "crates" and path.startswith(OWN_PARTS):
        return tree.has_path(path, "/".join(parts[:2]))
    return tree.has_path(path)


def has_member(tree: Tree, name: str) -> bool:
    """Whether each part of A::b::c is defined in the one before it."""
    parts = name.split("::")
    return all(after in tree.within.get(before, ()) for before, after in zip(parts, parts[1:]))


def command_faults(tree: Tree, text: str) -> Iterator[str]:
    """Yields the targets of `make` and the commands of `arena` in a text that are not there."""
    for target in re.findall(r"(?:^|[;&(]\s*)make ([a-z][\w-]*)", text):
        if target not in tree.targets:
            yield f"make {target}"
    for command in re.findall(r"(?:^|[;&(]\s*|-m )arena (?:-t \w+ )?([a-z][\w-]*)", text):
        if command not in tree.commands:
            yield f"arena {command}"


def word_faults(tree: Tree, words: Iterable[str], is_alone: bool) -> Iterator[str]:
    """Yields the words that are no names and no texts of the code."""
    for word in words:
        is_there = word in tree.names or word in tree.texts or (not is_alone and word in tree.said)
        if len(word) > 1 and not re.fullmatch("[A-Z]+", word) and not is_there:
            yield word


def faults(tree: Tree, let_through: Allowed, span: Span) -> Iterator[str]:
    """Yields the parts of a span that name something which is not there."""
    if span.is_link:
        if "://" not in span.text and not (TOP / span.page).parent.joinpath(span.text).exists():
            yield span.text
        return
    if wrong := list(command_faults(tree, span.text)):
        yield from wrong
        return
    words = [word.strip(",;:'\"") for word in span.text.split()]
    paths = [word for word in words if word and is_path(word) and (not span.is_code or word.startswith(TOPS))]
    yield from (path for path in paths if not (path in let_through or is_readers_own(path) or has_path(tree, span.page, path)))
    if span.is_code:
        return
    rest = " ".join(word for word in words if word not in paths and not re.fullmatch(r"-\w+", word))
    yield from (name for name in MEMBER.findall(rest) if name not in let_through and not has_member(tree, name))
    named = [word for word in WORD.findall(MEMBER.sub(" ", rest)) if word not in let_through]
    yield from word_faults(tree, named, len(rest.split()) == 1)
    called = re.match(r"([A-Za-z_]\w+)\(.*\)$", rest)
    if called and not any(called.group(1) in known for known in (tree.called, tree.texts, let_through)):
        yield f"{called.group(1)}()"
    if span.is_value and span.text not in tree.values[span.page.split("/")[1]]:
        yield f"no type is seen as {span.text}"


def shape_faults(tree: Tree) -> Iterator[str]:
    """Yields what is wrong with the pages of crates as a whole."""
    for crate in sorted(path for path in tree.paths if re.fullmatch(r"crates/\w+", path)):
        page = TOP / crate / "README.md"
        lines = page.read_text().splitlines() if page.exists() else []
        if tuple(line[3:] for line in lines if line.startswith("## ")) != SECTIONS:
            yield f"{crate}/README.md: the headings are not {', '.join(SECTIONS)}"
        if len(lines) > MOST_LINES:
            yield f"{crate}/README.md: {len(lines)} lines, more than {MOST_LINES}"


def main() -> None:
    """Looks at all pages, or at those that are named."""
    tree, let_through = Tree(), allowed()
    count, found = 0, []
    for page in sys.argv[1:] or pages():
        for span in spans_of(page):
            count += not span.is_code
            found += [f"{span.page}:{span.line}: {fault}, in: {span.text}" for fault in faults(tree, let_through, span)]
    others = [] if sys.argv[1:] else [*shape_faults(tree), *commit_faults(), *(
        f"checks/pages/allowed.txt: no page has {word}" for word in sorted(let_through.words - let_through.had))]
    print(*found, *others, sep="\n", end="\n" if found or others else "")
    print(f"{count} names on {len(sys.argv[1:] or pages())} pages: {len(found)} are not there")
    sys.exit(bool(found or others))


main()

"""The commits that the pages name."""
import re
import subprocess
from collections.abc import Iterator

from spans import TOP, pages

COMMIT = re.compile(r"\bcommits? ([0-9a-f]{7,40})\b")


def git(*words: str) -> list[str]:
    """The lines that a command of git prints: none where the tree is no checkout."""
    ran = subprocess.run(["git", "-C", str(TOP), *words], capture_output=True, text=True, timeout=60)
    return ran.stdout.split()


def commit_faults() -> Iterator[str]:
    """Yields the commits that a page names and the history lacks. It yields none where the history is not whole."""
    if git("rev-parse", "--is-shallow-repository") != ["false"]:
        return
    known = git("log", "--format=%H")
    for page in pages():
        for commit in COMMIT.findall((TOP / page).read_text()):
            if not any(it.startswith(commit) for it in known):
                yield f"{page}: commit {commit} is not in the history"

"""The version and the time of what is packed: those of the Python package and of the commit."""
import datetime
import os
import re
import subprocess

from layout import TOP


def _git(*words: str) -> str:
    """What git prints, without its last newline; nothing if it fails."""
    done = subprocess.run(["git", "-C", str(TOP), *words], capture_output=True, text=True)
    return done.stdout.strip() if done.returncode == 0 else ""


def epoch() -> int:
    """The time that packed files have: SOURCE_DATE_EPOCH, else that of the commit, in seconds since 1970."""
    return int(os.environ.get("SOURCE_DATE_EPOCH") or _git("log", "-1", "--format=%ct") or 0)


def commit() -> str:
    """The commit, or `unknown` outside of git."""
    return _git("rev-parse", "HEAD") or "unknown"


def maintainer() -> str:
    """Who made the commit, as a package names its maintainer."""
    return _git("log", "-1", "--format=%an <%ae>") or "nobody <nobody@localhost>"


def has_changes() -> bool:
    """Whether files that git knows are not as they were committed."""
    return bool(_git("status", "--porcelain", "--untracked-files=no"))


def released() -> str:
    """The version of the Python package, which the programs and packages share. Raises ValueError if its file has none."""
    text = (TOP / "python" / "arena" / "version.py").read_text()
    found = re.search(r'^VERSION = "([0-9][0-9.]*)"$', text, re.M)
    if found is None:
        raise ValueError("python/arena/version.py has no line VERSION = \"NUMBERS\"")
    return found[1]


def version() -> str:
    """The version of `python/arena/version.py`, say 1.2.0, at the commit with the tag v1.2.0; after it with the commits since,
    as 1.2.0+3.gabcdef0. Before that tag 1.2.0~DATE.TIME+gCOMMIT, or from a tag v1.2.0-rc1 on 1.2.0~rc1, all of which come
    before 1.2.0. Changes that are not committed add `changed`. Outside of git it is the version alone."""
    base, more = released(), []
    described = _git("describe", "--tags", "--long", "--match", f"v{base}", "--match", f"v{base}-*")
    if described:
        tag, since, abbreviated = described.rsplit("-", 2)
        base, more = tag[1:].replace("-", "~"), [since, abbreviated] if since != "0" else []
    elif commit() != "unknown":
        base += f"~{datetime.datetime.fromtimestamp(epoch(), datetime.UTC):%Y%m%d.%H%M%S}"
        more = [f"g{commit()[:7]}"]
    if has_changes():
        more.append("changed")
    return f"{base}+{'.'.join(more)}" if more else base

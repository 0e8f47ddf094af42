#!/usr/bin/env python3
"""Plants the wrong bodies of each crate's page must-fail/calls.md, many at once, and has the prover check the
functions that they are in: it must refuse each of them, for a goal of its own. What they call is not proved once more: it
loses its body, and is taken by its contract. One that calls another of them, and of which only that is said, is tried again
without the other.

`rt ci` tries the edits beside such a page one by one, for half a minute each; here one more costs a second or two. Of a page that
takes several checks the first one goes ahead, and the others run side by side, with what that has kept.

usage: checks/edits/run.py [--read | --right] [CRATE..], at the top of the repository, after `rt ci`. It exits with a status
other than 0 if a wrong body is not refused. With --read it only looks whether each stands where its page says, in a second.
With --right it plants none, and no function may be refused: so none of them is refused for what was taken from it.
"""
import argparse
import collections
import concurrent.futures
import os
import pathlib
import shutil
import subprocess
import sys
import tempfile
import threading
import time
from collections.abc import Callable

from bodies import PageError, WrongBody, read_bodies
from prover import Said, ask, build_libraries, read_crates
from recorded import wrong_readings

PAGE = "must-fail/calls.md"
AT_ONCE = 24
"""How many wrong bodies one check tries at most: with more of them the dearest page takes as long as a check may."""
SLOTS = threading.BoundedSemaphore(len(os.sched_getaffinity(0)))
"""One for each processor: each check takes one."""
TOOK: dict[str, list[float]] = collections.defaultdict(list)
"""How many seconds each check of a crate took."""
# what is wrong with a crate's wrong bodies, by what the prover says of them
Judge = Callable[[dict[str, list[str]], str, list[WrongBody], str], list[str]]


def batches_of(bodies: list[WrongBody]) -> list[list[WrongBody]]:
    """Returns these bodies by the checks that try them: as many as one check tries, and at most one in each function."""
    batches, left = [], bodies
    while left:
        inside: dict[str, WrongBody] = {}
        for body in left:
            if len(inside) < AT_ONCE:
                inside.setdefault(body.function, body)
        batches.append([*inside.values()])
        left = [body for body in left if inside.get(body.function) is not body]
    return batches


def planted(batch: list[WrongBody], crate: pathlib.Path) -> dict[str, str]:
    """Returns the texts of a crate's files with these bodies, which stand side by side."""
    texts: dict[str, str] = {}
    for body in batch:
        body.plant(texts, crate)
    return texts


def asked(crates: dict[str, list[str]], name: str, texts: dict[str, str], functions: list[str], kept: str) -> Said:
    """What the prover says of these functions, once a processor is there for the check."""
    with SLOTS:
        start = time.monotonic()
        said = ask(crates, name, texts, functions, kept)
        TOOK[name].append(time.monotonic() - start)
    return said


def tried(crates: dict[str, list[str]], name: str, batch: list[WrongBody], kept: str) -> tuple[list[str], list[WrongBody]]:
    """Tries the wrong bodies of one check. Returns what is wrong with them, and which are to be tried again without the others."""
    texts = planted(batch, pathlib.Path("crates", name))
    functions = [body.function for body in batch]
    said = asked(crates, name, texts, functions, kept)
    if not said.has_judged:
        return [f"{name}: BAD EDIT: the prover can't read the texts:\n{said.first_lines()}"], []
    accepted = [body for body in batch if not said.is_refused(body.file, body.function)]
    hidden = [body for body in accepted if said.is_hidden(body.function, functions)]
    return [f"{name}/{body.name}: NOT REFUSED: {body.function}: {said.verdict(body.function)}"
            for body in accepted if body not in hidden], hidden


def tried_beside(crates: dict[str, list[str]], name: str, batch: list[WrongBody], kept: str) -> tuple[list[str], list[WrongBody]]:
    """The same beside other checks of the crate: it begins with what the first of them kept."""
    with tempfile.TemporaryDirectory(prefix=f"kept-{name}-") as own:
        with SLOTS:
            shutil.copytree(kept, own, dirs_exist_ok=True)
        return tried(crates, name, batch, own)


def faults_of(crates: dict[str, list[str]], name: str, bodies: list[WrongBody], kept: str) -> list[str]:
    """Returns what is wrong with a crate's wrong bodies; of those that are refused nothing is said."""
    first, *others = batches_of(bodies)
    done = [tried(crates, name, first, kept)]
    with concurrent.futures.ThreadPoolExecutor(len(others) + 1) as pool:
        done += pool.map(lambda batch: tried_beside(crates, name, batch, kept), others)
    faults = [fault for found, _ in done for fault in found]
    while left := [body for _, hidden in done for body in hidden]:
        done = [tried(crates, name, batch, kept) for batch in batches_of(left)]
        faults += [fault for found, _ in done for fault in found]
        if sum(len(hidden) for _, hidden in done) == len(left):
            return [*faults, *(f"{name}/{body.name}: NOT REFUSED: only what it calls is" for body in left)]
    return faults


def refused_as_they_are(crates: dict[str, list[str]], name: str, bodies: list[WrongBody], kept: str) -> list[str]:
    """Returns which of the functions that a crate's wrong bodies are in are refused with their own bodies."""
    own = {body.function: body.file for body in bodies}
    texts = {file: pathlib.Path("crates", name, file).read_text() for file in own.values()}
    said = asked(crates, name, texts, [*own], kept)
    wrong = [function for function in own if not said.verdict(function).startswith(("no holes", "depends on a hole"))]
    return [f"{name}: REFUSED AS IT IS: {function}: {said.verdict(function) or said.first_lines()}" for function in wrong]


def judged(judge: Judge, crates: dict[str, list[str]], name: str, bodies: list[WrongBody]) -> list[str] | None:
    """Returns what is wrong with a crate's wrong bodies; None if a check took longer than it may."""
    try:
        with tempfile.TemporaryDirectory(prefix=f"kept-{name}-") as kept:
            return judge(crates, name, bodies, kept)
    except subprocess.TimeoutExpired:
        return None


def try_crate(judge: Judge, crates: dict[str, list[str]], name: str, bodies: list[WrongBody]) -> list[str]:
    """Tries a crate's wrong bodies, once more if other work held that up, says how it went, and returns what is wrong."""
    try:
        faults = judged(judge, crates, name, bodies)
        if faults is None:
            faults = judged(judge, crates, name, bodies)
        if faults is None:
            faults = [f"{name}: NOT TRIED: held up twice"]
    except PageError as error:
        faults = [f"{name}: BAD EDIT: {error}"]
    print(f"{name}: {len(bodies)} planted, {sum(TOOK[name]):.0f} s", *faults, sep="\n", flush=True)
    return faults


def lines_of(name: str) -> int:
    """Returns how many lines a crate's sources have, by which the largest are tried first."""
    return sum(file.read_text().count("\n") for file in pathlib.Path("crates", name, "src").rglob("*.rt"))


def try_all(judge: Judge, crates: dict[str, list[str]], bodies: dict[str, list[WrongBody]]) -> list[str]:
    """Tries the wrong bodies of some crates, one check a processor, and returns what is wrong."""
    build_libraries(crates, list(bodies))
    with concurrent.futures.ThreadPoolExecutor(max(1, len(bodies))) as pool:
        order = sorted(bodies, key=lines_of, reverse=True)
        return sum(pool.map(lambda name: try_crate(judge, crates, name, bodies[name]), order), [])


def main() -> int:
    parser = argparse.ArgumentParser(description="Plants the wrong bodies of must-fail/calls.md, which must be refused.")
    parser.add_argument("--read", action="store_true", help="only look whether each stands where its page says")
    parser.add_argument("--right", action="store_true", help="plant none: no function may be refused")
    parser.add_argument("crates", nargs="*", metavar="CRATE", help="a crate that has such a page; all, if none is named")
    asked, crates = parser.parse_args(), read_crates()
    if wrong := wrong_readings():
        sys.exit("\n".join(wrong))
    pages = {name: pathlib.Path("crates", name, PAGE) for name in asked.crates or crates}
    try:
        bodies = {name: read_bodies(page) for name, page in pages.items() if page.exists() or asked.crates}
        for name, own in bodies.items():
            for body in own:
                body.plant({}, pathlib.Path("crates", name))
            for batch in batches_of(own):
                planted(batch, pathlib.Path("crates", name))
    except (PageError, OSError) as error:
        sys.exit(f"BAD EDIT: {error}")
    count = sum(map(len, bodies.values()))
    if asked.read:
        print(f"{count} wrong bodies of {len(bodies)} crates can be planted")
        return 0
    start = time.monotonic()
    faults = try_all(refused_as_they_are if asked.right else faults_of, crates, bodies)
    minutes = (time.monotonic() - start) / 60
    if asked.right:
        print(f"{minutes:.1f} minutes; the functions of {len(bodies)} crates as they are: {len(faults)} refused")
    else:
        print(f"{minutes:.1f} minutes; {count} wrong bodies of {len(bodies)} crates planted: {len(faults)} not refused")
    return 1 if faults else 0


if __name__ == "__main__":
    sys.exit(main())

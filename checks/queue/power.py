#!/usr/bin/env python3
"""A power cut: the files of a queue as they are on the disk at a drawn moment, by the system's calls of whoever writes them; of what was
written after the last flush only a drawn part is there. Opened again, each job and each outcome that was acknowledged must be there.

usage: power.py QUEUE SYNCHRONOUS, which submits jobs and ends them, and prints what is acknowledged
"""
import os
import pathlib
import random
import shutil
import sys
import tempfile
from dataclasses import dataclass, field

import places
from processes import PATIENCE
from written import Disk, Event, Flushed, Said, traced

from arena.queue import NewJob, Program, State, Store
from arena.queue.model import Ending, Wants
from arena.queue.turns import Turns

SQUARE = Program.of([[["mul", 2, 0, 0], ["ret", 2]]])
TURNS, BATCH = 60, 3
PAGES = 60
"""After how many pages the log is folded into the file, so that this happens several times."""

CUTS, SEED = 120, 1


def work(queue: str, synchronous: str) -> None:
    """Submits jobs, and ends those of the last turn; what is printed is acknowledged."""
    with Turns(queue, synchronous) as it:
        it.base.rows(f"PRAGMA wal_autocheckpoint = {PAGES}")
        me, endings = it.register("me", 1000.0), list[Ending]()
        for turn in range(TURNS):
            new = [NewJob("acme", SQUARE, (n, 0), 100, f"k{n}") for n in range(turn * BATCH, turn * BATCH + BATCH)]
            acknowledge("kept", *(f"{one.job}:{job.key}" for one, job in zip(it.submit(new), new, strict=True)))
            claims = it.turn(me, endings, wants=Wants({"acme": BATCH})).claims.get("acme", [])
            acknowledge("ended", *(one.job for one in endings))
            endings = [Ending(one.job, one.attempt, State.COMPLETE, one.x * one.x, tenant="acme") for one in claims]


def acknowledge(*words: object) -> None:
    """Prints a line, by one call."""
    os.write(1, f"{' '.join(map(str, words))}\n".encode())


@dataclass
class Known:
    """What was acknowledged: the keys of jobs, and those of them that have ended."""

    keys: dict[int, str] = field(default_factory=dict)
    ended: set[int] = field(default_factory=set)

    def take(self, said: str) -> None:
        """Notes what was printed."""
        for line in said.splitlines():
            what, *words = line.split()
            if what == "kept":
                self.keys |= {int(number): key for number, _, key in (it.partition(":") for it in words)}
            else:
                self.ended |= {int(it) for it in words}

    def lost(self, queue: str) -> list[str]:
        """What of it a queue does not have."""
        with Store(queue, "off") as it:
            if (said := it.base.rows("PRAGMA integrity_check")) != [("ok",)]:
                return [f"the file: {said}"]
            rows = {number: more for number, *more in it.base.rows("SELECT id, key, state, value, x FROM job")}
        lost = [f"job {number}" for number, key in self.keys.items() if number not in rows or rows[number][0] != key]
        return lost + [f"the outcome of job {number}" for number in self.ended & rows.keys()
                       if rows[number][1:3] != ["complete", rows[number][3] ** 2]]


def losses(synchronous: str) -> tuple[list[str], int]:
    """What drawn power cuts have lost that was acknowledged, and how often the log was folded into the file."""
    with tempfile.TemporaryDirectory(prefix="power-") as folder:
        queue = os.path.join(folder, "queue.sqlite")
        Store(queue, make=True).close()
        disk = Disk({queue: bytearray(pathlib.Path(queue).read_bytes()), f"{queue}-wal": bytearray()})
        events = traced([sys.executable, pathlib.Path(__file__).resolve(), queue, synchronous], pathlib.Path(folder) / "calls", PATIENCE,
                        env={**os.environ, "PYTHONPATH": places.PACKAGE})
        return cuts(events, disk, pathlib.Path(folder) / "cut"), events.count(Flushed(queue))


def cuts(events: list[Event], disk: Disk, folder: pathlib.Path) -> list[str]:
    """What is lost by power cuts at drawn moments."""
    draws, known, lost = random.Random(SEED), Known(), list[str]()
    moments = set(draws.sample(range(len(events)), min(CUTS, len(events))))
    for number, event in enumerate(events):
        disk.take(event)
        if isinstance(event, Said):
            known.take(event.text)
        if number in moments:
            folder.mkdir()
            for path, it in disk.cut(draws).items():
                (folder / os.path.basename(path)).write_bytes(it)
            lost += known.lost(str(folder / "queue.sqlite"))
            shutil.rmtree(folder)
    assert len(known.keys) == TURNS * BATCH and len(known.ended) == (TURNS - 1) * BATCH, "what was traced is not all that was done"
    return lost


def a_power_cut_loses_nothing() -> None:
    """Nothing that was acknowledged is lost; where submissions are not flushed, the same cuts lose some, and never the file."""
    if shutil.which("strace") is None:
        print("strace is not installed: power cuts were not tried")
        return
    lost, folds = losses("full")
    assert not lost, lost
    assert folds > 1, "the log was not folded into the file"
    lost, _ = losses("normal")
    assert lost and not any(it.startswith("the file") for it in lost), lost[:3]


CHECKS = (a_power_cut_loses_nothing,)

if __name__ == "__main__":
    work(*sys.argv[1:])

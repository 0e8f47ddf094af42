"""Seeds that are tried, one after another and side by side."""
import os
import pathlib
import queue
import time
from collections.abc import Iterator
from concurrent.futures import ThreadPoolExecutor
from dataclasses import dataclass

from judging import faults
from running import KILLED, Place, run_host, run_server

TWICE = 15
"""Every how many seeds one is run twice."""


@dataclass(frozen=True)
class Outcome:
    """What came of a seed."""

    seed: int
    steps: int
    kills: int
    faults: list[str]


@dataclass(frozen=True)
class Bench:
    """The programs that are tried, and the library."""

    program: pathlib.Path
    script: pathlib.Path | None
    library: pathlib.Path
    stops: pathlib.Path
    processors: "queue.SimpleQueue[int]"
    """Those at which no run is under way."""
    is_host: bool = False

    def tried(self, seed: int, trace: pathlib.Path | None = None) -> Outcome:
        """Runs a seed, some of them twice, and judges it."""
        processor = self.processors.get()
        play = run_host if self.is_host else run_server
        parts = play(self.program, seed, Place(self.library, self.stops, processor, trace))
        again = play(self.program, seed, Place(self.library, self.stops, processor)) if seed % TWICE == 0 else parts
        self.processors.put(processor)
        found = list(faults(parts, self.script))
        choices, same = ([(it.run.steps, it.run.hash) for it in run] for run in (parts, again))
        if choices != same:
            found.append(f"the same seed gave another run: {choices}, and then {same}")
        return Outcome(seed, sum(it.run.steps for it in parts), sum(it.run.end == KILLED for it in parts), found)

    def all_tried(self, first: int, steps: int, seconds: float) -> Iterator[Outcome]:
        """Runs one seed after another from that one on, on all processors, until so many steps are taken or the time is over."""
        lanes, taken, end = len(os.sched_getaffinity(0)), 0, time.monotonic() + seconds
        with ThreadPoolExecutor(lanes) as pool:
            while taken < steps and time.monotonic() < end:
                for outcome in pool.map(self.tried, range(first, first + 2 * lanes)):
                    taken += outcome.steps
                    yield outcome
                first += 2 * lanes

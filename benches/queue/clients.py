#!/usr/bin/env python3
"""A client that keeps K jobs in flight for some seconds, each submitted, waited for and read, and prints how many a second ended,
the median time of one in milliseconds, and the client's processor time for one in microseconds.

usage: clients.py queue FILE-OR-URL SYNCHRONOUS K SECONDS, clients.py celery K SECONDS, or clients.py beanstalk|gearman PORT K SECONDS
"""
import collections
import json
import statistics
import sys
import time

# fib(6), which is 8, by a loop.
LOOP = [[["set", 2, 0], ["set", 3, 1], ["set", 5, 1], ["jz", 0, 9], ["add", 4, 2, 3], ["add", 2, 3, 6], ["add", 3, 4, 6],
         ["sub", 0, 0, 5], ["jmp", 3], ["ret", 2]]]


def by_queue(path: str, synchronous: str, most: int, seconds: float) -> list[float]:
    """How long each job took, in seconds."""
    from arena.queue import NewJob, Program, Store
    program, took, out = Program.of(LOOP), [], {}
    with Store(path, synchronous) as queue, queue.base.waker("ended") as waker:
        end = time.perf_counter() + seconds
        while out or time.perf_counter() < end:
            at = time.perf_counter()
            if at < end and len(out) < most:
                out |= {it.job: at for it in queue.submit([NewJob("acme", program, (6, 0), 1000)] * (most - len(out)))}
            rows = queue.base.rows(f"SELECT id, value FROM job WHERE ended_at IS NOT NULL AND id IN ({','.join(map(str, out))})")
            for job, value in rows:
                assert value == 8
                took.append(time.perf_counter() - out.pop(job))
            if not rows:
                waker.wait(0.5)
    return took


def by_celery(most: int, seconds: float) -> list[float]:
    """The same by Celery."""
    from engine import fib
    took, out = [], collections.deque()
    end = time.perf_counter() + seconds
    while out or time.perf_counter() < end:
        if time.perf_counter() < end and len(out) < most:
            out.append((time.perf_counter(), fib.delay(6)))
            continue
        at, result = out.popleft()
        assert result.get(timeout=60) == 8
        took.append(time.perf_counter() - at)
    return took


def main() -> None:
    """Measures, and prints."""
    kind, *words, most, seconds = sys.argv[1:]
    began = time.perf_counter()
    match kind:
        case "queue":
            took = by_queue(words[0], words[1], int(most), float(seconds))
        case "celery":
            took = by_celery(int(most), float(seconds))
        case "gearman":
            from gearman import by_gearman
            took = by_gearman(int(words[0]), int(most), float(seconds))
        case _:
            from beanstalk import by_beanstalk
            took = by_beanstalk(int(words[0]), int(most), float(seconds))
    print(json.dumps({"jobs": len(took), "rate": len(took) / (time.perf_counter() - began), "ms": 1000 * statistics.median(took),
                      "us": 1e6 * time.process_time() / len(took)}))


if __name__ == "__main__":
    main()

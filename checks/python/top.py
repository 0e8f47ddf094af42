#!/usr/bin/env python3
"""Watches a host by `arena top`, and reckons its rates. What is wanted comes from docs/HOST.md.

usage: checks/python/top.py, at the top of the repository. It needs no built program.
"""
import contextlib
import os
import pty
import re
import signal
import subprocess
import sys
import time

sys.path.insert(0, os.path.abspath("python"))

from calls import by_keyboard
from fake_host import FakeHost, closed, reading, run_checks, slept, term
from serving import PACKAGE, PATIENCE

from arena.host.rates import Rates, Watch, rates_between
from arena.host.report import duration, sections_of, size, to_text


def rates_are_those_of_the_time_between():
    old = {"state": "finishing", "why": "history"}
    first = reading(100.5, term(4, entries=10, asks=4, jobs=2, **old), term(4, "gone", **old), closed=[closed(3)])
    last = reading(102.5, term(4, entries=110, asks=5, jobs=2, **old), term(5, entries=7, asks=6, jobs=1), term(0, "beta"),
                   closed=[closed(3)])
    assert rates_between(first, last) == {("acme", 4): Rates(50.0, 0.5, 0.0), ("acme", 5): Rates(3.5, 3.0, 0.5),
                                          ("beta", 0): Rates(0.0, 0.0, 0.0)}
    assert rates_between(first, first) == rates_between(last, first) == {}
    another = reading(102.5, term(4, entries=110, asks=5, jobs=2), term(5), began=2)
    assert rates_between(first, another) == {}
    # An old term that was not there before, and a count that went down, tell of no rate.
    odd = reading(104.5, term(3), term(4, entries=109, asks=9, jobs=9))
    assert rates_between(last, odd) == {}
    watch = Watch()
    assert watch.total() is None
    for it in (first, last, last):
        watch.take(it)
    assert watch.of("acme", 4) == Rates(50.0, 0.5, 0.0) and watch.of("gone", 4) is None
    assert watch.total() == Rates(53.5, 3.5, 0.5)
    rates_of_minutes_are_kept()


def rates_of_minutes_are_kept():
    """Ten minutes of a host that makes a job a second, and then four in the last second of each minute: of these five minutes
    are kept, 300 spans, of which 5 have four jobs more."""
    watch, jobs = Watch(), 0
    for second in range(601):
        jobs += 5 if second % 60 == 59 else 1
        watch.take(reading(1000.0 + second, term(1, entries=2 * second, asks=3 * second, jobs=jobs)))
        assert (watch.recent() is None) == (second < 3)
    recent = watch.recent()
    assert recent.seconds == 300 and recent.mean() == Rates(2.0, 3.0, (300 + 5 * 4) / 300), recent.mean()
    assert [recent.jobs_within(it) for it in (50, 90, 98, 99, 100)] == [1.0, 1.0, 1.0, 5.0, 5.0]
    text = to_text(sections_of(watch.now.status, watch))
    assert ("\nover 5 min: 2.0 entries, 3.0 requests and 1.1 jobs a second; jobs in half of the time at most 1.0, in 90 % 1.0, "
            "always 5.0\n") in text, text


def numbers_are_shown():
    assert [duration(it) for it in (0, 59, 60, 3600, 3661, 90_000, 2_000_000, -5)] == [
        "0 s", "59 s", "1 min", "1 h", "1 h 1 min", "1 d 1 h", "23 d 3 h", "-5 s"]
    assert [size(it) for it in (0, 1023, 1024, 81_264_640, 2**40 * 5000)] == [
        "0 bytes", "1023 bytes", "1.0 KiB", "77.5 MiB", "5000.0 TiB"]


def two_readings(folder, every):
    """Writes a reading, and what writes the next one, which is two seconds younger, at the sleep of so many seconds.
    However long a busy machine takes from one to the other, neither of them is stale, as it would be after five
    seconds."""
    now = time.time()
    folder.write(folder.status(term(7, entries=100, asks=10, jobs=1, began=int(now)), at=now), now)

    def later(seconds):
        """The second reading."""
        assert seconds == every, seconds
        then = folder.status(term(7, entries=600, asks=11, jobs=4, began=int(now)), at=now + 2)
        folder.write(then, now + 2)

    return later


def rates_are_shown(it, folder):
    """500 entries, one request and three jobs more in two seconds; 4,400 entries are left to the 5,000 of 10,000."""
    line = r"acme +7 +serving +2 s +600 +10,000 +6\.0 +11 +4 +4 +4 +0 +0 +0 +250\.0 +0\.5 +1\.5 +17 s"
    with contextlib.closing(folder.lock()):
        with slept(two_readings(folder, 2.0)):
            it.call("top", folder.path, "--once", out=re.compile(
                rf"(?s)host: .*\n250\.0 entries, 0\.5 requests and 1\.5 jobs a second\n.*\n{line}\n\n"))
        with slept(two_readings(folder, 0.5), interrupt):
            first = r"acme +7 +serving +0 s +100 +10,000 +1\.0 +10 +1 +1 +1 +0 +0 +0 +- +- +- +-"
            it.call("top", "--every", "0.5", out=re.compile(rf"(?s)host: .*\n{first}\n\nhost: .*\n{line}\n\n"),
                    ARENA_RUN=folder.path)
        with slept(two_readings(folder, 2.0)):
            it.call("top", folder.path, "--once", "--json", out=re.compile(
                r'\{"connections":0,"recent":null,"served":0,"terms":\[\{.*"per_second":\{"asks":0\.5,"entries":250\.0,"jobs":1\.5\},'
                r'.*\],"time":\d+,"total":\{"asks":0\.5,"entries":250\.0,"jobs":1\.5\}\}\n'))
        folder.write(folder.status(at=time.time() - 60))
        with slept(lambda seconds: None):
            it.call("top", folder.path, "--once", out=re.compile(r"(?s)stale: written 6\d s ago, .*\n\nhost: .*"))


def interrupt(_):
    """What Ctrl-C does to a sleep."""
    raise KeyboardInterrupt


def top_ends_with_its_host(it, folder):
    lock = folder.lock()
    folder.write(folder.status(term(0)))
    with slept(lambda seconds: None, lambda seconds: lock.close()):
        it.call("top", folder.path, status=11, out=re.compile(r"(?s)(host: .*\n\n){2}"), err=": the host has gone\n$")


def top_ends_with_the_keyboard():
    with FakeHost() as host:
        words = [sys.executable, "-m", "arena", "top", host.path, "--every", "0.1"]
        process = subprocess.Popen(words, stdout=subprocess.PIPE, stderr=subprocess.PIPE, text=True,
                                   env={**os.environ, "PYTHONPATH": PACKAGE}, preexec_fn=by_keyboard)
        assert process.stdout.readline().startswith("host: 1 tenant served"), process
        process.send_signal(signal.SIGINT)
        _, err = process.communicate(timeout=PATIENCE)
        assert (process.returncode, err) == (0, ""), (process.returncode, err)


def top_stays_in_place_on_a_terminal():
    """Each block begins at the top of the terminal, and none is wider or higher than it."""
    with FakeHost(tenants=[f"tenant-{it}" for it in range(60)]) as host:
        ours, its = pty.openpty()
        size_of_its = {"COLUMNS": "40", "LINES": "20", "TERM": "xterm"}
        words = [sys.executable, "-m", "arena", "top", host.path, "--every", "0.05", "--once"]
        done = subprocess.run(words, stdout=its, stderr=subprocess.PIPE, env={**os.environ, "PYTHONPATH": PACKAGE,
                                                                               **size_of_its}, timeout=PATIENCE)
        os.close(its)
        text = drained(ours)
    assert (done.returncode, done.stderr) == (0, b""), done
    begin, lines, end = re.fullmatch(r"(?s)\x1b\[\?25l\x1b\[2J\x1b\[H(.*?)(\x1b\[J)\x1b\[\?25h", text).group(0, 1, 2)
    assert begin and end, text
    lines = [line.removesuffix("\x1b[K") for line in lines.split("\r\n")]
    assert len(lines) <= 20 and lines[-2:] == ["...", ""] and max(map(len, lines)) == 40, lines


def drained(terminal):
    """What is left to read of a terminal whose other side is closed."""
    data = b""
    with contextlib.suppress(OSError):  # how Linux tells the end
        while more := os.read(terminal, 65536):
            data += more
    os.close(terminal)
    return data.decode()


CALLED = [rates_are_shown, top_ends_with_its_host]
CHECKS = [rates_are_those_of_the_time_between, numbers_are_shown, top_ends_with_the_keyboard,
          top_stays_in_place_on_a_terminal]


sys.exit(run_checks("calls of `arena top`", CALLED, CHECKS))
